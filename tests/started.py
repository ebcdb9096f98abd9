"""What the examples share: programs that they start and end, the locator among them, and steps that are judged."""

from __future__ import annotations

import contextlib
import os
import signal
import socket
import subprocess
import sys
import time
from pathlib import Path
from typing import Callable, Dict, Iterator, List, Optional, Sequence

TOP = Path(__file__).resolve().parent.parent
# Where Debian has the programs of servers.
os.environ["PATH"] = f"{os.environ.get('PATH', '')}:/usr/sbin"
sys.path[:0] = [str(TOP / "clients/python"), str(TOP / "tools")]
import ports as own  # noqa: E402
import siploc  # noqa: E402


class Failed(Exception):
    """What ends an example, with its cause."""


def program(words: Sequence[str]) -> str:
    """The locator's program: the first word, or SIPLOC, or the one that was built here."""
    path = Path(words[0] if words else os.environ.get("SIPLOC", TOP / "crates/siploc/out/siploc")).resolve()
    if not os.access(path, os.X_OK):
        raise Failed(f"{path}: there is no program; name one, such as dev/try --program makes (README, Install and run)")
    return str(path)


def daemon_program() -> str:
    """The daemon's program: SIPLOCD, or the one that was built here."""
    return program([os.environ.get("SIPLOCD", str(TOP / "crates/siplocd/out/siplocd"))])


def daemon_beside(path: str) -> str:
    """The daemon's program: SIPLOCD, or beside that of the locator, or the one that was built here."""
    beside = Path(path).with_name(Path(path).name.replace("siploc", "siplocd", 1))
    there = [it for it in (os.environ.get("SIPLOCD"), beside, TOP / "crates/siplocd/out/siplocd") if it
             and os.access(it, os.X_OK)]
    if not there:
        raise Failed("there is no siplocd; SIPLOCD names one")
    return str(there[0])


def free_ports(count: int, kind: int = socket.SOCK_STREAM) -> List[int]:
    """Ports of 127.0.0.1 that nobody has, none given twice (tools/ports.py)."""
    ports: List[int] = []
    while len(ports) < count:
        port = own.free_port()
        with socket.socket(socket.AF_INET, kind) as probe, contextlib.suppress(OSError):
            probe.bind(("127.0.0.1", port))
            ports.append(port)
    return ports


def wait_for(what: str, is_so: Callable[[], object], seconds: float = 60.0, pause: float = 0.02) -> None:
    """Waits until something is so, for as long as a busy machine may need."""
    end = time.monotonic() + seconds
    while not is_so():
        if time.monotonic() > end:
            raise Failed(f"{what}: not within {seconds:g} seconds")
        time.sleep(pause)


def children_of(pid: int) -> List[int]:
    """The processes that a process has started, and that run."""
    found = []
    for path in Path("/proc").glob("[0-9]*/stat"):
        with contextlib.suppress(OSError, IndexError):
            if int(path.read_text().rsplit(")", 1)[1].split()[1]) == pid:
                found.append(int(path.parent.name))
    return found


class Started:
    """A program that was started here. What it prints goes to a file of its name."""

    def __init__(self, folder: Path, name: str, words: Sequence[str], environment: Optional[Dict[str, str]] = None,
                 cwd: Optional[Path] = None) -> None:
        self.name, self.log = name, folder / f"{name}.log"
        try:
            with self.log.open("ab") as log:
                self.process = subprocess.Popen(words, stdin=subprocess.DEVNULL, stdout=log, stderr=log,
                                                env={**os.environ, **(environment or {})}, cwd=cwd or folder)
        except OSError as fault:
            raise Failed(f"{words[0]}: {fault.strerror}") from fault

    def is_up(self) -> bool:
        """Whether it runs. Where it has ended, what it printed last is the cause."""
        if self.process.poll() is not None:
            raise Failed(f"{self.name} ended with {self.process.returncode}: {self.log.read_text()[-500:].strip()}")
        return True

    def end(self) -> None:
        """Ends it, by force where it takes more than five seconds."""
        if self.process.poll() is None:
            self.process.terminate()
            try:
                self.process.wait(5)
            except subprocess.TimeoutExpired:
                self.kill()

    def kill(self) -> None:
        """Ends it at once, and the processes that it has started: those of Kamailio would go on without it."""
        children = children_of(self.process.pid) if self.process.poll() is None else []
        self.process.kill()
        self.process.wait()
        for it in children:
            with contextlib.suppress(ProcessLookupError):
                os.kill(it, signal.SIGKILL)


class Locator(Started):
    """A locator without zones. This is the one place where the examples know which program it is: the daemon has
    the same lines, and settings of its own."""

    def __init__(self, path: str, folder: Path, name: str, port: int, settings: str = "") -> None:
        self.address = f"127.0.0.1:{port}"
        # So many connections that the program does not end before it is ended. Without repair workers: what an edit
        # outdates is looked up at its next question.
        text = f'listen = "{self.address}"\nsessions = 100000\nworkers = 0\n{settings}'
        super().__init__(folder, name, [path, "serve", text])
        wait_for(f"{name} at {self.address}", self.listens, 60)

    def listens(self) -> bool:
        self.is_up()
        try:
            siploc.connect(self.address, 5).close()
        except siploc.NotConnected:
            return False
        return True


class Daemon(Locator):
    """The daemon without zones, with a state, whose time is that of `clock` lines."""

    def __init__(self, path: str, folder: Path, name: str, port: int, settings: str = "",
                 environment: Optional[Dict[str, str]] = None) -> None:
        self.address, self.state = f"127.0.0.1:{port}", folder / f"{name}.state"
        text = f'listen = ["{self.address}"]\nclock = "lines"\nstate = "{self.state}"\nworkers = 0\n{settings}'
        Started.__init__(self, folder, name, [daemon_beside(path), text], environment)
        wait_for(f"{name} at {self.address}", self.listens, 60)


class Steps:
    """Steps that are printed with what was seen, and judged."""

    def __init__(self) -> None:
        self.passed = self.failed = 0

    def see(self, what: str, seen: object, is_wanted: bool) -> None:
        """Prints a step with what was seen."""
        self.passed += is_wanted
        self.failed += not is_wanted
        print(f"{'ok  ' if is_wanted else 'NOT '} {what}: {seen}", flush=True)

    def end(self) -> int:
        """Prints `passed` only if all was as wanted; the status."""
        if self.failed or not self.passed:
            print(f"not passed: {self.failed} of {self.passed + self.failed} steps are not as wanted")
            return 1
        print("passed")
        return 0


@contextlib.contextmanager
def ended(stack: List[Started]) -> Iterator[List[Started]]:
    """Ends all programs of a list, the last one first."""
    try:
        yield stack
    finally:
        for each in reversed(stack):
            each.end()


def load() -> str:
    """What else the machine does, for figures."""
    return f"{os.cpu_count()} processors, load {os.getloadavg()[0]:.1f}"
