"""What the tests of the daemon share: its process, its clients, and the checks of a test."""

from __future__ import annotations

import contextlib
import itertools
import mmap
import os
import pathlib
import re
import resource
import select
import signal
import socket
import struct
import subprocess
import sys
import threading
import time
import traceback
from typing import Any, Callable, Iterator, Optional, Sequence

TOP = pathlib.Path(__file__).resolve().parent.parent.parent.parent
# The program that is tested.
PROGRAM = os.environ["PROGRAM"]
SEED = int(os.environ.get("SEED", "1"))
# What a busy machine may need for what takes no time; nothing is measured here.
PATIENCE = int(os.environ.get("PATIENCE", "60"))
FOR_EVER = 1 << 40
ENDS = (b"ok", b"none", b"err")
# How a line of the log begins.
LOGGED = re.compile(r"(<[0-7]>)?(error|warn|info|debug) event=")
TESTS: list[Callable[["Checks", pathlib.Path], None]] = []
# Of the daemons that this process has started.
NUMBERS = itertools.count(1)


def test(function: Callable[["Checks", pathlib.Path], None]) -> Callable[["Checks", pathlib.Path], None]:
    """Marks a test."""
    TESTS.append(function)
    return function


def place_of_test() -> str:
    """The file and the line where a test is now; of a thread's own part those of its check."""
    frames = [it for it in traceback.walk_stack(sys._getframe(2)) if it[0].f_code.co_name != "equal"]
    names = [it.f_code.co_name for it, _ in frames]
    frame, line = frames[names.index("run_test") - 1] if "run_test" in names[1:] else frames[0]
    return f"{os.path.relpath(frame.f_code.co_filename, TOP)}:{line}"


class Checks:
    """The checks of a test."""

    def __init__(self, name: str) -> None:
        self.name, self.passed, self.faults = name, 0, []

    def expect(self, is_so: object, text: object) -> None:
        self.passed += bool(is_so)
        if not is_so:
            self.faults.append(f"{place_of_test()}: {text}"[:1_000])

    def equal(self, got: object, wanted: object, of: object) -> None:
        self.expect(got == wanted, f"{of}: {got!r}, and not {wanted!r}")


def until(is_so: Callable[[], Any], seconds: float = PATIENCE) -> Any:
    """Waits until something is so, and returns what it is; what it is at last where it is not in time."""
    end = time.monotonic() + seconds
    while not (value := is_so()) and time.monotonic() < end:
        time.sleep(0.01)
    return value


def polled(file: Any, events: int, seconds: float = 0) -> bool:
    """Whether a file has one of these events, or an end, within some seconds."""
    poll = select.poll()
    poll.register(file, events)
    return bool(poll.poll(1_000 * seconds))


def connect(address: str, is_slow: bool = False) -> socket.socket:
    """A stream to an address, as settings have it; or one of which the system keeps little that is not read."""
    if address.startswith("unix:"):
        stream = socket.socket(socket.AF_UNIX)
        place: Any = address[5:]
    else:
        host, _, port = address.rpartition(":")
        stream = socket.socket(socket.AF_INET6 if host[0] == "[" else socket.AF_INET)
        place = (host.strip("[]"), int(port))
    stream.settimeout(PATIENCE)
    if is_slow:
        stream.setsockopt(socket.SOL_SOCKET, socket.SO_RCVBUF, 4096)
        if stream.family != socket.AF_UNIX:
            # (small segments, so that it tells the other end at once what it has taken)
            stream.setsockopt(socket.IPPROTO_TCP, socket.TCP_MAXSEG, 1_000)
    stream.connect(place)
    return stream


class Client:
    """A client of lines: what it sends is what it is told, right or wrong."""

    def __init__(self, address: str, is_slow: bool = False) -> None:
        self.stream, self.rest = connect(address, is_slow), b""

    def __enter__(self) -> "Client":
        return self

    def __exit__(self, *_: object) -> None:
        self.stream.close()

    def send(self, text: str) -> None:
        self.stream.sendall(text.encode())

    def line(self) -> str | None:
        """The next line; None where the connection ends before."""
        while b"\n" not in self.rest:
            try:
                octets = self.stream.recv(1 << 16)
            except ConnectionError:
                return None
            if not octets:
                return None
            self.rest += octets
        line, self.rest = self.rest.split(b"\n", 1)
        return line.decode()

    def reply(self) -> list[str] | None:
        """The lines of the next reply; None where the connection ends before its last."""
        lines: list[str] = []
        while not lines or lines[-1].split(" ")[0].encode() not in ENDS:
            line = self.line()
            if line is None:
                return None
            lines.append(line)
        return lines

    def ask(self, line: str) -> list[str] | None:
        self.send(line + "\n")
        return self.reply()

    def is_ended(self) -> bool:
        """Whether the server has ended the connection; waits for that."""
        with contextlib.suppress(ConnectionError):
            while self.stream.recv(1 << 16):
                pass
        return True

    def has_reply(self) -> bool:
        """Whether there is anything to read, or the end of the connection."""
        return bool(self.rest) or polled(self.stream, select.POLLIN)

    def is_hung_up(self) -> bool:
        """Whether the server has ended the connection, whatever is not read yet."""
        return polled(self.stream, 0)

    def reset(self) -> None:
        """Ends the connection as the end of a machine does."""
        self.stream.setsockopt(socket.SOL_SOCKET, socket.SO_LINGER, struct.pack("ii", 1, 0))
        self.stream.close()


class Daemon:
    """A daemon that a test has started: `address` is where its clients go."""

    def __init__(self, folder: pathlib.Path, settings: str = "", unix: str = "", limit: int = 0,
                 has_input: bool = False,
                 waits: bool = True, listen: Sequence[str] = (), find: Sequence[str] = (), control: str = "",
                 umask: int = -1,
                 environment: Optional[dict[str, str]] = None, file: Optional[pathlib.Path] = None) -> None:
        self.folder = folder
        # (the system chooses the ports, and the daemon prints them)
        own = ["127.0.0.1:0"] + (["[::1]:0", unix] if unix else [])
        # Where it listens, as it prints that; the last is `control`.
        self.addresses = [*(listen or own), *find, control or f"unix:{folder}/control"]
        self.address, self.control = self.addresses[0], self.addresses[-1]
        self.text = f"{settings}\n"
        for key, value in ("control", self.control), ("find", [*find]), ("listen", [*(listen or own)]):
            if value and f"{key} =" not in settings:
                self.text = f"{key} = {value!r}\n".replace("'", '"') + self.text
        words = [self.text]
        if file:
            file.write_text(self.text)
            words = ["--config", str(file)]
        self.errors = folder / f"errors-{next(NUMBERS)}"
        with self.errors.open("wb") as errors:
            limited = ["sh", "-c", f'ulimit -n {limit}; exec "$0" "$@"'] if limit else []
            self.process = subprocess.Popen([*limited, PROGRAM, *words], cwd=folder, stdout=subprocess.PIPE,
                                            stderr=errors,
                                            stdin=subprocess.PIPE if has_input else subprocess.DEVNULL, umask=umask,
                                            env={**os.environ, **(environment or {})})
        self.lines: list[str] = []
        self.reader = threading.Thread(target=self.read, daemon=True)
        self.reader.start()
        if waits and until(lambda: self.is_ready() or self.process.poll() is not None) and self.is_ready():
            self.addresses = [line.removeprefix("ready ") for line in self.lines]
            self.address, self.control = self.addresses[0], self.addresses[-1]

    def read(self) -> None:
        for line in self.process.stdout or ():
            self.lines.append(line.decode().rstrip("\n"))

    def is_ready(self) -> bool:
        """Whether it has printed where it listens, `control` last, and no more: where a port is 0, another one."""
        return len(self.lines) == len(self.addresses) and all(
            re.fullmatch(re.sub(":0$", r":[1-9]\\d*", re.escape(f"ready {address}")), line)
            for address, line in zip(self.addresses, self.lines))

    def tell(self, line: str) -> list[str]:
        """The reply to a control line."""
        with Client(self.control) as client:
            return client.ask(line) or []

    def stats(self) -> dict[str, int]:
        return {name: int(value) for name, value in (it.split(" ") for it in self.tell("stats")[:-1])}

    def stop(self) -> tuple[int | None, str, float]:
        """Stops it: its status, the last line that it printed, and the seconds that it took."""
        begin = time.monotonic()
        with contextlib.suppress(OSError), Client(self.control) as client:
            client.ask("stop")
        return (*self.end(), time.monotonic() - begin)

    def end(self) -> tuple[int | None, str]:
        """Waits for its end: its status, and the last line that it printed."""
        try:
            status = self.process.wait(PATIENCE)
        except subprocess.TimeoutExpired:
            status = None
            self.process.kill()
        self.reader.join(PATIENCE)
        return status, (self.lines or [""])[-1]

    def kill(self) -> None:
        self.process.send_signal(signal.SIGKILL)
        self.process.wait()

    def mapped(self) -> int:
        """The octets of its address space."""
        pages = pathlib.Path(f"/proc/{self.process.pid}/statm").read_text().split(" ")[0]
        return int(pages) * mmap.PAGESIZE

    def worked(self) -> float:
        """The seconds of a processor that it has used."""
        fields = pathlib.Path(f"/proc/{self.process.pid}/stat").read_text().rpartition(")")[2].split()
        return (int(fields[11]) + int(fields[12])) / os.sysconf("SC_CLK_TCK")

    def descriptors(self) -> set[int]:
        return {int(it) for it in os.listdir(f"/proc/{self.process.pid}/fd")}

    @contextlib.contextmanager
    def limited(self, kind: int, limit: int) -> Iterator[None]:
        """Lowers a limit of the system for it as it runs, and raises it at the end."""
        before = resource.prlimit(self.process.pid, kind)
        resource.prlimit(self.process.pid, kind, (limit, before[1]))
        try:
            yield
        finally:
            resource.prlimit(self.process.pid, kind, before)

    def resident(self) -> int:
        """The octets of memory that it has."""
        status = pathlib.Path(f"/proc/{self.process.pid}/status").read_text()
        found = re.search(r"VmRSS:\s+(\d+) kB", status)
        return 1024 * int(found[1]) if found else 0

    def peak(self) -> int:
        """The most octets of memory that it had."""
        found = re.search(r"VmHWM:\s+(\d+) kB", pathlib.Path(f"/proc/{self.process.pid}/status").read_text())
        return 1024 * int(found[1]) if found else 0

    def said(self) -> str:
        """Its messages on standard error, without the log."""
        lines = self.errors.read_text(errors="replace").splitlines(keepends=True)
        return "".join(it for it in lines if not LOGGED.match(it))

    def log(self) -> list[str]:
        """The lines of its log."""
        return [it for it in self.errors.read_text(errors="replace").splitlines() if LOGGED.match(it)]


@contextlib.contextmanager
def started(checks: Checks, *words: Any, **named: Any) -> Iterator[Daemon]:
    """A daemon that is ready. It is killed at the end where it has not been stopped."""
    daemon = Daemon(*words, **named)
    try:
        checks.expect(daemon.is_ready(), f"not ready: {daemon.lines}, {daemon.process.poll()}, {daemon.said()!r}")
        yield daemon
    finally:
        if daemon.process.poll() is None:
            daemon.kill()


def stopped(checks: Checks, daemon: Daemon, events: int | None = None) -> None:
    """Stops a daemon, which has to be quick, and count all events."""
    status, last, seconds = daemon.stop()
    took = f"the stop took {seconds:.1f} seconds"
    checks.equal(status, 0, f"status after stop, {daemon.said()!r}, {took}")
    checks.expect(re.fullmatch(r"closed \d+", last) if events is None else last == f"closed {events}",
                  f"{last!r} at the end, of {events} events, {took}")
    # It has two seconds; the rest is for other work of the machine.
    checks.expect(seconds < PATIENCE, f"{took} of {PATIENCE}")


def closed(checks: Checks, daemon: Daemon) -> int:
    """Stops a daemon, and returns how many events it says that there were."""
    stopped(checks, daemon)
    found = re.fullmatch(r"closed (\d+)", (daemon.lines or [""])[-1])
    return int(found[1]) if found else -1


def ended_start(folder: pathlib.Path, settings: str) -> tuple[int | None, str]:
    """The status of a daemon that can't start, and what it says."""
    daemon = Daemon(folder, settings, waits=False)
    status, _ = daemon.end()
    return status, daemon.said()
