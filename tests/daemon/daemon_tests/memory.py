"""Each allocation of the daemon in turn fails: what was replied to is there at the next start, and what was refused is
not; and the daemon goes on, or ends with its cause."""

from __future__ import annotations

import concurrent.futures
import contextlib
import mmap
import os
import pathlib
import re
import struct
import subprocess
import tempfile
from typing import Iterator, NamedTuple, Optional

from daemon_tests.faults import AT_ONCE, FEW, SAID
from daemon_tests.support import PROGRAM, TOP, Checks, Client, Daemon, test, until

# The daemon's way at whose allocations they are counted.
WAYS = "start", "use", "stop"
# More than there are.
ALL = 1_000_000
# What a client asks, how the reply begins, and of which names it makes that they are there, or not.
STEPS: list[tuple[str, str, dict[str, bool]]] = [
    ("add c.example.com. A 192.0.2.3", "ok add 1", {"c": True}),
    ("hold udp 192.0.2.1 1 600000", "ok hold", {"held": True}),
    ("find sip:b.example.com:1", "ok find 1", {}),
    ("zone example.net. 2\na A 192.0.2.1\nb A 192.0.2.2", "ok zone 2 ", {"net": True}),
    ("page", "ok page ", {}),
    ("del b.example.com. A 192.0.2.2", "ok del 1", {"b": False}),
    ("deps sip:a.example.net", "ok deps ", {}),
    ("release udp 192.0.2.1 1", "ok release", {"held": False}),
    ("drop example.net.", "ok drop", {"net": False}),
    ("add d.example.com. A 192.0.2.4", "ok add 1", {"d": True}),
    ("page", "ok page ", {}),
]
# How a line may be refused: for want of memory, or, after a line that was refused, for what that left out.
REFUSALS = "err Memory", "err D2", "err O3", "err S2"


class Refusal(NamedTuple):
    """Of which allocations one is refused, the so manieth, and what the daemon does where a change can't be
    written."""
    way: str
    count: int
    on_failure: str

    def __str__(self) -> str:
        return f"{self.way}, {self.on_failure}, {self.count}"


class Allocations:
    """What a preloaded library (tests/campaigns/refused_memory.c) does to the allocations of a daemon."""

    def __init__(self, folder: pathlib.Path) -> None:
        shared, library = folder / "count", folder / "refused_memory.so"
        shared.write_bytes(bytes(mmap.PAGESIZE))
        with shared.open("r+b") as file:
            self.page = mmap.mmap(file.fileno(), mmap.PAGESIZE)
        if not library.exists():
            source = TOP / "tests/campaigns/refused_memory.c"
            subprocess.run(["cc", "-O2", "-shared", "-fPIC", "-o", library, source], check=True)
        self.environment = {"LD_PRELOAD": str(library), "REFUSED_MEMORY": f"{shared} -1 -1"}

    @contextlib.contextmanager
    def refused(self, count: int) -> Iterator[None]:
        """The so manieth allocation from now on fails."""
        struct.pack_into("q", self.page, 0, count)
        yield
        self.left, = struct.unpack_from("q", self.page)
        struct.pack_into("q", self.page, 0, 0)


def are_counted() -> bool:
    """Whether the program has the C library's allocator: not where dev/try compiled it, whose checks have their own."""
    said = subprocess.run([PROGRAM, "--version"], capture_output=True, check=True).stdout
    return not said.endswith(b"+trial\n")


class Use:
    """A daemon one of whose allocations fails, and what there may be of its client's changes."""

    def __init__(self, folder: pathlib.Path, refusal: Refusal) -> None:
        self.folder, self.refusal, self.allocations = folder, refusal, Allocations(folder)
        self.may_be = {name: {name in ("a", "b")} for name in ("a", "b", "c", "d", "held", "net")}
        self.wrong: list[str] = []
        # Whether the daemon has made more allocations than the one that fails.
        self.is_met = False
        (folder / "archive").mkdir()

    def begin(self, environment: Optional[dict[str, str]] = None) -> Daemon:
        settings = f'state = "{self.folder}/state"\narchive = "{self.folder}/archive"\nclock = "lines"\nworkers = 0\n' \
            f'on_failure = "{self.refusal.on_failure}"'
        return Daemon(self.folder, settings, listen=[f"unix:{self.folder}/lines"], environment=environment)

    @contextlib.contextmanager
    def refused(self, way: str) -> Iterator[None]:
        """Refuses the allocation, if it is one of these."""
        if way != self.refusal.way:
            yield
            return
        with self.allocations.refused(self.refusal.count):
            yield
        self.is_met = self.allocations.left == 0

    def prepare(self) -> None:
        """Leaves a state with a zone, and a log."""
        daemon = self.begin()
        with Client(daemon.address) as client:
            replies = client.ask("zone example.com. 1\na A 192.0.2.1"), client.ask("add b.example.com. A 192.0.2.2")
        if replies != (["ok zone 1 0 0 1"], ["ok add 1"]):
            self.wrong.append(f"before: {replies}")
        daemon.kill()

    def ask(self, daemon: Daemon) -> None:
        """A client that comes again where its connection ends."""
        with contextlib.ExitStack() as stack:
            client: Optional[Client] = None
            for line, wanted, makes in STEPS:
                reply = None
                with contextlib.suppress(OSError):
                    client = client or stack.enter_context(Client(daemon.address))
                    reply = client.ask(line)
                if reply is None:
                    client = None
                    for name, is_there in makes.items():
                        self.may_be[name].add(is_there)
                elif reply[-1].startswith(wanted):
                    self.may_be.update((name, {is_there}) for name, is_there in makes.items())
                elif reply[-1] not in REFUSALS:
                    self.wrong.append(f"{line!r}: {reply}")
        for line in "stats", "zones", "holds", "now":
            with contextlib.suppress(OSError):
                daemon.tell(line)

    def run(self) -> "Use":
        self.prepare()
        with self.refused("start"):
            daemon = self.begin(self.allocations.environment)
        try:
            if daemon.is_ready():
                with self.refused("use"):
                    self.ask(daemon)
                self.go_on(daemon)
                with self.refused("stop"), contextlib.suppress(OSError):
                    if daemon.tell("stop") == ["ok stop"]:
                        until(lambda: daemon.process.poll() is not None)
            self.end(daemon)
        finally:
            daemon.kill()
        self.check()
        return self

    def go_on(self, daemon: Daemon) -> None:
        """A daemon that is to go on makes changes again."""
        if self.refusal.on_failure == "read":
            with Client(daemon.address) as client:
                last = until(lambda: (it := client.ask("add e.example.com. A 192.0.2.5")) != ["err D2"] and it)
                if last != ["ok add 1"]:
                    self.wrong.append(f"no change is accepted again: {last}")

    def end(self, daemon: Daemon) -> None:
        """Ends it, where it has not heard the stop."""
        status, last, _ = daemon.stop()
        said = daemon.said()
        if status == 0 and last.startswith("closed ") and SAID.fullmatch(said or "siplocd: -\n"):
            self.replay(last.removeprefix("closed "))
        elif status == 1 and SAID.fullmatch(said):
            self.replay()
        else:
            self.wrong.append(f"ended with {status}, {last!r}, {said!r}")

    def replay(self, events: str = "0") -> None:
        """The pages that there are can be replayed; those of a daemon that ended well have all of its events."""
        ran = subprocess.run([PROGRAM, "replay", self.folder / "archive"], capture_output=True, text=True, check=False)
        is_whole = events == "0" or re.search(rf"^run \d+ {events}$", ran.stdout, re.M)
        if ran.returncode or not is_whole:
            self.wrong.append(f"an archive of which a replay says {ran.stdout!r}, {ran.stderr!r}, {events}")

    def check(self) -> None:
        """Starts a daemon without faults, and checks that there is what may be."""
        daemon = self.begin()
        try:
            if not daemon.is_ready():
                self.wrong.append(f"no start after it: {daemon.said()!r}")
                return
            with Client(daemon.address) as client:
                found = {it: client.ask(f"find sip:{it}.example.com:1") != ["none NoAddress"] for it in "abcd"}
            zones, holds = daemon.tell("zones"), daemon.tell("holds")
            found |= {"held": len(holds) > 1, "net": any(it.startswith("zone example.net. ") for it in zones)}
            for name, is_there in found.items():
                if is_there not in self.may_be[name]:
                    self.wrong.append(f"{name}: {is_there}, and not one of {self.may_be[name]}")
            status, last, _ = daemon.stop()
            if status != 0:
                self.wrong.append(f"stopped with {status}, {last!r}, {daemon.said()!r}")
        finally:
            daemon.kill()


def tried(refusal: Refusal) -> Use:
    """A daemon one of whose allocations fails, and one after it."""
    # (in memory where it can be: each file is synced many times)
    room = "/dev/shm" if os.access("/dev/shm", os.W_OK) else None
    with tempfile.TemporaryDirectory(prefix="siplocd-", dir=room) as folder:
        return Use(pathlib.Path(folder), refusal).run()


def refusals(share: int = 1, most: int = ALL) -> list[Refusal]:
    """One in so many of all refusals, and so many of each way at most."""
    found = []
    for way in WAYS:
        for place, on_failure in enumerate(("end", "read")):
            total = ALL - tried(Refusal(way, ALL, on_failure)).allocations.left
            step = max(share, total // most)
            found += [Refusal(way, count, on_failure) for count in range(1 + place * step // 2, total + 1, step)]
    return found


def run_all(found: list[Refusal]) -> Iterator[tuple[Refusal, Use]]:
    """A daemon with each, some side by side."""
    with concurrent.futures.ThreadPoolExecutor(AT_ONCE) as pool:
        yield from zip(found, pool.map(tried, found))


@test
def keeps_what_was_replied_to_whichever_allocation_fails(checks: Checks, _: pathlib.Path) -> None:
    if not are_counted():
        checks.expect(True, "an allocator of its own")
        return
    found = refusals(most=max(1, FEW // 6))
    met = 0
    for refusal, use in run_all(found):
        met += use.is_met
        checks.expect(not use.wrong, f"{refusal}: {use.wrong}")
    checks.expect(met >= len(found) * 3 // 4, f"only {met} of {len(found)} were met")
