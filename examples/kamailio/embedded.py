"""What kamailio.cfg asks where each process has a book of its own (`kamailio -A EMBEDDED`): there is no server.

SIPLOC_ZONES is a folder of master files, each with the name of its apex, as `example.com`. Each process loads a file that
has changed within a second; it has to be moved into its place, so that none is read half. What fails is held in all
processes: often one that has the timers sees it. Time is this machine's, so that holds end. The journal is dropped when
it is full. SIPLOC_LIBRARY is the path of libsiploc_embedded.so, where the loader does not find it.
"""

from __future__ import annotations

import contextlib
import fcntl
import mmap
import os
import sys
import time
from pathlib import Path
from typing import Callable, Dict, Iterator, List, Set, Tuple, TypeVar

import KSR

sys.path.insert(0, os.path.dirname(os.path.abspath(__file__)))
import locator  # noqa: E402
import siploc  # noqa: E402
import siploc_embedded  # noqa: E402

ZONES = Path(os.environ.get("SIPLOC_ZONES", "/etc/siploc/zones"))
LIBRARY = os.environ.get("SIPLOC_LIBRARY", "libsiploc_embedded.so")
# How often the time is moved, in milliseconds, and how often files are looked at.
TICK, LOOK = 100, 1000
# How many holds wait for a process at most, the octets of each, and those before them.
HOLDS, HOLD, FIRST = 256, 64, 8
# What no file is: it is loaded again.
NEVER = (0, 0, 0)
Reply = TypeVar("Reply")


def milliseconds() -> int:
    """The time of this machine, which is that of all its processes."""
    return time.monotonic_ns() // 1_000_000


class Holds:
    """The last holds of all processes, in memory that they share: their number, and then a ring of lines."""

    def __init__(self) -> None:
        self.file = os.memfd_create("siploc-holds")
        os.ftruncate(self.file, FIRST + HOLDS * HOLD)
        self.memory = mmap.mmap(self.file, FIRST + HOLDS * HOLD)
        self.seen = 0

    def count(self) -> int:
        return int.from_bytes(self.memory[:FIRST], "little")

    @contextlib.contextmanager
    def locked(self) -> Iterator[None]:
        """Keeps the others out. The lock of a process that ends is free."""
        fcntl.lockf(self.file, fcntl.LOCK_EX)
        try:
            yield
        finally:
            fcntl.lockf(self.file, fcntl.LOCK_UN)

    def append(self, line: str) -> None:
        with self.locked():
            count = self.count()
            start = FIRST + count % HOLDS * HOLD
            self.memory[start:start + HOLD] = line.encode().ljust(HOLD)
            self.memory[:FIRST] = (count + 1).to_bytes(FIRST, "little")

    def unseen(self) -> List[str]:
        """The lines that this process has not seen."""
        if self.count() == self.seen:
            return []
        with self.locked():
            first, self.seen = self.seen, self.count()
            starts = (FIRST + it % HOLDS * HOLD for it in range(max(first, self.seen - HOLDS), self.seen))
            return [self.memory[it:it + HOLD].decode().rstrip() for it in starts]


# What all processes share, also when each of them has loaded this file again (app_python.reload).
SHARED: Holds = globals().get("SHARED") or Holds()


class Embedded(locator.Locator):
    """A book as one process of Kamailio has it."""

    # (one that is opened loads all zones)
    soon = locator.LATER

    def __init__(self) -> None:
        super().__init__()
        self.holds = SHARED
        # What each file was when it was loaded, or refused.
        self.loaded: Dict[str, Tuple[int, int, int]] = {}
        self.refused: Set[str] = set()
        # The holds for which there was no memory.
        self.waiting: List[str] = []
        self.told = ""
        self.next_tick = self.next_look = 0

    def child_init(self, rank: int) -> int:
        """What each process of Kamailio begins with: those above 0 take requests."""
        if rank > 0:
            try:
                self.session = self.open()
            except (MemoryError, siploc.Error) as fault:
                KSR.err(f"siploc: {fault}\n")
                return -1
        return 0

    def open(self) -> siploc.BaseSession:
        """A session with all zones."""
        session = siploc_embedded.open('held = "last"', library=LIBRARY)
        self.refused, self.waiting = set(), []
        self.loaded, self.next_tick, self.next_look, self.holds.seen = {}, 0, milliseconds() + LOOK, 0
        try:
            self.load(session)
        except OSError as fault:
            raise siploc.NotConnected(str(fault)) from fault
        self.follow(session)
        return session

    def ask(self, question: Callable[[siploc.BaseSession], Reply]) -> Reply:
        def now(session: siploc.BaseSession) -> Reply:
            self.follow(session)
            return in_journal(session, lambda: question(session))

        return super().ask(now)

    def hold(self, target: siploc.Target, wait: int) -> None:
        self.holds.append(f"{siploc.line(*target)} {milliseconds() + wait}")

    def follow(self, session: siploc.BaseSession) -> None:
        """Moves the time, loads what has changed, and holds what has failed; what lacked memory, the next time."""
        now = milliseconds()
        if now >= self.next_tick:
            try:
                in_journal(session, lambda: session.clock(now))
                self.next_tick = now + TICK
            except siploc.Refused as fault:
                KSR.warn(f"siploc: {fault}: the time is as it was\n")
        if now >= self.next_look:
            self.next_look = now + LOOK
            try:
                self.load(session)
            except OSError as fault:
                self.fault(f"{fault}: zones are as they were")
        holds, self.waiting = [*self.waiting, *self.holds.unseen()], []
        for text in holds:
            transport, address, port, end = text.split(" ")
            if int(end) > now:
                target = siploc.Target(transport, address, int(port))
                try:
                    in_journal(session, lambda: session.hold(target, int(end) - now))
                except siploc.Refused as fault:
                    KSR.warn(f"siploc: {fault}: it is not held\n")
                    self.waiting += [text] * (fault.code == "Memory")

    def fault(self, text: str) -> None:
        """Says what is wrong with files, once; nothing where all is well."""
        if text and text != self.told:
            KSR.err(f"siploc: {text}\n")
        self.told = text

    def load(self, session: siploc.BaseSession) -> None:
        """Loads the files that are new or have changed, and drops the zones of those that have gone. What can't
        be read, or lacked memory, is tried again, and what was refused, maybe for another zone, when one has gone.
        Where the folder can't be read, it raises an OSError."""
        found = {it.name: it for it in os.scandir(ZONES) if it.is_file()}
        gone = [it for it in self.loaded if it not in found]
        faults = [self.drop(session, name) for name in gone]
        for name in self.refused if gone else ():
            self.loaded.pop(name, None)
        faults += [self.load_file(session, entry) for entry in found.values()]
        self.fault(next(filter(None, faults), ""))

    def drop(self, session: siploc.BaseSession, name: str) -> str:
        """Drops the zone of a file that has gone; the cause where that is tried again."""
        try:
            in_journal(session, lambda: session.drop(f"{name}."))
        except siploc.InvalidCommand:
            pass
        except siploc.Refused as fault:
            # (one that was refused is not there)
            if fault.code == "Memory":
                return f"{name}: {fault}"
        del self.loaded[name]
        self.refused.discard(name)
        return ""

    def load_file(self, session: siploc.BaseSession, entry: os.DirEntry[str]) -> str:
        """Loads a file that is new or has changed; the cause where that is tried again."""
        try:
            there = entry.stat()
            stamp = there.st_ino, there.st_size, there.st_mtime_ns
            if self.loaded.get(entry.name) == stamp:
                return ""
            with open(entry.path, encoding="utf-8", errors="surrogateescape") as text:
                lines = list(text)
            self.loaded[entry.name] = stamp
            self.refused.discard(entry.name)
            in_journal(session, lambda: session.load(f"{entry.name}.", lines))
        except OSError as fault:
            return str(fault)
        except (siploc.Refused, siploc.InvalidCommand) as fault:
            if isinstance(fault, siploc.Refused) and fault.code == "Memory":
                self.loaded[entry.name] = NEVER
                return f"{entry.path}: {fault}"
            self.refused.add(entry.name)
            KSR.err(f"siploc: {entry.path}: {fault}\n")
        return ""


def in_journal(session: siploc.BaseSession, step: Callable[[], Reply]) -> Reply:
    """What a step returns, after the journal was dropped if it was full."""
    try:
        return step()
    except siploc.Refused as refusal:
        if refusal.code != "B3":
            raise
        session.page()
        return step()


def mod_init() -> Embedded:
    """What app_python3 calls at the start."""
    return Embedded()
