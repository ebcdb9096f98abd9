"""The records of a daemon, read from the files of its state."""

from __future__ import annotations

import copy
import itertools
import os
import pathlib
import re
import threading
import types
from typing import Any, Optional, Sequence

import commits
from zone_text import Name, plain

from .daemon import Fault

try:
    import tomllib
except ImportError:  # (Python before 3.11)
    tomllib = types.SimpleNamespace(loads=None)  # type: ignore[assignment]

# How often the two files are read again where one of them changed meanwhile.
TRIES = 5


def read_settings(path: str) -> dict[str, Any]:
    """The settings of a daemon."""
    if not tomllib.loads:
        raise Fault("--settings needs Python 3.11")
    try:
        return tomllib.loads(pathlib.Path(path).read_text("utf-8-sig"))
    except (OSError, ValueError) as fault:
        raise Fault(f"{path}: {getattr(fault, 'strerror', None) or fault}") from None


class State(plain.State):  # type: ignore[misc, name-defined]
    """A state that works out which names exist only when it is asked: it is told many edits, and asked rarely."""

    _names: Optional[set[Name]] = None

    @property
    def names(self) -> set[Name]:
        if self._names is None:
            self._names = {owner[at:] for owner, _ in self.sets for at in range(len(owner) + 1)}
        return self._names

    @names.setter
    def names(self, _: object) -> None:
        self._names = None

    def count(self, changed: Sequence[Any]) -> int:
        self.names = ()
        return len(changed)

    def event(self) -> None:
        """There is no journal here that could be full."""


class Records:
    """What the files of a state have, read again when they have changed: of a log that grew, what is new."""

    def __init__(self, settings: dict[str, Any]) -> None:
        for key in ("transports", "families"):
            if key in settings and not plain.ALLOWED[key](settings[key]):
                raise Fault(f"the settings: {key} has a value that is not allowed (G3)")
        self.settings, self.path = settings, settings.get("state")
        if not isinstance(self.path, (str, type(None))):
            raise Fault("the settings: state is not a path (G3)")
        # (its log is beside the file to which a link leads)
        self.path = self.path and os.path.realpath(self.path)
        self.transports = settings.get("transports", ["udp", "tcp"])
        self.kinds = plain.FAMILIES[settings.get("families", "v4")]
        self.has_host_clock = settings.get("clock", "host") == "host"
        self.lock = threading.Lock()
        # The two files as they were read, the head of the log, and how many of its commits were.
        self.mark: tuple[object, object] = (None, None)
        self.head = b""
        self.taken = 0
        self.reader = plain.Lines({})

    def state(self) -> Any:
        """The records as they are, for one user; None where the settings name no state. Fault where it can't be
        read."""
        if not self.path:
            return None
        with self.lock:
            try:
                self.refresh()
            except OSError as fault:
                raise Fault(f"{fault.filename}: {fault.strerror}") from None
            except Fault:
                self.mark = (None, None)
                raise
            # (which names exist is worked out once for all users)
            self.reader.state.names
            return copy.copy(self.reader.state)

    def refresh(self) -> None:
        mark = stamp(self.path), stamp(f"{self.path}.log")
        if mark == self.mark and mark != (None, None):
            return
        log = octets_of(f"{self.path}.log")
        if mark[0] == self.mark[0] and self.head and log.startswith(self.head):
            self.take_commits(log)
        else:
            self.read()
        self.mark = mark

    def read(self) -> None:
        """Reads both files, again where one of them changed meanwhile."""
        for _ in range(TRIES):
            base, log = octets_of(self.path), octets_of(f"{self.path}.log")
            is_new = not base and not log
            if is_new or commits.lines_of(base, log) is not None:
                self.reader.state = State({"transports": self.transports,
                                           "families": self.settings.get("families", "v4")})
                self.head, self.taken = b"" if is_new else commits.log_of(base, []), 0
                self.take(commits.body_of(base))
                self.take_commits(log)
                return
        raise Fault(f"{self.path} and its log do not fit, as while a state is written: try again")

    def take_commits(self, log: bytes) -> None:
        """Takes the commits of a log that are new."""
        bodies = commits.bodies_of(log) if log else []
        for body in bodies[self.taken:]:
            self.take(body)
        self.taken = len(bodies)

    def take(self, octets: bytes) -> None:
        """Takes the changes of a text."""
        lines = iter(octets.split(b"\n")[:-1])
        for line in lines:
            zone = re.match(rb"zone \S+ ([0-9]+)$", line)
            more = list(itertools.islice(lines, int(zone[1]) if zone else 0))
            for reply in self.reader.reply(line, iter(more)):
                if reply.startswith("err"):
                    raise Fault(f"{self.path}: a line is refused, {reply[4:]}: {line[:80].decode('latin-1')}")


def octets_of(path: str) -> bytes:
    """What a file has; nothing where it is not there, as before the first page."""
    try:
        return pathlib.Path(path).read_bytes()
    except FileNotFoundError:
        return b""


def stamp(path: str) -> Optional[tuple[int, int, int]]:
    """What changes where a file does: which one it is, its size and its time."""
    try:
        found = os.stat(path)
    except OSError:
        return None
    return found.st_ino, found.st_size, found.st_mtime_ns


def fits(state: Any, reads: Sequence[tuple[Name, str, int]]) -> bool:
    """Whether the records are those that the daemon has read."""
    return all(len(state.content((name, kind))) == count for name, kind, count in reads)

