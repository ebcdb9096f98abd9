"""What a locator refuses of a stream by its settings, and whom it looks for in what order, beside what others do: with the
same settings they refuse and answer the same.

At the key STREAM:outcome is the entry that was refused so last: its id, the codes by which locators have refused it, and
`ok` where another one has not. The hash STREAM:settings has the families and transports of locators, such as `v4 udp,tcp`,
each with the second of Redis's time at which one has told them last.
"""

from __future__ import annotations

import contextlib
import time
from typing import TYPE_CHECKING, Dict, List, NamedTuple, Optional

import changelog

if TYPE_CHECKING:
    from siploc import Session

TAKEN = "ok"
# Refusals by `records`, `holds` and `zone_octets` (K2: by the length of a line, too).
LIMITS = ("S7", "O4", "K2")
# How many refusals are known at most.
KEPT = 4_096
# Seconds between two times that a locator tells its settings, and for how many they count.
TOLD, COUNTS = 60, 180
FAMILIES = {"A": "v4", "AAAA": "v6"}
TRANSPORTS = {"_sip._udp": "udp", "_sip._tcp": "tcp", "_sip._sctp": "sctp", "_sips._tcp": "tls"}


class Outcome(NamedTuple):
    """What became of an entry, on one locator or on several."""

    place: changelog.Place
    codes: List[str]


def named(code: str) -> str:
    return "not refused it so" if code == TAKEN else f"refused it ({code})"


class Outcomes:
    """What became of the entries that one process was the first to give a locator: of those after a place."""

    def __init__(self, stream: changelog.Stream, after: changelog.Place) -> None:
        self.stream, self.after = stream, after
        self.refused: Dict[changelog.Place, str] = {}
        self.last = Outcome((0, 0), [])
        self.is_told = False

    def forget(self, place: changelog.Place) -> None:
        """What was given up to a place may have been given before: then nobody knows what became of it."""
        self.after = max(self.after, place)

    def refuse(self, place: changelog.Place, code: str) -> None:
        if code not in LIMITS:
            return
        self.last, self.refused[place] = Outcome(place, [code]), code
        if len(self.refused) > KEPT:
            # (they come in their order)
            oldest = next(iter(self.refused))
            del self.refused[oldest]
            self.forget(oldest)

    def compare(self, place: changelog.Place) -> Optional[str]:
        """What is to be said, once, where another locator has not refused what this one has, or the other way round, of
        the entries up to a place that it was given. What this one has refused is told to the others."""
        theirs = self.told()
        if self.after < theirs.place <= place:
            ours = self.refused.get(theirs.place, TAKEN)
            if ours not in theirs.codes:
                self.tell(Outcome(theirs.place, [*theirs.codes, ours]))
            others = [it for it in theirs.codes if it != ours]
            if others and not self.is_told:
                self.is_told = True
                return (f"entry {changelog.id_of(theirs.place)}: this locator has {named(ours)}, and another one has "
                        f"{named(others[0])}: their settings differ, or their zones and holds")
        if self.last.place > theirs.place:
            self.tell(self.last)
        return None

    def key(self) -> bytes:
        return changelog.octets_of(f"{self.stream.key}:outcome")

    def told(self) -> Outcome:
        octets = self.stream.ask([[b"GET", self.key()]])[0]
        words = octets[:200].decode("latin-1").split(" ") if isinstance(octets, bytes) else []
        with contextlib.suppress(changelog.Fault):
            return Outcome(changelog.place_of(words[0] if words else ""), words[1:])
        return Outcome((0, 0), [])

    def tell(self, outcome: Outcome) -> None:
        # A replica, or one without memory, takes nothing: then it is not told.
        with contextlib.suppress(changelog.Fault):
            text = " ".join([changelog.id_of(outcome.place), *outcome.codes])
            self.stream.ask([[b"SET", self.key(), text.encode()]])


def settings_of(session: Session) -> str:
    """The families and transports of a locator, in their order, by what it reads for a name that has no records."""
    name = f"none.{changelog.MARKS}"
    families = [FAMILIES[it.kind] for it in changelog.sets_of(session, name) if it.name == name and it.kind in FAMILIES]
    services = [it.name[:-len(name) - 1] for uri in (f"sip:{name}", f"sips:{name}") for it in session.deps(uri)
                if it.kind == "SRV"]
    return f"{''.join(families)} {','.join(TRANSPORTS[it] for it in services if it in TRANSPORTS)}"


class Settings:
    """The settings of the locators that are given a stream, as far as their replies show them: not `held`."""

    def __init__(self, stream: changelog.Stream) -> None:
        self.stream, self.next, self.is_told = stream, 0.0, False

    def compare(self, session: Session) -> Optional[str]:
        """What is to be said, once, where those of another locator differ. The others are told those of this one."""
        if time.monotonic() < self.next:
            return None
        self.next = time.monotonic() + TOLD
        ours = settings_of(session)
        other = next((it for it in self.exchange(ours) if it != ours), None)
        if other is None or self.is_told:
            return None
        self.is_told = True
        return f"this locator has {ours}, and another one {other}: their families or transports differ"

    def exchange(self, ours: str) -> List[str]:
        """Tells the settings of this locator; those that were told lately."""
        key = changelog.octets_of(f"{self.stream.key}:settings")
        # A replica, or one without memory, takes nothing, and another's key is no hash: then nothing is told.
        with contextlib.suppress(changelog.Fault):
            now = self.words([b"TIME"])[0]
            self.stream.ask([[b"HSET", key, ours.encode(), now.encode()], [b"EXPIRE", key, b"%d" % COUNTS]])
            words = self.words([b"HGETALL", key])
            return [it for it, at in zip(words[::2], words[1::2]) if at.isdigit() and int(now) - int(at) < COUNTS]
        return []

    def words(self, command: List[bytes]) -> List[str]:
        """The reply to a command, which must be an array of texts."""
        reply = self.stream.ask([command])[0]
        if not isinstance(reply, list) or not reply:
            raise changelog.Fault(f"not a reply of Redis: {reply!r}")
        return [changelog.bytes_of(it).decode("latin-1") for it in reply]
