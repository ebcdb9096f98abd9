"""Changes of a locator in a Redis stream: what tools/publish appends, and tools/apply takes from it.

An entry of the stream has a field `change`: a line of a session that changes zones, holds or the time, or a `zone` line
with its lines. It may have a field `by`, the token of its publisher and a number; how many of those there are is at the key
STREAM:by:TOKEN for a day.
"""

from __future__ import annotations

import hashlib
import re
import secrets
import time
from typing import TYPE_CHECKING, Iterable, Iterator, List, NamedTuple, Optional, Sequence, Tuple, Union

from redis_connection import PASSWORD, Away, Connection, Fault, Value, bytes_of, octets_of

if TYPE_CHECKING:
    from siploc import Dependency, Session

#: How many changes are appended, or are a batch, at most.
WINDOW = 256
#: The zone of a locator's mark.
MARKS = "applied.invalid."

Place = Tuple[int, int]

#: What `XINFO STREAM` says of a stream, without the entries in it, the digest of the entry at a place (see `digest_of`), and
#: some entries after it, at the same time: four by four, until they have 4 MB. So neither Redis nor a tool has many large
#: zones at once.
_WINDOW = b"""if redis.call('EXISTS', KEYS[1]) == 0 then return {} end
local info, facts = redis.call('XINFO', 'STREAM', KEYS[1]), {}
for i = 1, #info, 2 do
    if type(info[i + 1]) == 'string' or type(info[i + 1]) == 'number' then
        facts[#facts + 1] = info[i]
        facts[#facts + 1] = info[i + 1]
    end
end
local found, octets, last = {}, 0, ARGV[1]
while last and #found < 1024 and octets < 4194304 do
    local from = '(' .. last
    last = nil
    for _, entry in ipairs(redis.call('XRANGE', KEYS[1], from, '+', 'COUNT', 4)) do
        found[#found + 1], last = entry, entry[1]
        for _, text in ipairs(entry[2]) do octets = octets + #text end
    end
end
local entry, text = redis.call('XRANGE', KEYS[1], ARGV[1], ARGV[1])[1], ''
if entry then
    for i = 1, math.min(#entry[2], 4) do text = text .. #entry[2][i] .. ' ' .. string.sub(entry[2][i], 1, 256) end
    text = redis.sha1hex(text)
end
return {facts, text, found}"""

#: Appends changes, unless a publisher has appended them before, by a count that stays for a day; the place of the last one,
#: or nothing where the count is another one. So it does not matter how often it comes, and when.
_APPEND = b"""local count, place = string.match(redis.call('GET', KEYS[2]) or '0 0-0', '(%d+) (.+)')
local first, last = tonumber(ARGV[2]), ARGV[2] + #ARGV - 2
if tonumber(count) == last then return place end
if tonumber(count) ~= first then return nil end
for i = 3, #ARGV do
    place = redis.call('XADD', KEYS[1], '*', 'change', ARGV[i], 'by', ARGV[1] .. '-' .. first + i - 3)
end
redis.call('SET', KEYS[2], last .. ' ' .. place, 'EX', 86400)
return place"""

#: Appends a `clock`, unless there is one after a place, or more than can be looked at; its place, or nothing.
_CLOCK = b"""local later = redis.call('XRANGE', KEYS[1], '(' .. ARGV[1], '+', 'COUNT', 1024)
for _, entry in ipairs(later) do
    if #later == 1024 or string.sub(entry[2][2], 1, 6) == 'clock ' then return nil end
end
return redis.call('XADD', KEYS[1], '*', 'change', ARGV[2])"""

#: What the word --redis is.
ADDRESS_HELP = ("where Redis listens: 127.0.0.1:6379, which is taken without it, or unix:PATH, with USER@ before it for a "
                f"user of its own; the password is that of {PASSWORD} in the environment")

#: The seconds after which a publisher begins to count anew.
_RESTED = 3_600

#: The number of fields of each change, its word among them: at least, and at most.
_FIELDS = {b"zone": (3, 3), b"drop": (2, 2), b"add": (2, 65_536), b"del": (2, 65_536), b"hold": (5, 5),
           b"release": (4, 4), b"clock": (2, 2)}
_MAX_LINE = 65_536
_MAX_ZONE_LINES = 1_048_576
#: The octets of a change that a locator reads at once with what is sent after it.
_SHORT = 512
#: Changes that may make or take space for one another.
_OPPOSITES = {"add": "del", "del": "add", "hold": "release", "release": "hold"}
#: The apex of a change, and the owner of one, which may be in parentheses or in quotes as in a master file.
_APEX = re.compile(rb"[ \t]*(?:zone|drop)[ \t]+([^ \t\n]+)")
_OWNER = re.compile(rb'[ \t]*(?:add|del)[ \t()]+(?:"((?:[^"\\\n]|\\.)*)"|((?:[^ \t\n()";\\]|\\.)+))')


class Change(NamedTuple):
    """A change, and its command word."""

    octets: bytes
    word: str

    @property
    def command(self) -> str:
        """The change as a command of clients/python/siploc.py."""
        return self.octets.decode("utf-8", "surrogateescape")

    @property
    def lines(self) -> int:
        """How many lines it has after the first."""
        return self.octets.count(b"\n")

    def check(self) -> None:
        """Whether it may be in a stream. Raises `Fault` where it is of the zone of the marks, by which a locator knows
        what it was given."""
        match = _APEX.match(self.octets) or _OWNER.match(self.octets)
        if match and labels_of(match[match.lastindex or 0])[-2:] == [b"applied", b"invalid"]:
            raise Fault(f"a change of {MARKS[:-1]}, which is of tools/apply alone: "
                        f"{self.octets[:100].decode('utf-8', 'backslashreplace')!r}")


def labels_of(name: bytes) -> List[bytes]:
    """The labels of a name, in lower case and without escapes. A final dot may be left out."""
    labels = re.findall(rb"((?:[^.\\]|\\[0-9]{3}|\\.)+)", name)
    return [re.sub(rb"\\([0-9]{3})|\\(.)", lambda it: it[2] or bytes([int(it[1]) % 256]), it).lower() for it in labels]


def change_of(octets: bytes) -> Change:
    """A change of these octets. Raises `Fault` where they are none."""
    first, lines = octets.partition(b"\n")[0], octets.count(b"\n")
    # (whoever has put it there may have made it of very many fields)
    fields = re.findall(rb"[^ \t]+", first[:_MAX_LINE + 1])
    shown = first[:100].decode("utf-8", "backslashreplace")
    if not fields or fields[0] not in _FIELDS:
        raise Fault(f"not a change of zones, holds or the time: {shown!r}")
    least, most = _FIELDS[fields[0]]
    if not least <= len(fields) <= most or b"\r" in octets or len(first) > _MAX_LINE:
        raise Fault(f"its fields do not fit: {shown!r}")
    if lines != (zone_lines(fields) or 0):
        raise Fault(f"it has {lines} lines after the first: {shown!r}")
    return Change(octets, fields[0].decode())


def zone_lines(fields: Sequence[bytes]) -> Optional[int]:
    """How many lines a `zone` line takes; None where it is none. Raises `Fault` where the count is none."""
    if fields[:1] != [b"zone"] or len(fields) != 3:
        return None
    digits = fields[2].lstrip(b"0") or b"0"
    if not fields[2].isdigit() or len(digits) > 7 or int(digits) > _MAX_ZONE_LINES:
        raise Fault(f"the count of a zone's lines is not a number up to {_MAX_ZONE_LINES}: {fields[2][:20]!r}")
    return int(digits)


def changes_in(lines: Iterable[bytes]) -> Iterator[Tuple[int, Change]]:
    """The changes of a text, each with the number of its first line; comments and empty lines are left out."""
    rest = enumerate((it.rstrip(b"\n")[:-1] if it.endswith(b"\r\n") else it.rstrip(b"\n") for it in lines), 1)
    for number, line in rest:
        fields = line.split()
        if not fields or line.startswith(b"#"):
            continue
        try:
            more = [text for _, (_, text) in zip(range(zone_lines(fields) or 0), rest)]
            yield number, change_of(b"\n".join([line, *more]))
        except Fault as fault:
            raise Fault(f"line {number}: {fault}") from fault


class Entry(NamedTuple):
    """An entry of the stream: its place, its change, and its digest."""

    place: Place
    change: Change
    digest: str = ""


def digest_of(fields: Sequence[bytes]) -> str:
    """The digest of an entry with these fields: of their lengths and beginnings, since a zone may be long. Where Redis has
    lost entries another one may have the place of one of them."""
    text = b"".join(b"%d %b" % (len(it), it[:256]) for it in fields[:4])
    return hashlib.sha1(text, usedforsecurity=False).hexdigest()[:8]


class Mark(NamedTuple):
    """What a locator was given: all entries of a stream up to a place, and maybe a first part of the batch after it, which
    goes until another place (see `before`). The digests are those of the entries at both.
    It is broken where the locator has refused one of its own accord: then it is not what the stream says. It is half while
    a snapshot is given. By `locator` a locator is known at each of its addresses.

    A locator has two, at two names. The older one is deleted before the next one is added in its place: so there is
    always one, and space for the next."""

    stream: str
    place: Place = (0, 0)
    first: Place = (0, 0)
    is_broken: bool = False
    turn: int = 0
    is_half: bool = False
    locator: str = ""
    digest: str = ""
    until: Place = (0, 0)
    until_digest: str = ""

    @property
    def is_good(self) -> bool:
        return not self.is_broken and not self.is_half

    @property
    def order(self) -> Tuple[Place, bool, Place]:
        """The older one of two marks is less."""
        return self.place, self.is_broken, self.until

    def next(self, place: Place, first: Place, digest: str = "") -> Mark:
        """The mark after this one, of a place. `first` is the first entry of the stream, where it had none before."""
        return self._replace(place=place, digest=digest, until=(0, 0), until_digest="",
                             first=self.first if self.first > (0, 0) else first, turn=1 - self.turn)

    def before(self, batch: Sequence[Entry]) -> Mark:
        """The mark while a batch is given. One short change comes with the mark after it, or not at all."""
        is_parted = sum(len(it.change.octets) + 1 for it in batch) > _SHORT or len(batch) > 1
        return self._replace(until=batch[-1].place, until_digest=batch[-1].digest) if is_parted else self

    @property
    def record(self) -> str:
        """The record that is the mark."""
        state = "broken" if self.is_broken else "half" if self.is_half else "good"
        until = f"{id_of(self.until)}-{self.until_digest}" if self.until > (0, 0) else ""
        names = [id_of(self.place), id_of(self.first), self.stream, state, *filter(None, [self.digest, until, self.locator]),
                 MARKS]
        return f"at{self.turn}.{MARKS} CNAME {'.'.join(names)}"


def mark_of(name: str, turn: int) -> Optional[Mark]:
    """The mark that an alias leads to, if it is one."""
    match = re.fullmatch(r"([0-9-]+)\.([0-9-]+)\.([0-9a-f]+)\.(good|half|broken)\.(?:([0-9a-f]{8})\.)?"
                         r"(?:([0-9]+-[0-9]+)-([0-9a-f]{8})\.)?(?:([0-9a-f]{16})\.)?" + re.escape(MARKS), name)
    return Mark(match[3], place_of(match[1]), place_of(match[2]), match[4] == "broken", turn, match[4] == "half", match[8] or "",
                match[5] or "", place_of(match[6] or "0-0"), match[7] or "") if match else None


def stream_id(key: str) -> str:
    """The stream of a key, in a mark."""
    return hashlib.sha256(octets_of(key)).hexdigest()[:16]


def now() -> float:
    """The time in seconds, by a clock that goes on while the machine is suspended, as others' do."""
    return time.clock_gettime(time.CLOCK_BOOTTIME)


def marks_of(session: Session) -> List[Mark]:
    """The marks of a locator, the last one last: none, or one or two. No event of its journal is made."""
    for _ in range(20):
        marks, exists = [], False
        for turn in range(2):
            for it in sets_of(session, f"at{turn}.{MARKS}"):
                mark = mark_of(it.name, turn)
                exists = exists or it.records > 0 and it.name == MARKS
                if mark:
                    marks.append(mark)
                    break
        if marks or not exists:
            return sorted(marks, key=lambda mark: mark.order)
        # Each of them was looked for while it was replaced: once more.
    raise Fault(f"the locator has a zone {MARKS} that is none of ours")


def sets_of(session: Session, name: str) -> List[Dependency]:
    """The record sets that lead to the addresses of a name, for whatever transport the client has: of others none is
    read."""
    for uri in (f"sip:{name}:1", f"sips:{name}:1", f"sip:{name}:1;transport=tcp", f"sip:{name}:1;transport=sctp"):
        found = session.deps(uri)
        if found:
            return found
    raise Fault(f"the locator reads nothing for {name}")


def batches(entries: Iterable[Entry]) -> Iterator[List[Entry]]:
    """Entries in order, in runs without both additions and deletions, or both holds and releases; any other change is a
    run of its own. A run that is sent again from its beginning, after a first part of it was done, leaves all as if it
    had been sent once: what was refused, for want of space too, is refused again."""
    batch: List[Entry] = []
    words = set()
    for entry in entries:
        opposite = _OPPOSITES.get(entry.change.word)
        if batch and (opposite is None or opposite in words or len(batch) == WINDOW):
            yield batch
            batch, words = [], set()
        batch.append(entry)
        words.add(entry.change.word)
        if opposite is None:
            yield batch
            batch, words = [], set()
    if batch:
        yield batch


def place_of(text: Union[str, bytes]) -> Place:
    """The place of an entry's id, such as `1700000000000-0`."""
    match = re.fullmatch(r"([0-9]{1,20})-([0-9]{1,20})", text if isinstance(text, str) else text.decode("latin-1"))
    if not match:
        raise Fault(f"not an id of a stream's entry: {text!r}")
    return int(match[1]), int(match[2])


def id_of(place: Place) -> str:
    """The id of an entry."""
    return f"{place[0]}-{place[1]}"


class Extent(NamedTuple):
    """Which entries a stream has: the first, the last that there ever was, the last that was deleted by its id, how many
    were taken out in all, and the digest of the one at the place that was asked for, empty where there is none. Redis 7.0
    does not say of one that was trimmed which it was."""

    first: Place
    last: Place
    deleted: Place
    removed: int
    digest: str

    def begins(self) -> Place:
        """The first entry, or the one that there will be at the earliest."""
        return self.first if self.first > (0, 0) else (self.last[0], self.last[1] + 1)

    def lacks(self, place: Place) -> bool:
        """Whether entries after a place may have been taken out."""
        return self.removed > 0 and place < self.last and self.begins() > place

    def has_lost(self, place: Place, digest: str = "") -> bool:
        """Whether the entry at the place that was asked for is another one than that of a digest, or is not there though
        nobody took it out: Redis has lost it, as it does with what it had not written."""
        if self.digest:
            return digest not in ("", self.digest)
        is_taken_out = self.deleted >= place or self.removed > 0 and self.begins() > place
        return place > (0, 0) and (self.last < place or not is_taken_out)


class Stream(Connection):
    """A Redis stream. Raises `Fault` where Redis is away or refuses a command."""

    def __init__(self, address: str, key: str, seconds: float = 60) -> None:
        """The stream of a key, at an address as `Connection` takes it, which may be silent for some seconds."""
        self.key = key
        super().__init__(address, seconds)

    def append(self, changes: Sequence[Change]) -> Place:
        """Appends changes in order, all or none; the place of the last one."""
        replies = self.transact([[b"XADD", octets_of(self.key), b"*", b"change", it.octets] for it in changes])
        return place_of(bytes_of(replies[-1]))

    def append_clock(self, change: Change, place: Place) -> bool:
        """Appends a `clock`, unless somebody else has done so since the entry at a place; whether it did."""
        words = [b"EVAL", _CLOCK, b"1", octets_of(self.key), id_of(place).encode(), change.octets]
        return self.ask([words])[0] is not None

    def append_once(self, changes: Sequence[Change], token: str, first: int) -> Place:
        """Appends changes in order, all or none, if that was not done before; the place of the last one. A publisher's
        changes are numbered by its token, these from the first number on."""
        key = octets_of(self.key)
        place = self.ask([[b"EVAL", _APPEND, b"2", key, b"%b:by:%b" % (key, token.encode()), token.encode(), b"%d" % first,
                           *(it.octets for it in changes)]])[0]
        if place is None:
            raise Fault(f"{self.key}: Redis has lost changes that it had taken from here: publish them again")
        return place_of(bytes_of(place))

    def wait(self, place: Place, milliseconds: int) -> None:
        """Waits until there is an entry after a place, or so long."""
        self.ask([[b"XREAD", b"COUNT", b"1", b"BLOCK", b"%d" % milliseconds, b"STREAMS", octets_of(self.key),
                   id_of(place).encode()]])

    def window(self, place: Place) -> Tuple[Extent, List[Value]]:
        """Which entries there are, and at the same time some of them after a place, in order."""
        reply = self.ask([[b"EVAL", _WINDOW, b"1", octets_of(self.key), id_of(place).encode()]])[0]
        if not isinstance(reply, list) or [*map(type, reply)] not in ([], [list, bytes, list]):
            raise Fault(f"not a reply of Redis: {reply!r}")
        if not reply:
            return Extent((0, 0), (0, 0), (0, 0), 0, ""), []
        info, digest, values = reply
        places = [place, *(place_of(bytes_of(it[0])) if isinstance(it, list) and len(it) == 2 else place
                           for it in values)]  # type: ignore[union-attr]
        if any(before >= after for before, after in zip(places, places[1:])):
            raise Fault(f"not a reply of Redis: entries out of order, {[*map(id_of, places)][:60]}")
        return self.extent_of(info, bytes_of(digest)[:8].decode("latin-1")), values  # type: ignore[arg-type, return-value]

    def after(self, place: Place) -> List[Entry]:
        """Some entries after a place, in order."""
        return self.entries(self.window(place)[1])

    def entries(self, values: Sequence[Value]) -> List[Entry]:
        """The entries that `window` has found, up to one that is none of ours; that one first is a fault."""
        entries: List[Entry] = []
        for it in values:
            try:
                entries.append(self.entry(it))
            except Garbage:
                # What comes before it is done first.
                if entries:
                    break
                raise
        return entries

    def entry(self, value: Value) -> Entry:
        """An entry as Redis has it. One that is none of ours is a fault."""
        name, fields = value  # type: ignore[misc]
        place = place_of(name)
        try:
            if not isinstance(fields, list) or len(fields) % 2 or fields[::2] not in ([b"change"], [b"change", b"by"]):
                raise Fault("it does not have the field `change`, and at most `by`")
            change = change_of(bytes_of(fields[1]))
            change.check()
            return Entry(place, change, digest_of([*map(bytes_of, fields)]))
        except Fault as fault:
            raise Garbage(place, f"entry {id_of(place)} of {self.key}: {fault}") from fault

    def extent(self) -> Extent:
        """Which entries there are."""
        return self.window((1 << 63, 0))[0]

    def has_lost_after(self, mark: Mark) -> bool:
        """Whether Redis has lost entries of the batch of which a locator with a mark may have a first part."""
        return mark.until > (0, 0) and self.window(mark.until)[0].has_lost(mark.until, mark.until_digest)

    def extent_of(self, info: List[Value], digest: str) -> Extent:
        """What `XINFO STREAM` says, and the digest of the entry that was asked for."""
        facts = dict(zip(map(bytes_of, info[::2]), info[1::2]))
        names = (b"recorded-first-entry-id", b"last-generated-id", b"max-deleted-entry-id")
        places, counts = [facts.get(name) for name in names], [facts.get(name)
                                                               for name in (b"entries-added", b"length")]
        if None in places or not all(isinstance(it, int) for it in counts):
            raise Fault(f"Redis at {self.address} does not tell what was deleted of a stream: it needs Redis 7")
        first, last, deleted = (place_of(bytes_of(it)) for it in places)
        return Extent(first, last, deleted, counts[0] - counts[1], digest)  # type: ignore[operator]


class Publisher:
    """What appends changes to a stream, each once, also where Redis goes away meanwhile."""

    def __init__(self, address: str, key: str, seconds: float = 60) -> None:
        """Redis may be away for some seconds, but not at the start."""
        self.address, self.key, self.seconds = address, key, seconds
        self.token, self.count, self.used = secrets.token_hex(8), 0, now()
        self.stream = Stream(address, key)
        self.place = self.stream.extent().last

    def append(self, changes: Sequence[Change]) -> None:
        """Appends changes, all or none; `place` is that of the last one."""
        start = now()
        if start > self.used + _RESTED:
            # (Redis counts no more what was appended)
            self.token, self.count = secrets.token_hex(8), 0
        first, self.count, self.used, end = self.count, self.count + len(changes), start, start + self.seconds
        is_new = False
        while True:
            try:
                if is_new:
                    self.stream = Stream(self.address, self.key)
                self.place = self.stream.append_once(changes, self.token, first)
                return
            except Fault as fault:
                if not isinstance(fault, Away) or is_new and now() >= end:
                    # What is appended after it has a count of its own.
                    self.token, self.count = secrets.token_hex(8), 0
                    raise
            if is_new:
                time.sleep(0.2)
            is_new = True


class Garbage(Fault):
    """An entry that is no change; its place."""

    def __init__(self, place: Place, message: str) -> None:
        super().__init__(message)
        self.place = place
