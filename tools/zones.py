"""What the tools for zones share: names, zone transfers, checked, and what siploc keeps of a zone."""

from __future__ import annotations

import collections
import copy
import itertools
import re
from typing import Any, Callable, Iterable, Iterator, NamedTuple, Optional, Sequence, TypeVar

from dig import READ, Fault, Record, Server, ask

# The types by which no name exists: RRSIG and NSEC are never a name's only records (RFC 4035, 2.3), and the owner of an
# NSEC3 record does not exist by it (RFC 5155, 7.2.8).
PROOFS = ("RRSIG", "NSEC", "NSEC3")
# The lines that a `zone` line may announce, the octets of a line, and the records of a set.
MAX_LINES, MAX_LINE, MAX_SET = 1 << 20, 65_536, 32
# No name has more records that are read: a set fits in a message, and a record takes 16 octets. Nor has one so many others.
MAX_NAME = 5 * 65_536 // 16
# By this a name exists that has no record of its own to exist by.
MARK = "NULL \\# 0"
# Where there are more differences the zone is transferred as a whole.
MAX_CHANGES = 2 * MAX_LINES

Answer = TypeVar("Answer")


class Unfit(Fault):
    """Why siploc would refuse a zone that has been transferred."""


# ---- names


def octets_of(label: str) -> bytes:
    """The octets of a label in a master file, in lower case."""
    found = re.findall(r"\\(\d{3})|\\?(.)", label, re.S)
    return b"".join(bytes([int(code)]) if code else char.encode() for code, char in found).lower()


def read_name(text: str) -> str:
    """A name as `dig` and siploc print it, in lower case. A final dot may be left out."""
    if text == ".":
        return text
    labels = re.findall(r"((?:[^.\\]|\\\d{3}|\\\D)+)(?:\.|$)", text)
    if "".join(f"{it}." for it in labels) not in (text, text + ".") or not labels:
        raise ValueError(f"{text} is not a name")
    try:
        wire = [octets_of(it) for it in labels]
    except ValueError:
        raise ValueError(f"{text} has a bad escape") from None
    if max(map(len, wire)) > 63 or sum(len(it) + 1 for it in wire) > 254:
        raise ValueError(f"{text} is too long for a name")
    return "".join(print_label(it) + "." for it in wire)


def print_label(octets: bytes) -> str:
    return "".join(f"\\{it:03}" if not 0x21 <= it <= 0x7E else "\\" * (it in b'.\\";()@$') + chr(it) for it in octets)


def is_within(name: str, apex: str) -> bool:
    """Whether a name is an apex or below it. Both are as `read_name` prints them."""
    if name == apex or apex == ".":
        return True
    if not name.endswith("." + apex):
        return False
    head = name[:-len(apex) - 1]
    return (len(head) - len(head.rstrip("\\"))) % 2 == 0


def names_above(name: str) -> Iterator[str]:
    """A name as `read_name` prints it, and those above it: as what is after `*.`, where the root has no octet."""
    yield name
    for dot in re.finditer(r"(?:[^.\\]|\\\d{3}|\\\D)+\.", name):
        yield name[dot.end():]


# ---- transfers


def each_address(server: Server, call: Callable[[str], Answer], faults: Optional[list[str]] = None) -> Iterator[Answer]:
    """What a call returns for each of a server's addresses at which it succeeds, and in `faults` why it did not at
    others; a Fault where it does at none."""
    if server.key:
        try:
            open(server.key, "rb").close()
        except OSError as fault:
            raise Fault(f"the key {server.key} can't be read: {fault.strerror}") from None
    addresses, faults = server.addresses(), [] if faults is None else faults
    for address in addresses:
        try:
            yield call(address)
        except Unfit:
            raise
        except Fault as fault:
            faults.append(f"{address}: {fault}" if address != server.host else str(fault))
    if len(faults) == len(addresses):
        raise Fault("; ".join(faults))


def serial_of(soa: Record) -> int:
    return int(soa.data.split()[2])


def is_newer(serial: int, than: int) -> bool:
    """RFC 1982, 3.2."""
    return 0 < (serial - than) % (1 << 32) < 1 << 31


def begin(records: Iterator[Record], apex: str) -> Record:
    """The SOA record that a transfer begins with."""
    first = next(records, None)
    if first is None:
        raise Fault("the answer is empty")
    if first.kind != "SOA":
        raise Fault(f"the transfer begins with a record of type {first.kind}, and not with the SOA record")
    if first.owner != apex:
        raise Fault(f"the transfer is of {first.owner}, and not of {apex}")
    if not re.fullmatch(r"\S+ \S+( \d{1,10}){5}", first.data):
        raise Fault("the SOA record is not complete")
    return first


def finish(records: Iterator[Record], soa: Record, apex: str) -> Iterator[Record]:
    """The records of a whole zone after its first SOA record, up to the second one, which is left out."""
    is_done = False
    for record in records:
        if is_done:
            raise Fault("there are records after the second SOA record")
        if record.kind == "SOA" and record.owner == apex:
            if record.data.lower() != soa.data.lower():
                raise Fault(f"the zone changed while it was sent: it begins with the SOA record of serial {serial_of(soa)}, "
                            f"and ends with another one ({record.data})")
            is_done = True
        else:
            yield record
    if not is_done:
        raise Fault("the transfer was cut short: it does not end with the SOA record that it begins with")


# ---- what siploc keeps


class Zone:
    """The records of a zone: those that siploc reads, and the others, by which a name exists."""

    def __init__(self, apex: str, apart: Iterable[str] = (), truncate: bool = False, skip: bool = False):
        self.apex, self.apart, self.truncate, self.skip = apex, [*apart], truncate, skip
        # Names that siploc would refuse, each with the reason, and what is kept of it in their place.
        self.refused: dict[str, str] = {}
        self.instead: dict[str, dict[str, str]] = {}
        self.soa: Optional[Record] = None
        # (of the apex the SOA record is the first of the others)
        self.read: dict[str, list[str]] = {}
        self.others: dict[str, list[str]] = {}
        self.left_out: collections.Counter[str] = collections.Counter()

    @property
    def serial(self) -> int:
        assert self.soa
        return serial_of(self.soa)

    @property
    def times(self) -> tuple[int, int, int]:
        """The seconds of refresh, retry and expiry of the SOA record."""
        assert self.soa
        refresh, retry, expire = map(int, self.soa.data.split()[3:6])
        return refresh, retry, expire

    def tables(self) -> tuple[dict[str, Any], ...]:
        """What there is by names."""
        return self.read, self.others

    def table_of(self, kind: str) -> dict[str, list[str]]:
        return self.read if kind in READ else self.others

    def put_back(self, owner: str, parts: Sequence[Any]) -> None:
        """Puts a name's parts of the tables back, where it had any."""
        for table, part in zip(self.tables(), parts):
            table.pop(owner, None)
            if part is not None:
                table[owner] = part

    def leaves_out(self, record: Record) -> Optional[str]:
        """Why a record is not taken in, if it is not."""
        if record.kind in PROOFS:
            return f"of the types {', '.join(PROOFS)}, by which no name exists"
        if not is_within(record.owner, self.apex):
            return f"outside {self.apex}"
        return next((f"of {it} and below, which is loaded apart" for it in self.apart if is_within(record.owner, it)),
                    None)

    def add(self, record: Record) -> bool:
        """Takes a record in; one that is there already is counted, and false."""
        why = self.leaves_out(record)
        if why:
            self.left_out[why] += 1
            return True
        kept, text = self.table_of(record.kind).setdefault(record.owner, []), f"{record.kind} {record.data}"
        if text in kept:
            self.left_out["that were there before"] += 1
            return False
        if len(kept) == MAX_NAME:
            raise Fault(f"{record.owner} has more records than messages can hold")
        kept.append(text)
        return True

    def remove(self, record: Record) -> None:
        """Takes a record away; one that is not there is a KeyError."""
        if self.leaves_out(record):
            return
        table, text = self.table_of(record.kind), f"{record.kind} {record.data}"
        kept = table[record.owner]
        if text not in kept:
            raise KeyError(text)
        kept.remove(text)
        if not kept:
            del table[record.owner]

    def mark_of(self, owner: str) -> str:
        """A record that siploc does not read, by which a name exists."""
        text = self.others.get(owner, [MARK])[0]
        return f"{owner} {text if len(text) < MAX_LINE // 2 else text.partition(' ')[0]}"

    def kept(self, owner: str) -> dict[str, str]:
        """What siploc is given of a name: the text of each record by what it is compared by. A name that it reads
        no record of has one of the others, so that it exists; and the apex has its SOA record, which a reader likes."""
        if owner in self.instead:
            return self.instead[owner]
        counts: collections.Counter[str] = collections.Counter()
        texts = {}
        for text in self.read.get(owner, ()):
            kind = text.partition(" ")[0]
            counts[kind] += 1
            if counts[kind] <= MAX_SET:
                texts[text] = f"{owner} {text}"
        if owner in self.others and (not texts or owner == self.apex):
            texts[""] = self.mark_of(owner)
        return texts

    def why_refused(self, owner: str) -> Optional[str]:
        """Why siploc refuses what there is of a name: a set that is too large, or an alias beside other data."""
        texts = self.read.get(owner, ())
        if len(texts) < 2:
            return None
        counts = collections.Counter(it.partition(" ")[0] for it in texts)
        if "CNAME" in counts:
            return f"{owner} has an alias beside other data, which siploc refuses (Z14): --skip-refused leaves the name as it was"
        return next((f"{owner} has {count} records of type {kind}, and a set has at most {MAX_SET} (Z15): --truncate keeps "
                     f"the first {MAX_SET} of each, --skip-refused leaves the name as it was"
                     for kind, count in counts.items() if count > MAX_SET and not self.truncate), None)

    def check(self, owners: Iterable[str], before: Callable[[str], dict[str, str]]) -> None:
        """Refuses what siploc refuses, or keeps what was kept of such a name before."""
        for owner in [*owners]:
            why = self.why_refused(owner)
            if why and not self.skip:
                raise Unfit(why)
            self.refused.pop(owner, None)
            self.instead.pop(owner, None)
            if why:
                self.refused[owner] = why.partition(":")[0]
                # (one that does not exist would have what a wildcard has, RFC 4592, 2.2.1)
                self.instead[owner] = before(owner) or {"": self.mark_of(owner)}

    def lines(self) -> list[str]:
        """The lines to load, the SOA record first."""
        owners = dict.fromkeys([self.apex, *self.read, *self.others])
        made = [line for owner in owners for line in self.kept(owner).values()]
        return sorted(made, key=lambda it: not it.startswith(f"{self.apex} SOA "))

    def omissions(self) -> list[str]:
        """How many records are left out, and why."""
        beyond = collections.Counter((owner, text.partition(" ")[0]) for owner, it in self.read.items()
                                     if len(it) > MAX_SET and owner not in self.refused for text in it)
        marks = sum(1 for it in self.others if "" in self.kept(it))
        counts = {**self.left_out,
                  **{f"since {why}": len(self.read[owner]) for owner, why in self.refused.items()},
                  "of types that are not read, whose names exist by others": sum(map(len, self.others.values())) - marks,
                  **{f"of type {kind} of {owner}, beyond the {MAX_SET} of a set": count - MAX_SET
                     for (owner, kind), count in beyond.items()}}
        return [f"{count} {'record' if count == 1 else 'records'} {why}" for why, count in counts.items() if count > 0]


def name_the_soa(zone: Zone, soa: Record) -> None:
    """Makes this SOA record that of the zone, in place of an older one."""
    zone.soa = soa
    zone.others[zone.apex][0] = f"SOA {soa.data}"


def take(zone: Zone, soa: Record, records: Iterable[Record], before: Optional[Zone] = None) -> Zone:
    """A zone with the records of a whole transfer; `before` is what there was of it, which is older (a server may be
    behind the one that was asked for the serial)."""
    if before and not is_newer(serial_of(soa), before.serial):
        raise Fault(f"the server sends serial {serial_of(soa)}, and serial {before.serial} is kept")
    zone.add(soa)
    for record in records:
        zone.add(record)
        if max(len(zone.read), len(zone.others)) > MAX_LINES:
            raise Unfit(f"siploc would be given more than {MAX_LINES} names, and a zone has at most so many lines (K1)")
    zone.check(zone.read, before.kept if before else lambda _: {})
    name_the_soa(zone, soa)
    return zone


def fetch(server: Server, apex: str, apart: Iterable[str] = (), truncate: bool = False, skip: bool = False,
          before: Optional[Zone] = None) -> Zone:
    """A zone by a whole transfer (RFC 5936), or a Fault."""
    def at(address: str) -> Zone:
        records = ask(server, address, apex, ["-t", "AXFR"])
        soa = begin(records, apex)
        return take(Zone(apex, apart, truncate, skip), soa, finish(records, soa, apex), before)
    return next(each_address(server, at))


# ---- changes


class Change(NamedTuple):
    """A record that is added, or deleted, from one version of a zone to a later one."""
    is_added: bool
    record: Record


class Changes(NamedTuple):
    """The differences from one version of a zone to a later one, whose SOA record this is."""
    soa: Record
    steps: list[Change]


def ask_soa(server: Server, zone: Zone, faults: Optional[list[str]] = None) -> Record:
    """The SOA record that a server has of a zone: the first that is newer than that of the zone, or else the newest
    one, since at one of its addresses it may be behind. In `faults` is why some of them did not answer."""
    def at(address: str) -> Record:
        found = [*ask(server, address, zone.apex, ["-t", "SOA", "+tcp"])]
        soa = begin(iter(found), zone.apex)
        if len(found) > 1:
            raise Fault("there is more than one SOA record")
        return soa
    newest = None
    for soa in each_address(server, at, faults):
        if newest is None or is_newer(serial_of(soa), serial_of(newest)):
            newest = soa
        if is_newer(serial_of(newest), zone.serial):
            break
    assert newest
    return newest


def read_differences(records: Iterator[Record], apex: str, soa: Record, serial: int) -> list[Change]:
    """The changes of an incremental transfer after its first two SOA records, the second one of this serial
    (RFC 1995, 4)."""
    last, steps, is_added = serial_of(soa), [], False
    for record in records:
        if record.kind != "SOA" or record.owner != apex:
            if record.kind not in PROOFS:
                steps.append(Change(is_added, record))
            if len(steps) > MAX_CHANGES:
                raise Fault(f"there are more than {MAX_CHANGES} differences")
            continue
        here = serial_of(record)
        if is_added and serial == last:
            if record.data.lower() != soa.data.lower() or next(records, None) is not None:
                raise Fault("the differences do not end with the SOA record that they begin with")
            return steps
        if is_added and here != serial:
            raise Fault(f"the differences go on from serial {here}, and not from {serial}")
        is_added, serial = not is_added, here
    raise Fault("the differences were cut short: they do not end with the SOA record that they begin with")


def fetch_changes(server: Server, zone: Zone) -> Changes | Zone:
    """What has changed since a zone was transferred: the differences, or the whole zone where the server sends that."""
    assert zone.soa
    serial = serial_of(zone.soa)

    def at(address: str) -> Changes | Zone:
        records = ask(server, address, zone.apex, ["-t", f"IXFR={serial}"])
        soa = begin(records, zone.apex)
        second = next(records, None)
        if second is None:
            raise Fault("the server sends no differences")
        if second.kind != "SOA" or second.owner != zone.apex or serial_of(second) == serial_of(soa):
            return take(Zone(zone.apex, zone.apart, zone.truncate, zone.skip), soa,
                        finish(itertools.chain([second], records), soa, zone.apex), zone)
        if serial_of(second) != serial:
            raise Fault(f"the differences begin at serial {serial_of(second)}, and not at {serial}")
        if not is_newer(serial_of(soa), serial):
            raise Fault(f"the differences go back from serial {serial} to {serial_of(soa)}")
        return Changes(soa, read_differences(records, zone.apex, soa, serial))
    return next(each_address(server, at))


def apply(zone: Zone, changes: Changes) -> None:
    """Makes the changes. After a Fault the zone is as it was."""
    owners = [*dict.fromkeys(it.record.owner for it in changes.steps)]
    before = {owner: [copy.copy(table.get(owner)) for table in zone.tables()] for owner in [*owners, zone.apex]}
    kept = {owner: zone.kept(owner) for owner in owners} if zone.skip else {}
    refused, instead = {**zone.refused}, {**zone.instead}
    try:
        for is_added, record in changes.steps:
            if not is_added:
                zone.remove(record)
            elif not zone.add(record):
                raise KeyError
        zone.check(owners, kept.__getitem__)
    except (KeyError, Fault) as fault:
        for owner, parts in before.items():
            zone.put_back(owner, parts)
        zone.refused, zone.instead = refused, instead
        if isinstance(fault, Fault):
            raise
        raise Fault("the differences do not fit the zone that was transferred before") from None
    name_the_soa(zone, changes.soa)
