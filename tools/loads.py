"""What `tools/fetch-zone` and `tools/follow` load: a zone, and the zones below it in the same load, since siploc
refuses a zone below a loaded one (S1)."""

from __future__ import annotations

import argparse
from typing import Iterator, NamedTuple, Optional, Sequence

import zones


class Load(NamedTuple):
    """A zone as it was transferred, and the zones below it that were given with it. Those that are loaded elsewhere exist
    here too: else their names would have what a wildcard above them has (RFC 4592, 4.2)."""
    zones: Sequence[zones.Zone]
    apart: Sequence[str] = ()

    @property
    def apex(self) -> str:
        return self.zones[0].apex

    def serials(self) -> str:
        return ", ".join(str(it.serial) for it in self.zones)

    def lines(self) -> list[str]:
        """The lines to load."""
        made = [line for it in self.zones for line in it.lines()] + [f"{it} {zones.MARK}" for it in self.apart]
        if len(made) > zones.MAX_LINES:
            raise zones.Fault(f"siploc would be given {len(made)} records, and a zone has at most {zones.MAX_LINES} lines (K1)")
        return made

    def omissions(self) -> Iterator[str]:
        for it in self.zones:
            yield from (f"{it.apex}: left out {text}" for text in it.omissions())


def fetch(given: argparse.Namespace, apex: str, before: Optional[zones.Zone] = None) -> zones.Zone:
    """One of the zones that were given, by a whole transfer, or a Fault that names it."""
    apart = [it for it in [*given.children, *given.apart] if it != apex and zones.is_within(it, apex)]
    try:
        return zones.fetch(given.server, apex, apart, given.truncate, given.skip_refused, before)
    except zones.Unfit as fault:
        raise zones.Unfit(f"{apex} from {given.server}: {fault}") from None
    except zones.Fault as fault:
        raise zones.Fault(f"{apex} from {given.server}: {fault}") from None


def fetch_newest(given: argparse.Namespace, apex: str) -> zones.Zone:
    """What `fetch` returns, of the newest serial that the server has at any of its addresses: one may be behind."""
    zone = fetch(given, apex)
    try:
        while len(given.server.addresses()) > 1 and zones.is_newer(
                zones.serial_of(zones.ask_soa(given.server, zone)), zone.serial):
            zone = fetch(given, apex, zone)
    except zones.Fault as fault:
        raise zones.Fault(f"{apex}: serial {zone.serial} may be behind: {fault}") from None
    return zone


def add_words(parser: argparse.ArgumentParser) -> None:
    """The words that say what is transferred, and how."""
    parser.add_argument("server", metavar="SERVER[@PORT]",
                        help="the name server: an address or a name; port 53 if none is given")
    parser.add_argument("apex", metavar="APEX", help="the zone's name")
    parser.add_argument("children", metavar="CHILD", nargs="*", default=[],
                        help="a zone below it, which is in the same load")
    parser.add_argument("--tsig", metavar="FILE", help="a file with the key that signs the transfer, as BIND's "
                        "tsig-keygen prints it; an answer that is not signed by it is refused")
    parser.add_argument("--apart", metavar="CHILD", action="append", default=[],
                        help="leave out the names of a child zone, CHILD and below, which is loaded elsewhere: they "
                        "have nothing then, of a wildcard neither")
    parser.add_argument("--truncate", action="store_true",
                        help=f"keep the first {zones.MAX_SET} records of a set that has more; without it, they are refused")
    parser.add_argument("--skip-refused", action="store_true",
                        help="leave a name as it was, or empty, that siploc would refuse, for a "
                        "set that is too large or an alias beside other data; without it, the zone stays as it is")
    parser.add_argument("--timeout", metavar="SECONDS", type=int, default=10,
                        help="for how long the server may be silent (10); a whole transfer may take 60 times as long")


def read_words(parser: argparse.ArgumentParser, words: Sequence[str]) -> argparse.Namespace:
    """The words that were given, with the server and the names read."""
    given = parser.parse_intermixed_args(words)
    if not 1 <= given.timeout <= 3_600:
        parser.error("--timeout is 1 to 3600")
    try:
        given.server = zones.Server.read(given.server, given.tsig, given.timeout)
        given.apex, given.children, given.apart = (
            zones.read_name(given.apex), [*map(zones.read_name, given.children)], [*map(zones.read_name, given.apart)])
    except ValueError as fault:
        parser.error(str(fault))
    if given.apex.startswith("*."):
        parser.error(f"the first label of {given.apex} is *, which siploc loads no zone of (S9)")
    below = [*given.children, *given.apart]
    for child in below:
        if child == given.apex or not zones.is_within(child, given.apex):
            parser.error(f"{child} is not below {given.apex}")
        if below.count(child) > 1:
            parser.error(f"{child} is given twice")
    return given
