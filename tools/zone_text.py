"""What `tools/explain` and `tools/lint` share: the text of a zone, read as docs/use/FORMATS.md has it, and what its
records mean for a route. The reading is that of `tools/plain`."""

from __future__ import annotations

import argparse
import fractions
import importlib.util
import pathlib
import re
import runpy
import sys
import types
from typing import Any, Iterable, NamedTuple, Optional, Sequence

import usage

TOP = pathlib.Path(__file__).resolve().parent.parent
sys.path.insert(0, str(TOP / "clients/python"))
import siploc  # noqa: E402  (it is beside this folder)

# `tools/plain` reads settings by it; here they are words of the command, and Python before 3.11 has none.
if not importlib.util.find_spec("tomllib"):
    sys.modules["tomllib"] = types.ModuleType("tomllib")
plain = types.SimpleNamespace(**runpy.run_path(str(TOP / "tools/plain")))

Name = tuple[bytes, ...]
# Each transport by the service of a NAPTR record.
SERVICES = {name.decode().upper(): transport for name, transport in plain.POINTERS.items()}
# Those that are registered, too (RFC 4168, 7118), for transports that siploc has not got.
OTHERS = ("SIPS+D2S", "SIP+D2W", "SIPS+D2W")


class Fault(Exception):
    """Why a zone can't be read."""


class Zone(NamedTuple):
    """An apex and the text of its zone."""
    apex: Name
    octets: bytes
    # How many lines were before the text in the input.
    skipped: int

    def records(self) -> list[tuple[Name, str, tuple[Any, ...]]]:
        try:
            records: list[tuple[Name, str, tuple[Any, ...]]] = plain.read_zone(self.octets, self.apex)[0]
            return records
        except plain.Refused as fault:
            raise Fault(f"line {fault.line + self.skipped}: {fault.code}: {meaning(fault.code)}") from None


def meaning(code: str) -> str:
    return siploc.MEANINGS.get(code, "a fault")


def read_apex(text: str) -> Name:
    try:
        name: Name = plain.read_name(text.encode(errors="surrogateescape"))
        return name
    except plain.Refused as fault:
        raise Fault(f"{text} is not a name: {fault.code}: {meaning(fault.code)}") from None


def read_zone(apex: str, octets: bytes) -> Zone:
    """The zone of a text. With a `zone` line before it, as `tools/fetch-zone` prints one, it is the lines of that. Where
    that fails it prints nothing, which is no zone."""
    name = read_apex(apex)
    if not octets.strip():
        raise Fault(f"the text of the zone {apex} is empty")
    first, _, rest = octets.partition(b"\n")
    match = re.fullmatch(rb"zone[ \t]+(\S+)[ \t]+([0-9]+)\r?", first)
    if not match:
        return Zone(name, octets, 0)
    if read_apex(match[1].decode(errors="replace")) != name:
        raise Fault(f"the input is the zone {match[1].decode(errors='replace')}, and not {apex}")
    lines, count = rest.split(b"\n"), int(match[2])
    if len(lines) - (not lines[-1]) < count:
        raise Fault(f"the input ends before the {count} lines of the zone")
    return Zone(name, b"\n".join(lines[:count]), 1)


def read_others(given: Sequence[str]) -> list[Zone]:
    """The zones of APEX=FILE."""
    found = []
    for text in given:
        apex, _, path = text.partition("=")
        with open(path, "rb") as file:
            found.append(read_zone(apex, file.read()))
    return found


def state_of(given: Sequence[Zone], transports: Sequence[str], families: str) -> Any:
    """The state of `tools/plain` with some zones."""
    state = plain.State({"transports": [*transports], "families": families})
    for zone in given:
        try:
            records = zone.records()
        except Fault as fault:
            raise Fault(f"{plain.print_name(zone.apex)}: {fault}" if zone is not given[0] else str(fault)) from None
        try:
            state.load(zone.apex, records)
        except plain.Refused as fault:
            raise Fault(f"{plain.print_name(zone.apex)} can't be loaded: {fault.code}: {meaning(fault.code)}") from None
    return state


# ---- what records mean


def print_data(kind: str, data: tuple[Any, ...]) -> str:
    """The data of a record, as in a master file."""
    if kind in ("A", "AAAA"):
        return str(plain.print_address(data))
    if kind == "CNAME":
        return str(plain.print_name(data))
    if kind == "SRV":
        return f"{data[0]} {data[1]} {data[2]} {plain.print_name(data[3])}"
    if kind != "NAPTR":
        raise ValueError(f"records of type {kind} are not printed")
    strings = " ".join(f'"{text}"' for text in map(print_string, data[2:5]))
    return f"{data[0]} {data[1]} {strings} {plain.print_name(data[5])}"


def print_string(octets: bytes) -> str:
    return "".join(f"\\{it:03}" if not 0x20 <= it <= 0x7E else "\\" * (it in b'\\"') + chr(it) for it in octets)


def is_for_sip(data: tuple[Any, ...]) -> bool:
    """Whether a NAPTR record is for the services of SIP (RFC 3263, 4.1)."""
    return re.match(rb"sips?\+", data[3].lower()) is not None


def rank(data: tuple[Any, ...]) -> tuple[int, int]:
    """Order and preference of a NAPTR record, of which the least is chosen."""
    return data[0], data[1]


def why_not(data: tuple[Any, ...], transports: Sequence[str], is_secure: bool = False) -> Optional[str]:
    """Why a NAPTR record does not apply, if it does not."""
    transport = SERVICES.get(data[3].decode("latin-1").upper())
    if data[2].lower() != b"s":
        return f'its flags are "{print_string(data[2])}", and only "s" is used'
    if transport is None:
        return f'its services, "{print_string(data[3])}", are none of {", ".join(SERVICES)}'
    if data[4]:
        return "it has a regular expression, and none is used"
    if not data[5]:
        return "its replacement is the root"
    if transport not in transports:
        return f"the client has no {transport}"
    if is_secure and transport != "tls":
        return "sips needs TLS"
    return None


def shares(weights: Sequence[int]) -> list[fractions.Fraction]:
    """How often each server of one priority is chosen first, by RFC 2782 to the letter. The weights of 0 come first,
    the numbers go from 0 to the sum, and the first server of the list has one number more."""
    order = sorted(range(len(weights)), key=lambda it: weights[it] != 0)
    total = sum(weights) + 1
    found = [fractions.Fraction(it, total) for it in weights]
    found[order[0]] += fractions.Fraction(1, total)
    return found


def percent(share: fractions.Fraction) -> str:
    return f"{float(share * 100):.1f} %"


# ---- what is printed


def print_lines(lines: Iterable[str]) -> bool:
    """Prints lines, and returns whether all of them were taken."""
    try:
        for line in lines:
            print(line)
        usage.output().flush()
    except OSError as fault:
        usage.drop_output()
        if not isinstance(fault, BrokenPipeError):
            print(f"standard output: {fault.strerror}", file=sys.stderr)
        return False
    except usage.Ended as ended:
        print(ended, file=sys.stderr)
        return False
    return True


# ---- words of the commands


def add_words(parser: argparse.ArgumentParser, transports: str, families: str) -> None:
    parser.add_argument("--with", metavar="APEX=FILE", action="append", default=[], dest="others",
                        help="another zone that is loaded beside this one, such as that of the targets")
    parser.add_argument("--transports", default=transports, metavar="LIST",
                        help=f"what the client has, in its order of preference ({transports})")
    parser.add_argument("--families", default=families, choices=[*plain.FAMILIES],
                        help=f"the families of addresses that it looks up ({families})")


def check_others(parser: argparse.ArgumentParser, given: Sequence[str]) -> None:
    if not all("=" in it for it in given):
        parser.error("--with takes APEX=FILE")


def read_transports(parser: argparse.ArgumentParser, text: str) -> list[str]:
    found = text.split(",")
    if not {*found} <= {*plain.TRANSPORTS} or len({*found}) < len(found):
        parser.error(f"--transports {text}: each is one of {', '.join(plain.TRANSPORTS)}, and none twice")
    return found
