"""What the parts of `tests/in-use/run` that look at zones share: a zone and its routes, as the standards have them, and
what runs tests."""

from __future__ import annotations

import contextlib
import io
import os
import pathlib
import re
import runpy
import subprocess
import sys
import time
import traceback
from typing import Any, Callable, Sequence

TOP = pathlib.Path(__file__).resolve().parent.parent.parent
PROGRAM = os.path.abspath(os.environ.get("SIPLOC") or TOP / "crates/siploc/out/siploc")
FETCH, FOLLOW = str(TOP / "tools/fetch-zone"), str(TOP / "tools/follow")
APEX = "example.com"
SCRIPTS: dict[str, Callable[[Sequence[str]], int]] = {}

HEAD = "$ORIGIN example.com.\n$TTL 300\n@ SOA ns1 host {serial} {refresh} 1 86400 60\n"
# Sixteen records that siploc is given: the SOA record, four others of types that it does not read, and eleven that it
# reads. The NS and TXT records of the apex are left out, since the apex exists by its NAPTR record.
ZONE = HEAD + r"""@ NS ns1
ns1 A 192.0.2.53
@ NAPTR 10 10 "s" "SIP+D2T" "" _sip._tcp
@ TXT "quoted ; ( string" "a \"b\" \\ c"
_sip._tcp SRV 0 1000 5060 Server1
_sip._tcp SRV 0 1000 5060 server2
server1 A 192.0.2.1
server2 A 192.0.2.2
server2 AAAA 2001:db8::2
dotted\.name\;x A 192.0.2.7
alias CNAME server1
*.wild A 192.0.2.9
known.wild TXT "so that it exists"
odd TYPE65280 \# 4 0A000001
generic TYPE1 \# 4 C0000208
child NS ns.child
ns.child A 192.0.2.54
"""
RECORDS = 16
# What RFC 3263 and RFC 4592 say of the zone.
ROUTES = [
    ("find sip:example.com", ["target 1 tcp 192.0.2.1 5060", "target 2 tcp 192.0.2.2 5060", "ok find 2"]),
    ("find sip:alias.example.com:5070", ["target 1 udp 192.0.2.1 5070", "ok find 1"]),
    ("find sip:generic.example.com:5070", ["target 1 udp 192.0.2.8 5070", "ok find 1"]),
    ("find sip:any.wild.example.com:5070", ["target 1 udp 192.0.2.9 5070", "ok find 1"]),
    ("find sip:known.wild.example.com:5070", ["none NoAddress"]),
    ("find sip:ns.child.example.com:5070", ["target 1 udp 192.0.2.54 5070", "ok find 1"]),
    ("deps sip:dotted.name.example.com:5070", ["dep example.com. EXISTS 1"]),
]


class Failed(Exception):
    """What a test has found."""


def expect(is_so: object, text: str) -> None:
    if not is_so:
        raise Failed(text)


def run(words: Sequence[str], octets: bytes = b"", seconds: float = 120, **rest: Any) -> tuple[int, str, str]:
    """The status of a process, and what it prints."""
    done = subprocess.run([*words], input=octets, stdout=subprocess.PIPE, stderr=subprocess.PIPE, timeout=seconds,
                          check=False,
                          **rest)
    return done.returncode, done.stdout.decode(), done.stderr.decode()


def call(path: str, words: Sequence[str], octets: bytes = b"") -> tuple[int, str, str]:
    """What `run` returns of a script in Python, without a process of its own."""
    if path not in SCRIPTS:
        SCRIPTS[path] = runpy.run_path(path)["main"]
    out, errors, before = io.StringIO(), io.StringIO(), sys.stdin
    sys.stdin = io.TextIOWrapper(io.BytesIO(octets))
    try:
        with contextlib.redirect_stdout(out), contextlib.redirect_stderr(errors):
            status = SCRIPTS[path](words)
    except SystemExit as end:
        status = end.code if isinstance(end.code, int) else 1
    finally:
        sys.stdin = before
    return status, out.getvalue(), errors.getvalue()


def session(text: str, seconds: float = 120) -> list[str]:
    """The replies of the program to a session."""
    status, out, _ = run([PROGRAM, "run"], text.encode(), seconds)
    expect(status == 0, f"the program ended with {status}")
    return out.split("\n")[:-1]


def loads(text: str) -> list[str]:
    """The reply to the lines of a zone, and those to the questions about it."""
    first, *replies = session(text + "".join(f"{it}\n" for it, _ in ROUTES))
    return [first, *replies]


def routes_are_right(text: str) -> None:
    """The zone that was printed is loaded as a whole, and gives the routes of the standards."""
    first, *replies = loads(text)
    expect(re.fullmatch(r"ok zone [0-9]+ 0 0 [0-9]+", first), f"the load is {first}")
    expect(int(first.split()[2]) == int(text.split("\n")[0].split()[2]), f"not each line is a record: {first}")
    at = 0
    for line, expected in ROUTES:
        if line.startswith("deps"):
            expect(expected[0] in replies[at:], f"{line} has no {expected[0]}")
        else:
            expect(replies[at:at + len(expected)] == expected, f"{line}: {replies[at:at + len(expected)]}")
        at += len(expected)


def run_tests(tests: dict[str, Callable[..., None]], words: Sequence[str], *given: Any) -> int:
    """Runs the functions of a module whose names begin with `test_`, and counts them."""
    passed = failed = 0
    for name, test in tests.items():
        if not name.startswith("test_") or words and not any(word in name for word in words):
            continue
        began, fault = time.monotonic(), None
        try:
            test(*given)
        except Failed as found:
            fault = str(found)
        except Exception:  # a test that breaks is one that fails
            fault = traceback.format_exc()
        passed, failed = passed + (not fault), failed + bool(fault)
        if fault:
            print(f"{name[5:]}: {fault}", flush=True)
        if os.environ.get("TIMES"):
            print(f"{time.monotonic() - began:6.1f} s  {name[5:]}", flush=True)
    print(f"{passed} passed, {failed} failed")
    return 1 if failed else 0


def need_program() -> None:
    """Ends where there is no program to test."""
    if not os.access(PROGRAM, os.X_OK):
        print(f"{PROGRAM} is no program: SIPLOC names one\n0 passed, 1 failed")
        sys.exit(1)
