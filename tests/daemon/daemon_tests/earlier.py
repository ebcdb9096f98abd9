r"""What an earlier release wrote: the program of commit bdba9698 wrote the states, the logs and the archive that are in
tests/daemon/earlier. Today's program reads them, and writes the same from the same lines.

A release whose files differ on purpose writes a folder of its own, beside this one, which stays as it is:

    cd tests/daemon && PROGRAM=OLD PYTHONPATH=.:../../tools python3 -Bc 'from daemon_tests.earlier import *; \
        checks = Checks("write"); write(checks, pathlib.Path("FOLDER")); print(checks.faults)'
"""

from __future__ import annotations

import contextlib
import itertools
import pathlib
import random
import shutil
import subprocess
from typing import Iterator, Sequence

from daemon_tests.pages import digested, events_of, replay, replayed
from daemon_tests.support import PATIENCE, PROGRAM, SEED, TOP, Checks, Client, Daemon, started, stopped, test, until

EARLIER = TOP / "tests/daemon/earlier"
LAST_TIME = 1 << 52
# The client of each run.
FIRST_CLIENT = 'transports = ["tls", "tcp", "udp"]\nfamilies = "v4v6"\nheld = "out"'
SECOND_CLIENT = 'transports = ["udp", "sctp", "tcp", "tls"]\nfamilies = "v6v4"\nheld = "last"'
THIRD_CLIENT = 'transports = ["sctp", "tcp", "tls"]\nfamilies = "v4"\nheld = "out"'

# A name and a string of all that is escaped, and the longest ones: a wire form of 255 octets, and 255 octets.
ODD = r'\"Odd\"\.\\.\032\000\255\@\$\(\)\;'
LONG = ".".join(["l" * 63] * 3 + ["m" * 49])
STRING = r'\"\\\000\255 ;()@$.' + "x" * 244
# 25 records, of which two are of types that are not read and the others are 15 sets; one outside, and one repeated.
ZONE = rf"""$TTL 1w2d3h4m5s
@ 0 IN SOA ns hostmaster ( 1 2 ; of a type that is not read
    3 4 5 )
@ NAPTR 0 0 "u" "E2U+sip" "{STRING}" .
  NAPTR 10 65535 "S" "sips+d2t" "" _sips._tcp
  in 2147483647 naptr 65535 0 s SIP+D2T "" _sip._tcp
_sips._tcp SRV 0 0 65535 a
_sips._tcp SRV 0 65535 0 b
_sips._tcp SRV 65535 1 1 {ODD}
_sip._tcp SRV 0 1 5060 a
_sip._tcp SRV 0 2 5062 far.other.example.
_sip._udp SRV 0 0 0 .
_sip._udp.long SRV 1 1 1 {LONG}
a A 192.0.2.1
A 86400 A 192.0.2.1
a A 192.0.2.2
a AAAA 2001:db8::1
b A 0.0.0.0
b A 255.255.255.255
b AAAA ::
b AAAA ffff:ffff:ffff:ffff:ffff:ffff:255.255.255.255
{ODD} A 192.0.2.3
{LONG} A 192.0.2.4
www CNAME w
w CNAME a.example.com.
turn CNAME turn
x.outside.example. A 192.0.2.8
$ORIGIN dyn
* A 192.0.2.7
here TXT "a name that exists" ; and so no wildcard"""
# As many records as a set may have.
MANY = [f"10.0.0.{n}" for n in range(32)]
NEW_APEX = r'\"New\"\..example.'
NEW = """$TTL 1
@ NAPTR 1 2 s sip+d2s "" _sip._sctp.a.example.com.
_sip._sctp SRV 3 4 5 c
c A 192.0.2.5
* CNAME c"""
A4, A6 = ["192.0.2.1", "192.0.2.2"], ["2001:db8:0:0:0:0:0:1"]
B4, B6 = ["0.0.0.0", "255.255.255.255"], [":".join("0" * 8), ":".join(["ffff"] * 8)]
FAR6 = "2001:db8:0:0:0:0:0:9"


def load(apex: str, text: str) -> str:
    """The lines that load a zone."""
    return f"zone {apex} {len(text.splitlines())}\n{text}"


def at(port: int, *addresses: str) -> list[str]:
    return [f"{it} {port}" for it in addresses]


def targets(transport: str, *places: str) -> list[str]:
    """The reply to a `find` with these targets, each an address and a port."""
    return [*(f"target {n} {transport} {it}" for n, it in enumerate(places, 1)), f"ok find {len(places)}"]


# What each run was told, and the replies by RFC 3263, 2782 and 4592: worked by hand, and those of tools/plain too.
FIRST = [
    ("clock 1000", ["ok clock 1000"]),
    (load("example.com.", ZONE), ["ok zone 25 1 1 15"]),
    (load("other.example.", "far A 192.0.2.9\nfar AAAA 2001:db8::9"), ["ok zone 2 0 0 2"]),
    (load("m.", "\n".join(f"@ A {it}" for it in MANY)), ["ok zone 32 0 0 1"]),
    (load(r'\"Gone\"\255.example.', "@ A 192.0.2.8"), ["ok zone 1 0 0 1"]),
    ("zone empty.example. 0", ["ok zone 0 0 0 0"]),
    # Of the NAPTR records that apply that of TLS has the least order. The word is 65,535 modulo the sum of the weights
    # and 1: the server with all the weight is first. (With a word of 0 it is the one without.)
    ("find sip:example.com words 4294967295",
     targets("tls", *at(0, *B4, *B6), *at(65535, *A4, *A6), *at(1, "192.0.2.3"))),
    ("find sips:bob@EXAMPLE.com. words 0,4294967295",
     targets("tls", *at(65535, *A4, *A6), *at(0, *B4, *B6), *at(1, "192.0.2.3"))),
    # The words are 1 and 2 modulo 4, the weights 1 and 2, and so their sums 1 and 3.
    ("find sip:example.com;transport=tcp words 1",
     targets("tcp", *at(5060, *A4, *A6), *at(5062, "192.0.2.9", FAR6))),
    ("find sip:example.com;transport=tcp words 4294967294",
     targets("tcp", *at(5062, "192.0.2.9", FAR6), *at(5060, *A4, *A6))),
    ("find sip:example.com;transport=udp", ["none NotAvailable"]),
    ("find sip:a.example.com;transport=sctp", ["none NoTransport"]),
    ("find sip:[2001:db8::ffff:192.0.2.1]", targets("udp", "2001:db8:0:0:0:ffff:c000:201 5060")),
    ("find sip:u;x=1@nowhere.example;maddr=a.example.com;transport=TCP?h=v", targets("tcp", *at(5060, *A4, *A6))),
    ("find sips:www.example.com:1", targets("tls", *at(1, *A4, *A6))),
    ("find sip:turn.example.com:1", ["none NoAddress"]),
    ("find sip:m:1", targets("udp", *at(1, *MANY))),
    ("find sip:x.y.dyn.example.com", targets("udp", "192.0.2.7 5060")),
    ("find sip:here.dyn.example.com", ["none NoAddress"]),
    ("page", ["ok page 0 19"]),
    ("add far.other.example. 2h IN A 192.0.2.10 ; a comment", ["ok add 1"]),
    ("add n.example.com. HINFO x y", ["ok add 0"]),
    ("del B.example.com. A 0.0.0.0", ["ok del 1"]),
    (r'drop \"gone\"\255.example.', ["ok drop 1"]),
    ("hold udp 192.0.2.7 5060 5000", ["ok hold"]),
    ("hold udp 192.0.2.9 5060 30000", ["ok hold"]),
    ("hold tls 2001:db8::1 5061 60000", ["ok hold"]),
    (f"hold tcp 192.0.2.1 5060 {LAST_TIME - 1000}", ["ok hold"]),
    ("hold sctp ffff:ffff:ffff:ffff:ffff:ffff:255.255.255.255 65535 30000", ["ok hold"]),
    (f"release sctp {B6[1]} 65535", ["ok release"]),
    ("find sip:192.0.2.9", ["none AllHeld"]),
    ("find sip:x.y.dyn.example.com", ["none AllHeld"]),
    ("find sips:a.example.com", targets("tls", *at(5061, *A4))),
    ("find sip:example.com;transport=tcp words 1",
     targets("tcp", *at(5060, A4[1], *A6), *at(5062, "192.0.2.9", "192.0.2.10", FAR6))),
    # (a hold ends)
    ("clock 6000", ["ok clock 6000"]),
    ("find sip:x.y.dyn.example.com", targets("udp", "192.0.2.7 5060")),
    ("call invite 18446744073709551615 sip:far.other.example:9;transport=tcp",
     ["send 1 tcp 192.0.2.9 9 z9hG4bKffffffffffffffff.1", "ok call"]),
    ("got 1 503 retry 4294967295", ["ack 1", "hold tcp 192.0.2.9 9 4294967295000",
                                    "send 2 tcp 192.0.2.10 9 z9hG4bKffffffffffffffff.2", "ok got"]),
    ("got 2 200", ["deliver 200", "ok got"]),
]
SECOND = [
    ("clock 20000", ["ok clock 20000"]),
    ("find sip:example.com", targets("tls", *at(65535, *A6, *A4), *at(0, *B6, B4[1]), *at(1, "192.0.2.3"))),
    # (the endpoint that is held is last)
    ("find sips:a.example.com", targets("tls", *at(5061, *A4, *A6))),
    ("find sip:192.0.2.1;transport=tcp", targets("tcp", "192.0.2.1 5060")),
    ("find sip:long.example.com", targets("udp", "192.0.2.4 1")),
    # (the first number of the seed is 3 modulo 4)
    ("find sip:example.com;transport=tcp seed 18446744073709551613",
     targets("tcp", *at(5062, FAR6, "192.0.2.9", "192.0.2.10"), *at(5060, *A6, A4[1], A4[0]))),
    ("find sip:other.example;transport=sctp", ["none NoAddress"]),
    ("add a.empty.example. SRV 65535 65535 65535 a.empty.example.", ["ok add 1"]),
    (load("other.example.", "far AAAA 2001:db8::a\nfar TXT x"), ["ok zone 2 0 0 2"]),
    ("release tcp 192.0.2.9 9", ["ok release"]),
    ("find sip:far.other.example;transport=sctp", targets("sctp", "2001:db8:0:0:0:0:0:a 5060")),
    ("page", ["ok page 0 20"]),
    # What follows is in the log alone, since the run is killed.
    ("clock 20500", ["ok clock 20500"]),
    ("drop m.", ["ok drop 1"]),
    (load(NEW_APEX, NEW), ["ok zone 4 0 0 4"]),
    (f"add _sip._sctp.a.example.com. SRV 0 0 7 c.{NEW_APEX}", ["ok add 1"]),
    ("del b.example.com. AAAA ::", ["ok del 1"]),
    ("hold sctp 192.0.2.5 7 4000", ["ok hold"]),
    ("hold udp 192.0.2.9 5060 100", ["ok hold"]),
    ("clock 21000", ["ok clock 21000"]),
    ("hold udp 192.0.2.20 0 1", ["ok hold"]),
    ("hold udp 192.0.2.21 1 0", ["ok hold"]),
    ("release udp 192.0.2.20 0", ["ok release"]),
]
# What there is then, as control lines say it. (A zone that is loaded again keeps its place.)
ZONES = ["zone example.com. 25", "zone other.example. 2", "zone empty.example. 1", r'zone \"new\"\..example. 4',
         "ok zones 4"]
# By endpoint when a hold ends.
HOLDS = {"sctp 192.0.2.5 7": 24_500, "tcp 192.0.2.1 5060": LAST_TIME, f"tls {A6[0]} 5061": 61_000,
         "udp 192.0.2.9 5060": 31_000}
THIRD = [
    ("find sip:example.com words 65535",
     targets("tls", *at(0, B4[1]), *at(65535, *A4), *at(1, "192.0.2.3"))),
    ("find sip:a.example.com", ["none AllHeld"]),
    ("find sip:192.0.2.1;transport=tcp", ["none AllHeld"]),
    ("find sip:192.0.2.9", ["none NoTransport"]),
    ("find sip:far.other.example:1;transport=tcp", ["none NoAddress"]),
    ("find sip:www.example.com:5060;transport=tls", targets("tls", *at(5060, *A4))),
    # (the first server has no address, and one of the other's is held)
    ("find sip:example.com;transport=tcp words 2", targets("tcp", *at(5060, A4[1]))),
    ("find sip:a.empty.example:1;transport=tcp", ["none NoAddress"]),
    ("find sip:z.dyn.example.com:80;transport=sctp", targets("sctp", "192.0.2.7 80")),
    ("clock 24500", ["ok clock 24500"]),
    ("find sip:a.example.com", targets("sctp", "192.0.2.5 7")),
]
# The events and the answers in the pages of the first two runs, of which the second begins with the time, four zones
# and four holds. The changes of the second, each of them a commit of its own.
EVENTS, ANSWERS, CHANGES = (37, 20), 26, 15


@contextlib.contextmanager
def running(checks: Checks, folder: pathlib.Path, client: str, settings: str = "") -> Iterator[tuple[Daemon, Client]]:
    """A daemon of this client over the state of a folder, whose time is moved by lines alone, and a connection."""
    settings = f'{client}\nclock = "lines"\nworkers = 0\nstate = "{folder}/state"\n{settings}'
    with started(checks, folder, settings) as daemon, Client(daemon.address) as connection:
        yield daemon, connection


def ask(checks: Checks, client: Client, turns: Sequence[tuple[str, list[str]]]) -> None:
    for line, reply in turns:
        checks.equal(client.ask(line), reply, line[:200])


def holds(now: int) -> list[str]:
    """What there is of the holds at a time, sorted."""
    held = [f"hold {endpoint} {end - now}" for endpoint, end in HOLDS.items() if end > now]
    return sorted([*held, f"ok holds {len(held)}"])


def write(checks: Checks, folder: pathlib.Path) -> None:
    """Has the program write the files: an archive of two runs, a state and its log as the second leaves them, which is
    killed, and as a third does, which begins with these and is stopped."""
    room, archive = folder / "room", folder / "archive"
    room.mkdir(parents=True)
    archive.mkdir()

    def keep(name: str) -> None:
        (folder / name).mkdir()
        for file in "state", "state.log":
            shutil.copyfile(room / file, folder / name / file)

    with running(checks, room, FIRST_CLIENT, f'archive = "{archive}"') as (daemon, client):
        ask(checks, client, FIRST)
        stopped(checks, daemon, EVENTS[0])
    with running(checks, room, SECOND_CLIENT, f'archive = "{archive}"') as (daemon, client):
        ask(checks, client, SECOND)
        checks.expect(until((archive / f"000002-{0:016}").exists), "no page of the second run")
        daemon.kill()
    keep("killed")
    with running(checks, room, THIRD_CLIENT) as (daemon, client):
        ask(checks, client, THIRD)
        stopped(checks, daemon)
    keep("stopped")
    shutil.rmtree(room)


def octets_in(folder: pathlib.Path) -> dict[str, bytes]:
    """The files of a folder and of those in it."""
    return {str(it.relative_to(folder)): it.read_bytes() for it in sorted(folder.rglob("*")) if it.is_file()}


def same(checks: Checks, got: dict[str, bytes], wanted: dict[str, bytes], of: str) -> None:
    """Checks that these are the same files; of one that differs the first such line is shown."""
    checks.equal([*got], [*wanted], of)
    for name in {*got} & {*wanted}:
        lines = itertools.zip_longest(got[name].splitlines(), wanted[name].splitlines())
        checks.expect(got[name] == wanted[name], f"{of}: {name}: {next((it for it in lines if it[0] != it[1]), None)}")


def copied(name: str, folder: pathlib.Path) -> pathlib.Path:
    """A copy of what an earlier release wrote."""
    shutil.copytree(EARLIER / name, folder / name)
    return folder / name


@test
def checks_states_of_an_earlier_release(checks: Checks, folder: pathlib.Path) -> None:
    for name, held, commits in ("killed", 4, CHANGES), ("stopped", 3, 0):
        inner = copied(name, folder)
        ran = subprocess.run([PROGRAM, "check-state", str(inner / "state")], capture_output=True, text=True,
                             timeout=PATIENCE, check=False)
        said = f"format 2\nzones 4\nrecords 32\nheld {held}\ncommits {commits}\nok state\n"
        checks.equal((ran.returncode, ran.stdout + ran.stderr), (0, said), name)
        same(checks, octets_in(inner), octets_in(EARLIER / name), f"{name} after a check")


@test
def starts_from_states_of_an_earlier_release(checks: Checks, folder: pathlib.Path) -> None:
    inner = copied("killed", folder)
    with running(checks, inner, THIRD_CLIENT) as (daemon, client):
        checks.equal(daemon.tell("zones"), ZONES, "zones")
        checks.equal(sorted(daemon.tell("holds")), holds(21_000), "holds")
        checks.equal(daemon.tell("now"), ["ok now 21000"], "time")
        ask(checks, client, THIRD)
        stopped(checks, daemon)
    # What it leaves is what the earlier release left.
    wanted = octets_in(EARLIER / "stopped")
    same(checks, {name: (inner / name).read_bytes() for name in wanted}, wanted, "after a stop")
    with running(checks, copied("stopped", folder), THIRD_CLIENT) as (daemon, client):
        checks.equal(daemon.tell("zones"), ZONES, "zones after a stop")
        checks.equal(daemon.tell("now"), ["ok now 24500"], "time after a stop")
        checks.equal(sorted(daemon.tell("holds")), holds(24_500), "holds after a stop")
        # (what was asked before the first hold ended has another answer now)
        ask(checks, client, [THIRD[0], *THIRD[2:-2], THIRD[-1]])
        stopped(checks, daemon)


@test
def replays_the_archive_of_an_earlier_release(checks: Checks, folder: pathlib.Path) -> None:
    archive, chance = copied("archive", folder), random.Random(SEED)
    checks.equal(replay(archive), (0, replayed(*EVENTS)), "replay")

    def refused(page: pathlib.Path, octets: bytes, cause: str) -> None:
        page.write_bytes(octets)
        status, said = replay(archive)
        checks.expect(status == 1 and said.startswith(f"siplocd: replay {page}: {cause}"),
                      (page.name, cause, status, said))

    answers = 0
    for page in sorted(archive.iterdir()):
        octets = page.read_bytes()
        for place in chance.sample(range(len(octets)), 8):
            refused(page, octets[:place] + bytes([octets[place] ^ 1 << chance.randrange(8)]) + octets[place + 1:], "")
        # Another answer, with the digest of that.
        for number, begin, end in events_of(octets):
            if octets.startswith(b"find ", begin):
                line = octets.index(b"\n", begin) + 1
                other = b"none NoAddress\n" if octets[line:end] != b"none NoAddress\n" else b"none AllHeld\n"
                refused(page, digested(octets[:line] + other + octets[end:]), f"event {number}\n")
                answers += 1
        page.write_bytes(octets)
    checks.equal(answers, ANSWERS, "answers in the archive")
    checks.equal(replay(archive), (0, replayed(*EVENTS)), "replay of what it was")


@test
def writes_what_an_earlier_release_wrote(checks: Checks, folder: pathlib.Path) -> None:
    write(checks, folder / "written")
    same(checks, octets_in(folder / "written"), octets_in(EARLIER), "written")
