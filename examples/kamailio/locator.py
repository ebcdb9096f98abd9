"""What kamailio.cfg asks a locator for, by python_exec of the module app_python3: `locate`, and how to go on after a
failure.

Each process of Kamailio has a session of its own with the locator at SIPLOC_ADDRESS. One that is started again is
waited for. Where it is away, `locate` says so at once, and the next request tries a new connection; where it is silent,
one in a second. With SIPLOC_STREAM, a Redis stream, and SIPLOC_REDIS, what has failed is published there for all
locators (examples/cluster/README.md), and not held beside the stream.
"""

from __future__ import annotations

import hmac
import os
import random
import re
import secrets
import sys
import time
from typing import Callable, Dict, List, Optional, TypeVar

import KSR

sys.path[:0] = [os.path.join(os.path.dirname(os.path.abspath(__file__)), "../..", it)
                for it in ("clients/python", "tools")]
import changelog  # noqa: E402
import siploc  # noqa: E402

ADDRESS = os.environ.get("SIPLOC_ADDRESS", "127.0.0.1:5099")
# How long a server that can't be reached is held, and one that says for how long at most, in milliseconds.
HOLD, LONGEST = int(os.environ.get("SIPLOC_HOLD", "30000")), 3_600_000
STREAM, REDIS = os.environ.get("SIPLOC_STREAM"), os.environ.get("SIPLOC_REDIS", "127.0.0.1:6379")
# How long a request waits for the locator before Kamailio's own resolver takes its place, in seconds.
PATIENCE = 0.5
# How long no connection is tried where nobody listens, which takes no time to find out, and else, in seconds.
SOON, LATER = 0.02, 1.0
# What Record-Routes are signed with, here and in other proxies that have it; a script that is loaded again has it too.
SECRET = os.environ["SIPLOC_SECRET"] = os.environ.get("SIPLOC_SECRET") or secrets.token_hex(32)
# For how many seconds a process does not hold an endpoint again: of a server that is down each request fails, and each
# hold is an event of the journal, and in a cluster one of all machines.
AGAIN = 1.0
# How many targets of an answer are tried at most.
MOST = 4
# How many endpoints a process holds, in the time of a hold, whose port is a URI's: else strangers could name as many as
# may be held.
NAMED = 64
# How many octets a request over UDP may have: with Via and Record-Route it has 1,300 then (RFC 3261, 18.1.1).
DATAGRAM = int(os.environ.get("SIPLOC_DATAGRAM", "1050"))

LOCATED, NO_TARGET, AWAY, NUMERIC = 1, 2, 3, 4
FAILED = -1
TARGETS = "$avp(targets)"
Reply = TypeVar("Reply")


class Away(Exception):
    """The locator, or Redis, was away within the last second, and is not asked."""

    def __str__(self) -> str:
        return "away within the last second"


class Stream:
    """The stream of a cluster, as one process of Kamailio sees it."""

    def __init__(self) -> None:
        self.stream: Optional[changelog.Stream] = None
        self.next_try = 0.0

    def append(self, line: str) -> None:
        """Publishes a change, over a new connection where the old one has ended since. One that is published twice
        for that is as one."""
        change = changelog.change_of(line.encode())
        if self.stream is not None:
            try:
                self.stream.append([change])
                return
            except changelog.Fault:
                self.stream = None
        if time.monotonic() < self.next_try:
            raise Away
        self.next_try = time.monotonic() + 1
        stream = changelog.Stream(REDIS, STREAM or "", PATIENCE)
        if stream.extent().last == (0, 0):
            # (to one that nobody reads it would be added for ever)
            raise changelog.Fault(f"{STREAM}: there is no such stream")
        stream.append([change])
        self.stream = stream


class Locator:
    """The locator as one process of Kamailio sees it."""

    #: How long no session is tried after one that was refused, or has ended.
    soon = SOON

    def __init__(self) -> None:
        self.session: Optional[siploc.BaseSession] = None
        self.next_try = self.next_warning = 0.0
        self.stream = Stream()
        # When endpoints were held, and when those whose port is a URI's.
        self.held: Dict[siploc.Target, float] = {}
        self.named: List[float] = []
        self.chance = random.SystemRandom()

    def child_init(self, _rank: int) -> int:
        return 0

    def open(self) -> siploc.BaseSession:
        """A session with the locator."""
        return siploc.connect(ADDRESS, timeout=PATIENCE)

    def ask(self, question: Callable[[siploc.BaseSession], Reply]) -> Reply:
        """What the locator says, over a new connection where the old one has ended since: then it is started again, and
        one request of this process waits for it."""
        end = 0.0
        if self.session is not None and self.session.is_open:
            try:
                return question(self.session)
            except siploc.ConnectionLost as fault:
                if not is_gone(fault):
                    raise
                end = time.monotonic() + PATIENCE
        if time.monotonic() < self.next_try:
            raise Away
        while True:
            self.next_try = time.monotonic() + LATER
            try:
                self.session = self.open()
                reply = question(self.session)
                self.next_try = 0.0
                return reply
            except (siploc.NotConnected, siploc.ConnectionLost) as fault:
                if not is_gone(fault):
                    raise
                self.next_try = time.monotonic() + self.soon
                if self.next_try > end:
                    raise
            time.sleep(SOON)

    def warn(self, text: str) -> None:
        """Logs what is wrong, once a second."""
        if time.monotonic() >= self.next_warning:
            self.next_warning = time.monotonic() + 1
            KSR.warn(f"siploc: {text}\n")

    def hold(self, target: siploc.Target, milliseconds: int) -> None:
        """Leaves a target out: here, or in all of the cluster."""
        if STREAM:
            self.stream.append(siploc.line("hold", *target, milliseconds))
        else:
            self.ask(lambda session: session.hold(target, milliseconds))

    def sign(self, _message: object) -> int:
        """Sets $var(call) to the signature of a call's Call-ID."""
        call = text_of("$ci")
        if call is None:
            return FAILED
        KSR.pv.sets("$var(call)", hmac.new(SECRET.encode(), call.encode(), "sha256").hexdigest()[:32])
        return 1

    def locate(self, _message: object) -> int:
        """Sets $du to the first target of the next hop, and keeps the others for `failed`."""
        uri = text_of("$nh(u)")
        # (what is no text may be an address all the same)
        if uri is None:
            return NUMERIC
        # (where Kamailio's own resolver takes the locator's place: it would go to the host)
        by_maddr = named_by_maddr(uri)
        if by_maddr:
            KSR.pv.sets("$du", by_maddr)
        if is_numeric(uri):
            return NUMERIC
        # (for servers of many names: RFC 6066, 3)
        KSR.pv.sets("$xavp(tls=>server_name)", name_of(uri))
        try:
            answer = self.ask(lambda session: self.find(session, uri))
        except Away:
            return AWAY
        except siploc.Error as fault:
            if isinstance(fault, siploc.InvalidCommand) or isinstance(fault, siploc.Refused) and fault.code[0] == "U":
                # (in DNS anyone may have its name, for any address)
                KSR.info(f"siploc: {uri}: {fault}\n")
                return NO_TARGET
            self.warn(f"{fault}: Kamailio's own resolver is asked for {uri}")
            return AWAY
        if not answer:
            KSR.info(f"siploc: {uri}: {answer.reason}\n")
            return NO_TARGET
        named = " named" if ":" in places_of(uri)[0] else ""
        # (an ACK has no response that would tell what became of it)
        is_long = int(KSR.pv.get("$ml") or 0) > DATAGRAM and text_of("$rm") != "ACK"
        go_to([" ".join(map(str, target)) + named + " stream" * (is_long and target.transport == "udp")
               for target in answer.targets[:MOST]])
        return LOCATED

    def find(self, session: siploc.BaseSession, uri: str) -> siploc.Answer:
        """The targets of a URI. Where a record set changed in each of the locator's tries, it is asked again."""
        seed = self.chance.getrandbits(64)
        try:
            return session.find(uri, seed=seed)
        except siploc.Refused as fault:
            if fault.code != "L1":
                raise
            return session.find(uri, seed=seed)

    def failed(self, _message: object) -> int:
        """Goes on after a target to which a request can't be sent."""
        return by_datagram() or self.go_on(HOLD)

    def unsent(self, _message: object) -> int:
        """Goes on where this proxy has no socket for the transport: that is no failure of the target."""
        return by_datagram() or FAILED

    def busy(self, _message: object) -> int:
        """Goes on after a 503. Its target is held where it says for how long (RFC 3261, 21.5.4)."""
        match = re.match(r"\s*0*([0-9]+)\s*(?:[;(]|$)", text_of("$T_rpl($hdr(Retry-After))") or "", re.ASCII)
        return self.go_on(min(int(match[1][:9]) * 1000, LONGEST) if match else 0)

    def silent(self, _message: object) -> int:
        """Goes on after a target that said nothing. It is held where an INVITE has no 100 (RFC 3261, 17.2.1), unless it
        has replied to others since, or within a minute where the INVITE was so long that it may be lost on the way. To
        another request a proxy may say nothing in this time (RFC 4320, 4.1)."""
        sent, replied = (text_of(it) or "" for it in ("$avp(sent)", "$sht(replied=>$avp(target))"))
        has_failed = not replied if first_target().endswith(" datagram") else replied < sent
        return by_datagram() or self.go_on(HOLD if text_of("$rm") == "INVITE" and has_failed else 0)

    def go_on(self, wait: int) -> int:
        """Holds the target that has failed for so many milliseconds, and sets $du to the next one, where there is one."""
        targets = KSR.pv.get(TARGETS)
        if not targets:
            # The locator was away when they were asked for.
            return FAILED
        first, *others = targets.split(",")
        transport, address, port, *marks = first.split(" ")
        target = siploc.Target(transport, address, int(port))
        try:
            if wait and self.is_due(target) and ("named" not in marks or self.has_place()):
                self.hold(target, wait)
                self.held[target] = time.monotonic()
        except Away:
            # (the cause was said within the last second)
            pass
        except (changelog.Fault, siploc.Error) as fault:
            self.warn(f"{fault}: {first} is not held")
        if not others:
            return FAILED
        go_to(others)
        return LOCATED

    def is_due(self, target: siploc.Target) -> bool:
        """Whether this process has not held an endpoint just now."""
        start = time.monotonic() - AGAIN
        self.held = {it: held for it, held in self.held.items() if held > start}
        return target not in self.held

    def has_place(self) -> bool:
        """Whether this process holds one more endpoint whose port is a URI's."""
        now = time.monotonic()
        self.named = [it for it in self.named if it > now - HOLD / 1000]
        self.named += [now] * (len(self.named) < NAMED)
        return self.named[-1:] == [now]


def is_gone(fault: siploc.Error) -> bool:
    """Whether nobody listens, or a connection has ended, which takes no time to find out."""
    return isinstance(fault, siploc.ConnectionLost) and not isinstance(fault, siploc.TimedOut) or isinstance(
        fault.__cause__, (ConnectionRefusedError, FileNotFoundError))


def text_of(variable: str) -> Optional[str]:
    """A variable of the script, where it is there and UTF-8. As an argument of python_exec what is not would leave an
    error to the next request of this process."""
    try:
        text: Optional[str] = KSR.pv.get(variable)
    except UnicodeError:
        return None
    return text


def is_numeric(uri: str) -> bool:
    """Whether a URI has an address in the place of a name: its `maddr`, or else its host. Where it has more than one, or
    one without a name, the locator refuses it, and nobody knows what Kamailio takes: then any of them counts."""
    host, *given = hosts_of(uri)
    places = given if len(given) == 1 and given[0] else [host, *given]
    return any(re.match(r"\[|[0-9.]+(:|$)", it) for it in places)


def name_of(uri: str) -> str:
    """The name that a certificate of a URI's servers has to have."""
    return hosts_of(uri)[-1].partition(":")[0].rstrip(".")


def hosts_of(uri: str) -> List[str]:
    """A URI's host with its port, and what it has as `maddr`."""
    host, *parameters = places_of(uri)
    return [host, *(it[len("maddr="):] for it in parameters if it.lower().startswith("maddr="))]


def named_by_maddr(uri: str) -> str:
    """The next hop that a URI's `maddr` is (RFC 3263, 4), at the URI's port and over its transport; or nothing."""
    host, *given = hosts_of(uri)
    if len(given) != 1 or not given[0]:
        return ""
    port = re.search(r":[0-9]+$", host)
    transport = [it for it in places_of(uri)[1:] if it.lower().startswith("transport=")]
    return ";".join([f"{uri.partition(':')[0]}:{given[0]}{port[0] if port else ''}", *transport])


def places_of(uri: str) -> List[str]:
    """A URI's host with its port, and its parameters."""
    return uri.partition(":")[2].rpartition("@")[2].partition("?")[0].split(";")


def first_target() -> str:
    """The target to which the request went last, if it is known."""
    return str(KSR.pv.get(TARGETS) or "").partition(",")[0]


def by_datagram() -> int:
    """Goes on to the same server by UDP, where a long request was sent to it by TCP in vain; else it returns 0."""
    first = first_target()
    if not first.endswith(" stream"):
        return 0
    KSR.pv.sets("$sht(datagrams=>$avp(target))", "1")
    go_to([first.replace(" stream", " datagram"), *KSR.pv.get(TARGETS).split(",")[1:]])
    return LOCATED


def go_to(targets: List[str]) -> None:
    """Makes the first target the next hop, and keeps all of them with the transaction. A request that is too long for
    UDP goes by TCP, unless the server has not taken that lately."""
    transport, address, port, *_ = targets[0].split(" ")
    # (by these `silent` knows whether it has replied since)
    KSR.pv.sets("$avp(target)", f"{transport} {address} {port}")
    KSR.pv.sets("$avp(sent)", f"{time.time():.6f}")
    if targets[0].endswith(" stream"):
        if text_of("$sht(datagrams=>$avp(target))"):
            targets = [targets[0].replace(" stream", " datagram"), *targets[1:]]
        else:
            transport = "tcp"
    host = f"[{address}]" if ":" in address else address
    KSR.pv.sets("$du", f"sip:{host}:{port};transport={transport}")
    KSR.pv.sets(TARGETS, ",".join(targets))


def mod_init() -> Locator:
    """What app_python3 calls at the start."""
    return Locator()
