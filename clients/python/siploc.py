"""A client of siploc, the SIP next-hop locator (RFC 3263, section 4).

    import siploc

    with siploc.connect("127.0.0.1:5099") as session:
        session.load("example.com.", "server1 A 192.0.2.1")
        for target in session.find("sip:server1.example.com:5070"):
            print(target.transport, target.address, target.port)

A session is one connection. Threads may share it: their calls are made one after another. The child of a fork can't,
and connects anew. Each method sends one command and returns what its reply says; `batch` sends many. These errors are
raised, all of them an `Error`:

    InvalidCommand    the command would break the protocol: it was not sent, and the session goes on
    Refused           the reply is `err CODE`: the session goes on
    SessionBroken     the session has ended; `may_be_done` says whether a command may have been carried out
      ConnectionLost    the server has closed the connection, or it failed
        TimedOut          there was no progress for `timeout` seconds
      BadReply          the reply is none that the protocol has
        HalfReply         the connection ended within a reply
    NotConnected      nobody listens at the address, or the session has ended before, or is another process's

After a `SessionBroken` the connection is closed. To connect again is up to the caller.

It needs Python 3.9 and its standard library, and is this file alone. `siploc_asyncio` has the same calls for asyncio, and
`siploc_embedded` in this process.
"""

from __future__ import annotations

import errno
import ipaddress
import itertools
import operator
import os
import re
import select
import socket
import struct
import threading
import time
from dataclasses import dataclass
from typing import Dict, Iterable, Iterator, List, NamedTuple, Optional, Pattern, Sequence, Tuple, TypeVar, Union

__all__ = [
    "Ack", "Answer", "BadReply", "BaseSession", "ConnectionLost", "Deliver", "Dependency", "Error", "Exhausted",
    "HalfReply", "Hold", "InvalidCommand", "Loaded", "MEANINGS", "NotConnected", "Opened", "Page", "Refused", "Reply",
    "Resend", "Send", "Session", "SessionBroken", "SiplocError", "Step", "Target", "TimedOut", "connect", "line", "zone",
]

#: What each code of a refusal means.
MEANINGS: Dict[str, str] = {
    "N1": "a name has an empty label",
    "N2": "a label has more than 63 octets",
    "N3": "a name has more than 255 octets",
    "N4": "a name has an invalid escape",
    "Z1": "a name of the record is invalid, or a string has an invalid escape",
    "Z2": "a field of the record is missing, its type is invalid, or a directive is unknown",
    "Z3": "a number or a TTL is invalid or too large",
    "Z4": "an address of the record is invalid",
    "Z5": "a parenthesis closes none, or is not closed",
    "Z6": "a quoted field is not closed before the end of its line",
    "Z7": "the class is not IN",
    "Z8": "$INCLUDE is refused",
    "Z9": "$GENERATE is refused",
    "Z10": "the generic form of a type that is read is refused",
    "Z11": "a string has more than 255 octets",
    "Z12": "the record has no owner",
    "Z13": "the record has a field too many",
    "Z14": "an alias is beside other data",
    "Z15": "a set has more than 32 records",
    "U1": "the scheme of the URI is neither sip nor sips",
    "U2": "a host of the URI is invalid",
    "U3": "the port of the URI is not a number from 1 to 65,535",
    "U4": "the transport of the URI is unknown or absent",
    "U5": "a parameter of the URI is repeated",
    "U6": "sips excludes the transport of the URI",
    "U7": "the URI has an octet that is not allowed, or an empty parameter",
    "A1": "the address is invalid",
    "V1": "there are more than 32 random words",
    "K1": "there is no such command, or its fields do not fit",
    "K2": "a line has more than 65,536 octets, or the lines of a zone more than `zone_octets`",
    "K3": "there is no call",
    "K4": "a call has not ended",
    "X1": "the time is before that of the call's last clock",
    "X2": "the status code is not within 100 to 699",
    "F1": "the call would have no target",
    "F2": "the call has ended",
    "F3": "the call has sent no such attempt",
    "S1": "a loaded zone is above or below this one",
    "S2": "no such zone is loaded, or the owner is in no loaded zone",
    "S3": "the record is in the zone already",
    "S4": "there is no such record",
    "S5": "an alias would be beside other data of its owner",
    "S6": "the set has 32 records",
    "S7": "there would be more records than the settings allow",
    "S8": "the numbers that changed sets take are used up",
    "S9": "the first label of the apex is a wildcard",
    "O1": "the time would go back",
    "O2": "a time would be after 2^52",
    "O3": "the endpoint is not held",
    "O4": "as many endpoints are held as the settings allow",
    "B3": "the journal is full: a page makes room",
    "B6": "no number is left for another page",
    "L1": "a record set changed in each of the tries: ask again",
    "Memory": "an allocation failed",
    "D1": "the time is the host's: holds end by themselves",
    "D2": "changes can't be kept at present: the daemon can't write to its state",
    "D3": "the address is for questions only",
    "Busy": "there are as many clients as the settings allow",
}

_Self = TypeVar("_Self", bound="BaseSession")

_MAX_LINE = 65_536
_MAX_ZONE_LINES = 1_048_576
_MAX_REPLY_LINE = 4_096
_MAX_REPLY_LINES = 65_536
_CHUNK = 1 << 16
# The longest wait in seconds: what `poll` takes has 31 bits of milliseconds.
_MAX_WAIT = 2_000_000.0
# The seconds after which a Unix socket that is full is tried again.
_PAUSE = 0.01
# A connection that was closed is an error of `send`, and no signal, where the system has that.
_SEND_FLAGS = getattr(socket, "MSG_NOSIGNAL", 0)


class Target(NamedTuple):
    """Where to send a request: `udp`, `tcp`, `tls` or `sctp`, an address and a port."""

    transport: str
    address: str
    port: int


@dataclass(frozen=True)
class Answer:
    """The reply to `find`: targets in the order in which they are tried, or the reason that there are none.

    The reason is `NoAddress`, `NotAvailable`, `NoTransport` or `AllHeld`, and None where there are targets.
    An answer is iterated as its targets, and false where there are none.
    """

    targets: List[Target]
    reason: Optional[str] = None

    def __iter__(self) -> Iterator[Target]:
        return iter(self.targets)

    def __len__(self) -> int:
        return len(self.targets)


class Dependency(NamedTuple):
    """A record set that the targets of a URI depend on, with the number of its records.

    The kind is `A`, `AAAA`, `CNAME`, `SRV` or `NAPTR`; or it is `EXISTS`, and the number is 1 where the name exists,
    else 0.
    """

    name: str
    kind: str
    records: int


class Loaded(NamedTuple):
    """The reply to `load`: records taken, left out as outside the zone or repeated, and record sets changed."""

    records: int
    outside: int
    repeated: int
    changed: int


class Page(NamedTuple):
    """The reply to `page`: the number of the page's first event, and how many events it has."""

    first: int
    events: int


class Send(NamedTuple):
    """A step of a call: send the request to this target, with this branch. Attempts count from 1."""

    attempt: int
    target: Target
    branch: str


class Resend(NamedTuple):
    """A step of a call: send the request of this attempt again."""

    attempt: int


class Ack(NamedTuple):
    """A step of a call: send an ACK for the response to this attempt."""

    attempt: int


class Hold(NamedTuple):
    """A step of a call: nothing to do; the endpoint is held from now on for so many milliseconds."""

    target: Target
    milliseconds: int


class Deliver(NamedTuple):
    """A step of a call: pass a response with this status code to the user."""

    code: int


class Exhausted(NamedTuple):
    """A step of a call: all targets have failed."""


Step = Union[Send, Resend, Ack, Hold, Deliver, Exhausted]


@dataclass(frozen=True)
class Opened:
    """The reply to `call`: its first steps, or the reason that there are no targets and no call was opened.

    It is iterated as its steps, and false where no call was opened.
    """

    steps: List[Step]
    reason: Optional[str] = None

    def __iter__(self) -> Iterator[Step]:
        return iter(self.steps)

    def __len__(self) -> int:
        return len(self.steps)


class Error(Exception):
    """What all errors of this module are."""


#: The same, where it is imported by its name.
SiplocError = Error


class InvalidCommand(Error, ValueError):
    """The command would break the protocol. It was not sent, and the session goes on."""

    #: Of a batch, the place of the first command that is invalid, counted from 0; else None.
    place: Optional[int] = None


class NotConnected(Error):
    """Nobody listens at the address, the session has ended before, or it is another process's. Nothing was sent."""


def _printable(text: str) -> str:
    """A text that can be written to any log: what is not printable is escaped."""
    return "".join(it if it.isprintable() else ascii(it)[1:-1] for it in text)


class Refused(Error):
    """The server has refused a command: the reply is `err CODE`. The session goes on.

    A server that refuses a session sends `err CODE` before any command, or `err Busy` as its first reply: then the
    session has ended, and no command was carried out.
    """

    #: The code, and what it means.
    code: str
    meaning: str
    #: The first line of the command.
    command: str
    #: Of a zone, the line of its text with the faulty entry, counted from 1.
    line: Optional[int]
    #: Of L1, name and kind of the record set that was changed.
    changed: Optional[Tuple[str, str]]
    #: Of a call, the steps to take all the same: the call has gone on, and the hold of a step was refused.
    steps: List[Step]

    def __init__(self, code: str, command: str, line: Optional[int] = None,
                 changed: Optional[Tuple[str, str]] = None, steps: Sequence[Step] = ()) -> None:
        self.code, self.command, self.line, self.changed, self.steps = code, command, line, changed, list(steps)
        self.meaning = MEANINGS.get(code, "a code that this client does not know")
        place = f" (line {line} of the zone)" if line is not None else ""
        super().__init__(f"{code}: {self.meaning}{place}: {_printable(command[:200])}")

    def __reduce__(self) -> Tuple[type, Tuple[object, ...]]:
        return type(self), (self.code, self.command, self.line, self.changed, self.steps)


class SessionBroken(Error):
    """The session has ended, and the connection is closed.

    Of the commands of a call, the first `len(replies)` have replies; the others before `sent` may have been
    carried out, or not; those from `sent` on were not. A method other than `batch` sends one command.
    """

    #: The replies that came before.
    replies: List[Reply]
    #: How many commands were sent, the last one maybe in part.
    sent: int

    def __init__(self, message: str, replies: Sequence[Reply] = (), sent: int = 0) -> None:
        self._message, self.replies, self.sent = message, list(replies), sent
        doubt = "may have been" if self.may_be_done else "was not"
        super().__init__(f"{message} (after {len(self.replies)} replies; what came next {doubt} carried out)")

    def __reduce__(self) -> Tuple[type, Tuple[object, ...]]:
        return type(self), (self._message, self.replies, self.sent)

    @property
    def may_be_done(self) -> bool:
        """Whether a command without a reply may have been carried out."""
        return self.sent > len(self.replies)


class ConnectionLost(SessionBroken):
    """The server has closed the connection between two replies, or the connection failed."""


class TimedOut(ConnectionLost):
    """There was no complete reply, and no octet was taken by the server, for `timeout` seconds."""


class BadReply(SessionBroken):
    """The reply is none that the protocol has."""


class HalfReply(BadReply):
    """The connection ended within a reply."""


def _up_to(most: int) -> str:
    """The pattern of a number from 0 to a maximum of several digits, without leading zeros."""
    digits = str(most)
    tops = (f"{digits[:at]}[{'0' if at else '1'}-{int(digit) - 1}][0-9]{{{len(digits) - at - 1}}}"
            for at, digit in enumerate(digits) if digit > ("0" if at else "1"))
    return "|".join(["0", f"[1-9][0-9]{{0,{len(digits) - 2}}}", *tops, digits])


_NUMBER, _PORT = (f"({_up_to((1 << bits) - 1)})" for bits in (64, 16))
# (those that count from 1)
_LINE, _ATTEMPT = (f"((?!0)(?:{_up_to((1 << bits) - 1)}))" for bits in (64, 32))
_OCTET, _GROUP = f"(?:{_up_to(255)})", "(?:0|[1-9a-f][0-9a-f]{0,3})"
_ADDRESS = rf"({_OCTET}(?:\.{_OCTET}){{3}}|{_GROUP}(?::{_GROUP}){{7}})"
_ENDPOINT = rf"(udp|tcp|tls|sctp) {_ADDRESS} {_PORT}"
_NAME = r"([!-~]{1,1020})"
_KIND = r"(A|AAAA|CNAME|SRV|NAPTR|EXISTS)"
_CODE = r"([A-Z][A-Za-z0-9]{0,31})"

_BLANK = re.compile(r"[ \t\r\n]")
_TARGET = re.compile(rf"target {_NUMBER} {_ENDPOINT}")
_DEPENDENCY = re.compile(rf"dep {_NAME} {_KIND} {_NUMBER}")
_STEP = re.compile(rf"send {_ATTEMPT} {_ENDPOINT} (z9hG4bK[0-9a-f]{{16}}\.\1)|resend {_ATTEMPT}|ack {_ATTEMPT}"
                   rf"|hold {_ENDPOINT} {_NUMBER}|deliver ([1-6][0-9][0-9])|exhausted")
_NONE = re.compile(r"none (NoAddress|NotAvailable|NoTransport|AllHeld)")
_REFUSED = re.compile(rf"err {_CODE}")
_REFUSED_ZONE = re.compile(rf"err (?:zone {_LINE} )?{_CODE}")
_REFUSED_FIND = re.compile(rf"err (?:(L1) {_NAME} {_KIND}|(?!L1$){_CODE})")


class _Form(NamedTuple):
    """The forms of the replies to a command: of the last line, and of those before it."""

    done: Optional[Pattern[str]]
    refused: Pattern[str] = _REFUSED
    body: Optional[Pattern[str]] = None
    has_none: bool = False
    # Whether the last line has the number of lines before it, and whether `err` may come after such lines.
    is_counted: bool = False
    has_steps: bool = False
    # Whether any line with the command's word is one command, and has a reply.
    is_plain: bool = True

    def has(self, place: int, text: str) -> bool:
        """Whether a line may be the one of this number, counted from 1, before the last."""
        match = self.body.fullmatch(text) if self.body else None
        return match is not None and (self.body is not _TARGET or match[1] == str(place))

    def ends(self, lines: Sequence[str]) -> bool:
        """Whether lines whose last one begins with `ok`, `none` or `err` are a reply of this form."""
        last, before = lines[-1], len(lines) - 1
        if last.startswith("ok"):
            match = self.done.fullmatch(last) if self.done else None
            if not match or not self.is_counted:
                return bool(match)
            return int(match[1]) == before and (before > 0 or self.body is not _TARGET)
        if last.startswith("none"):
            return self.has_none and not before and bool(_NONE.fullmatch(last))
        return (not before or self.has_steps) and bool(self.refused.fullmatch(last))


def _done(text: str) -> Pattern[str]:
    return re.compile(f"ok {text}")


_FORMS: Dict[str, _Form] = {
    "zone": _Form(_done(rf"zone {_NUMBER} {_NUMBER} {_NUMBER} {_NUMBER}"), _REFUSED_ZONE, is_plain=False),
    "drop": _Form(_done(rf"drop {_NUMBER}")),
    "add": _Form(_done(rf"add {_NUMBER}")),
    "del": _Form(_done(rf"del {_NUMBER}")),
    "find": _Form(_done(rf"find {_NUMBER}"), _REFUSED_FIND, _TARGET, has_none=True, is_counted=True),
    "deps": _Form(_done(rf"deps {_NUMBER}"), _REFUSED, _DEPENDENCY, is_counted=True),
    "repair": _Form(_done("repair")),
    "page": _Form(_done(rf"page {_NUMBER} {_NUMBER}")),
    "hold": _Form(_done("hold")),
    "release": _Form(_done("release")),
    "clock": _Form(_done(rf"clock {_NUMBER}"), _REFUSED, _STEP, has_steps=True),
    "call": _Form(_done("call"), _REFUSED_FIND, _STEP, has_none=True),
    "got": _Form(_done("got"), _REFUSED, _STEP, has_steps=True),
    "broke": _Form(_done("broke"), _REFUSED, _STEP, has_steps=True),
    "quit": _Form(_done("quit"), is_plain=False),
}
_UNKNOWN = _Form(None)


def _target(fields: Sequence[str]) -> Target:
    return Target(fields[0], fields[1], int(fields[2]))


def _step(text: str) -> Step:
    """A step, of a line that has its form."""
    word, *fields = text.split(" ")
    if word == "send":
        return Send(int(fields[0]), _target(fields[1:4]), fields[4])
    if word == "resend":
        return Resend(int(fields[0]))
    if word == "ack":
        return Ack(int(fields[0]))
    if word == "hold":
        return Hold(_target(fields[:3]), int(fields[3]))
    if word == "deliver":
        return Deliver(int(fields[0]))
    return Exhausted()


class Reply:
    """A complete reply, as `batch` returns it: one of the forms that the protocol has for its command."""

    __slots__ = ("command", "lines")

    #: The first line of the command.
    command: str
    #: The lines of the reply, without their ends.
    lines: List[str]

    def __init__(self, command: str, lines: List[str]) -> None:
        self.command, self.lines = command, lines

    def __repr__(self) -> str:
        return f"Reply({self.command!r}, {self.lines!r})"

    @property
    def refusal(self) -> Optional[Refused]:
        """The refusal, where the reply is `err CODE`; it is not raised."""
        word, *fields = self.lines[-1].split(" ")
        if word != "err":
            return None
        if fields[0] == "zone":
            return Refused(fields[2], self.command, line=int(fields[1]))
        if len(fields) == 3:
            return Refused(fields[0], self.command, changed=(fields[1], fields[2]))
        return Refused(fields[0], self.command, steps=self.steps)

    def check(self) -> Reply:
        """The reply itself, and raises `Refused` where it is `err CODE`."""
        refusal = self.refusal
        if refusal is not None:
            raise refusal
        return self

    @property
    def counts(self) -> List[int]:
        """The numbers of the last line, of a reply that begins with `ok`; else none."""
        word, *fields = self.lines[-1].split(" ")
        return [int(field) for field in fields[1:]] if word == "ok" else []

    @property
    def reason(self) -> Optional[str]:
        """The reason, where the reply is `none REASON`."""
        word, *fields = self.lines[-1].split(" ")
        return fields[0] if word == "none" else None

    @property
    def answer(self) -> Answer:
        """The answer to `find`. Raises `Refused` where the reply is `err CODE`."""
        self.check()
        return Answer([_target(text.split(" ")[2:]) for text in self.lines[:-1]], self.reason)

    @property
    def dependencies(self) -> List[Dependency]:
        """The record sets of `deps`. Raises `Refused` where the reply is `err CODE`."""
        self.check()
        fields = (text.split(" ") for text in self.lines[:-1])
        return [Dependency(name, kind, int(count)) for _, name, kind, count in fields]

    @property
    def steps(self) -> List[Step]:
        """The steps of `call`, `got`, `broke` and `clock`, of a refused one too."""
        return [_step(text) for text in self.lines[:-1]]


class _Command(NamedTuple):
    """A command that is ready to be sent: its first line, its octets, and the forms of its replies."""

    text: str
    octets: bytes
    form: _Form


def line(*fields: object) -> str:
    """A command of these fields, for `batch`: `line("hold", *target, 30000)`.

    Raises `InvalidCommand` where a field is empty, or has a blank or a line end, and `TypeError` where it is no text.
    """
    for field in fields:
        if field is None or isinstance(field, (bytes, bytearray)):
            raise TypeError(f"a field is a text or a number, and not {type(field).__name__}")
    texts = [str(field) for field in fields]
    for text in texts:
        if not text or _BLANK.search(text):
            raise InvalidCommand(f"a field is empty, or has a blank or a line end: {text[:200]!r}")
    return " ".join(texts)


def _number(value: int, bits: int = 64) -> int:
    """A number of so many bits, as a field."""
    number = int(operator.index(value))  # (before Python 3.10 it may be of a subclass, with a text of its own)
    if not 0 <= number < 1 << bits:
        raise InvalidCommand(f"a number is not within 0 to 2^{bits} - 1")
    return number


def zone(apex: str, text: Union[str, Iterable[str]]) -> str:
    """A command that loads a zone, for `batch`: its lines are joined by LF.

    `text` is a master file, or its lines; these may end with LF or CR LF, so that an open file serves.
    """
    lines = text.split("\n") if isinstance(text, str) else [it[:-1] if it.endswith("\n") else it for it in text]
    if isinstance(text, str) and not lines[-1]:
        lines.pop()
    lines = [it[:-1] if it.endswith("\r") else it for it in lines]
    for it in lines:
        if "\n" in it:
            raise InvalidCommand(f"a line of the zone has a line end: {it[:200]!r}")
    if len(lines) > _MAX_ZONE_LINES:
        raise InvalidCommand(f"the zone {apex[:200]} has more than {_MAX_ZONE_LINES:,} lines")
    return "\n".join([line("zone", apex, len(lines)), *lines])


def _draws(words: Optional[Iterable[int]], seed: Optional[int]) -> List[str]:
    """The fields that give the random words."""
    if words is not None and seed is not None:
        raise InvalidCommand("both words and a seed are given")
    if seed is not None:
        return ["seed", str(_number(seed))]
    texts = [str(_number(word, 32)) for word in words or ()]
    return ["words", ",".join(texts)] if texts else []


def _zone_lines(fields: Sequence[bytes]) -> int:
    """How many lines the server takes after a line with these fields."""
    if len(fields) != 3 or fields[0] != b"zone" or not re.fullmatch(rb"[0-9]+", fields[2]):
        return 0
    digits = fields[2].lstrip(b"0") or b"0"
    return int(digits) if len(digits) <= 7 and int(digits) <= _MAX_ZONE_LINES else 0


def _octets(text: str) -> bytes:
    """The octets of a text; those that are not UTF-8 are as `surrogateescape` has them."""
    try:
        return text.encode("utf-8", "surrogateescape")
    except UnicodeEncodeError as fault:
        raise InvalidCommand(f"a character has no octets: {text[fault.start:fault.start + 1]!r}") from None


def _prepared(command: str) -> _Command:
    """A command that breaks no protocol: it is one line, or a `zone` line and as many as it says, and it has a
    reply."""
    octets = _octets(command)
    form = _FORMS.get(command.partition(" ")[0])
    if form is not None and b"\n" not in octets and b"\r" not in octets and form.is_plain:
        return _Command(command, octets + b"\n", form)
    first, *rest = octets.split(b"\n")
    text = command[:command.index("\n")] if rest else command
    fields = re.findall(rb"[^ \t]+", first)
    if b"\r" in octets:
        raise InvalidCommand(f"a command has a CR: {text[:200]!r}")
    if len(rest) != _zone_lines(fields):
        raise InvalidCommand(f"a command has other lines than its first one says: {text[:200]!r}")
    if rest and len(first) > _MAX_LINE:
        raise InvalidCommand(f"the first line of a zone has more than {_MAX_LINE:,} octets")
    if not fields or first.startswith(b"#"):
        raise InvalidCommand(f"an empty line, or a comment, has no reply: {text[:200]!r}")
    if fields == [b"quit"]:
        raise InvalidCommand("a session ends by close()")
    return _Command(text, octets + b"\n", _FORMS.get(fields[0].decode("latin-1"), _UNKNOWN))


def _all_prepared(commands: Iterable[str]) -> List[_Command]:
    """The commands of a batch."""
    if isinstance(commands, str):
        raise TypeError("a batch has a list of commands, and not one text")
    prepared: List[_Command] = []
    try:
        for command in commands:
            prepared.append(_prepared(command))
    except InvalidCommand as fault:
        fault.place = len(prepared)
        raise
    return prepared


#: A place of the system: a path, or a host and a port.
_Place = Union[str, Tuple[str, int]]


def _places(address: str) -> List[Tuple[int, _Place]]:
    """The families and places of an address, in the order in which they are tried."""
    if address.startswith("unix:"):
        if not 0 < len(_octets(address)) - len("unix:") <= 107 or "\0" in address:
            raise InvalidCommand(f"the path of a Unix socket has 1 to 107 octets: {address[:200]!r}")
        return [(socket.AF_UNIX, address[len("unix:"):])]
    match = re.fullmatch(r"(?:\[([0-9A-Fa-f:.]*:[0-9A-Fa-f:.]*)\]|([0-9.]+)|(localhost)):0*([0-9]{1,5})", address)
    try:
        texts = ["127.0.0.1", "::1"] if match and match[3] else [match[1] or match[2]] if match else []
        hosts = [ipaddress.ip_address(text) for text in texts]
    except ValueError:
        hosts = []
    # (from Python 3.13 on an IPv4 address that is mapped is one of loopback, too)
    is_loopback = bool(hosts) and hosts[0].is_loopback and not getattr(hosts[0], "ipv4_mapped", None)
    if not match or not is_loopback or not 1 <= int(match[4]) <= 65_535:
        raise InvalidCommand(f"neither a loopback address with a port nor `unix:` and a path: {address[:200]!r}")
    return [(socket.AF_INET if it.version == 4 else socket.AF_INET6, (str(it), int(match[4]))) for it in hosts]


def connect(address: str, timeout: float = 30.0) -> Session:
    """A session with the server at an address: `127.0.0.1:5099`, `[::1]:5099`, `localhost:5099`, which is one of
    these, or `unix:/run/siplocd.sock`.

    `timeout` is in seconds: of the connection, and later of each wait for a reply (see `Session.timeout`). With
    `math.inf` a call waits as long as it takes.
    Raises `NotConnected` where nobody listens there, and `InvalidCommand` where the address is none.
    """
    fault: Optional[OSError] = None
    for family, place in _places(address):
        stream: Optional[socket.socket] = None
        try:
            stream = socket.socket(family, socket.SOCK_STREAM)
            _connect(stream, place, timeout)
            _check_other(stream, place)
            return Session(stream, timeout)
        except BaseException as refused:
            if stream is not None:
                stream.close()
            # (an error without a number is that of a signal's handler, as one that bounds a call's time)
            if not isinstance(refused, OSError) or refused.errno is None:
                raise
            fault = fault or refused
    raise NotConnected(f"{address}: {fault}") from fault


def _connect(stream: socket.socket, place: _Place, timeout: float) -> None:
    """Connects a socket within a time. What this raises by itself has a number."""
    stream.setblocking(False)
    end = time.monotonic() + timeout
    # (as many clients wait at a Unix socket as it takes: none waits for that by itself)
    while (code := stream.connect_ex(place)) == errno.EAGAIN and time.monotonic() < end:
        time.sleep(_PAUSE)
    if code == errno.EINPROGRESS:
        poll = select.poll()
        poll.register(stream, select.POLLOUT)
        is_ready = poll.poll(1000 * max(0.0, min(end - time.monotonic(), _MAX_WAIT)))
        code = stream.getsockopt(socket.SOL_SOCKET, socket.SO_ERROR) if is_ready else errno.ETIMEDOUT
    if code:
        raise OSError(code, os.strerror(code))


def _check_other(stream: socket.socket, place: _Place) -> None:
    """Refuses a connection with itself: where nobody listens, the system may choose the very port for this end."""
    if stream.family != socket.AF_UNIX and stream.getsockname()[:2] == place:
        raise ConnectionRefusedError(errno.ECONNREFUSED, os.strerror(errno.ECONNREFUSED))


def _prepare(stream: socket.socket) -> None:
    """Makes a connection one that does not block. One of TCP that ends before its time is reset, also where this
    process is killed: else the server would see the end of the input, and take half a line as a line, and half a zone
    as a zone."""
    stream.setblocking(False)
    if stream.family in (socket.AF_INET, socket.AF_INET6):
        stream.setsockopt(socket.IPPROTO_TCP, socket.TCP_NODELAY, 1)
        stream.setsockopt(socket.SOL_SOCKET, socket.SO_LINGER, struct.pack("ii", 1, 0))


class BaseSession:
    """What each session has: one over a connection, and one in this process (`siploc_embedded.Session`). `with` closes
    it at the end."""

    def __enter__(self: _Self) -> _Self:
        return self

    def __exit__(self, *_: object) -> None:
        self.close()

    @property
    def is_open(self) -> bool:
        """Whether the session has neither ended nor been closed, as far as is known."""
        raise NotImplementedError

    def close(self) -> None:
        """Ends the session. Nothing is raised."""
        raise NotImplementedError

    # Questions.

    def find(self, uri: str, *, words: Optional[Iterable[int]] = None, seed: Optional[int] = None) -> Answer:
        """The targets of a URI, in the order in which they are tried, or the reason that there are none.

        The order of servers of equal priority is given by at most 32 random words, or by a seed for them; all
        words are 0 where none are given.
        """
        return self._ask(line("find", uri, *_draws(words, seed))).answer

    def deps(self, uri: str) -> List[Dependency]:
        """The record sets that the targets of a URI depend on, in the order in which they are read."""
        return self._ask(line("deps", uri)).dependencies

    # Zones.

    def load(self, apex: str, text: Union[str, Iterable[str]]) -> Loaded:
        """Loads a zone, in place of the one that there was: a master file, or its lines (an open file, too)."""
        return Loaded(*self._ask(zone(apex, text)).counts)

    def drop(self, apex: str) -> int:
        """Takes out a zone; the number of record sets that changed."""
        return self._ask(line("drop", apex)).counts[0]

    def add(self, record: str) -> int:
        """Adds a record, such as `a.example.com. A 192.0.2.1`; the number of record sets that changed."""
        return self._ask("add " + record).counts[0]

    def remove(self, record: str) -> int:
        """Deletes a record; the number of record sets that changed."""
        return self._ask("del " + record).counts[0]

    def repair(self) -> None:
        """Looks up again all kept answers that edits outdated, before anyone asks."""
        self._ask("repair")

    def page(self) -> Page:
        """Returns the journal as a page, which the server keeps, and begins an empty one: no longer B3."""
        return Page(*self._ask("page").counts)

    # Holds and the clock.

    def hold(self, target: Union[Target, Tuple[str, str, int]], milliseconds: int) -> None:
        """Leaves an endpoint out of answers for so many milliseconds."""
        self._ask(line("hold", *target, _number(milliseconds)))

    def release(self, target: Union[Target, Tuple[str, str, int]]) -> None:
        """Ends the hold of an endpoint."""
        self._ask(line("release", *target))

    def clock(self, milliseconds: int) -> List[Step]:
        """Sets the time, which begins at 0, and returns the steps of the call that has not ended."""
        return self._ask(line("clock", _number(milliseconds))).steps

    # Calls.

    def call(self, kind: str, base: int, uri: str, *, words: Optional[Iterable[int]] = None,
             seed: Optional[int] = None) -> Opened:
        """Opens a call to the targets of a URI, one after another: the first steps, or a reason.

        `kind` is `invite` or `other`; `base` is a number of 64 bits that no other request has.
        """
        reply = self._ask(line("call", kind, _number(base), uri, *_draws(words, seed)))
        return Opened(reply.steps, reply.reason)

    def got(self, attempt: int, code: int, *, retry: Optional[int] = None) -> List[Step]:
        """A response with this status code has come to an attempt; `retry`: the seconds of its Retry-After."""
        fields = [] if retry is None else ["retry", _number(retry, 32)]
        return self._ask(line("got", _number(attempt, 32), _number(code, 16), *fields)).steps

    def broke(self) -> List[Step]:
        """The transport of the call's running attempt has failed."""
        return self._ask("broke").steps

    # Many commands.

    def batch(self, commands: Iterable[str]) -> List[Reply]:
        """Sends many commands at once, and returns their replies in order; a refusal is a reply as any other.

        A command is a line of the protocol without its end, as `line` makes one, or a `zone` with all of its
        lines, as `zone` makes one. All are checked before the first is sent. Replies are read while commands
        are sent. On a `SessionBroken` those that came are in its `replies`.
        """
        return self._exchange(_all_prepared(commands))

    def _ask(self, command: str) -> Reply:
        return self._exchange([_prepared(command)])[0].check()

    def _exchange(self, commands: Sequence[_Command]) -> List[Reply]:
        """Sends commands and reads their replies. Where this raises a `SessionBroken` the session ends."""
        raise NotImplementedError


class Session(BaseSession):
    """A connection to a server."""

    #: How many seconds a call waits without progress: without a complete reply, and without the server taking
    #: further octets. It may be changed between calls.
    timeout: float

    def __init__(self, stream: socket.socket, timeout: float) -> None:
        """A session over a connected socket, which does not block then, and is reset at its end where it is of TCP."""
        _prepare(stream)
        self.timeout = timeout
        self._stream: Optional[socket.socket] = stream
        self._process = os.getpid()
        # (the handler of a signal comes in too, where its thread is within a call)
        self._turn, self._is_busy = threading.RLock(), False
        self._poll = select.poll()

    @property
    def is_open(self) -> bool:
        return self._stream is not None and self._process == os.getpid()

    def close(self) -> None:
        """Ends the session by `quit`, and closes the connection, after a call that another thread makes. Nothing is
        raised."""
        if self._process != os.getpid():
            self._end()
            return
        with self._turn:
            if self._stream is not None:
                self.timeout = min(self.timeout, 1.0)
                try:
                    self._exchange([_Command("quit", b"quit\n", _FORMS["quit"])])
                except Error:
                    pass
                self._end()

    def _end(self) -> None:
        if self._stream is not None:
            self._stream.close()
            self._stream = None

    def _exchange(self, commands: Sequence[_Command]) -> List[Reply]:
        """Sends commands and reads their replies. The session ends where this raises anything but an InvalidCommand."""
        # (in the child of a fork a thread may have the turn that is not there)
        if self._process != os.getpid():
            raise NotConnected("the session is another process's")
        with self._turn:
            if self._stream is None:
                raise NotConnected("the session has ended")
            if self._is_busy:
                raise InvalidCommand("the call of a signal's handler within a call")
            exchange = _Exchange(self._stream, commands)
            try:
                try:
                    self._is_busy = True
                    self._run(exchange)
                finally:
                    self._is_busy = False
            except BaseException as fault:
                # (again: what a signal raises may come before it, up to Python 3.9)
                self._is_busy = False
                self._end()
                # (ValueError: the handler of a signal has closed the session)
                if not isinstance(fault, (OSError, ValueError)):
                    raise
                if isinstance(fault, OSError) and fault.errno is None:
                    raise  # (as one by which such a handler bounds a call's time)
                raise exchange.lost(str(fault)) from fault
        return exchange.replies

    def _run(self, exchange: _Exchange) -> None:
        """Sends all commands, and reads all replies."""
        exchange.read_before()
        end = time.monotonic() + self.timeout
        while exchange.is_due():
            if exchange.write():
                end = time.monotonic() + self.timeout
            self._poll.register(exchange.stream, select.POLLIN | (select.POLLOUT if exchange.has_output() else 0))
            if not self._poll.poll(1000 * exchange.wait(end - time.monotonic())):
                raise exchange.timed_out(self.timeout)
            if exchange.read():
                end = time.monotonic() + self.timeout


def _refused_session(code: str) -> Refused:
    """The error for a server that refuses the session."""
    return Refused(code, "(the session)")


class _Replies:
    """The replies that have come to commands."""

    def __init__(self, commands: Sequence[_Command]) -> None:
        self.commands = commands
        # How many octets of the commands were sent.
        self.sent = 0
        self.replies: List[Reply] = []
        # The lines of the reply that is coming, and the octets of its line that is.
        self.lines: List[str] = []
        self.rest = ""

    def broken(self, kind: type[SessionBroken], message: str) -> SessionBroken:
        """The error that ends the session."""
        starts = itertools.accumulate((len(command.octets) for command in self.commands), initial=0)
        sent = sum(start < self.sent for start in itertools.islice(starts, len(self.commands)))
        return kind(message, self.replies, sent)

    def lost(self, message: str) -> SessionBroken:
        """The error for a connection that has ended."""
        if self.lines or self.rest:
            return self.broken(HalfReply, f"{message}, within a reply")
        return self.broken(ConnectionLost, message)

    def timed_out(self, timeout: float) -> SessionBroken:
        """The error for a time that ran out."""
        return self.broken(TimedOut, f"no progress for {timeout:g} seconds")

    def bad(self, text: str) -> SessionBroken:
        """The error for a line that is not one of the reply that is due."""
        return self.broken(BadReply, f"not a reply: {text[:200]!r}")

    def feed(self, octets: bytes) -> bool:
        """Takes what has come, nothing at the end of the connection; whether a reply is complete."""
        if not octets:
            raise self.lost("the server has closed the connection")
        count = len(self.replies)
        *lines, self.rest = (self.rest + octets.decode("latin-1")).split("\n")
        for text in lines:
            self.take(text)
        if len(self.rest) > _MAX_REPLY_LINE or self.rest and len(self.replies) == len(self.commands):
            raise self.bad(self.rest)
        return len(self.replies) > count

    def take(self, text: str) -> None:
        """Takes a line of a reply."""
        if len(self.replies) == len(self.commands):
            raise self.bad(text)
        command = self.commands[len(self.replies)]
        self.lines.append(text)
        if text.startswith(("ok", "none", "err")):
            if not command.form.ends(self.lines):
                raise self.bad(text)
            if text == "err Busy" and not self.replies:
                raise _refused_session("Busy")  # (the commands were on their way)
            self.replies.append(Reply(command.text, self.lines))
            self.lines = []
        elif not command.form.has(len(self.lines), text) or len(self.lines) > _MAX_REPLY_LINES:
            raise self.bad(text)


class _Exchange(_Replies):
    """Commands on their way over a connection that does not block, and the replies that have come."""

    def __init__(self, stream: socket.socket, commands: Sequence[_Command]) -> None:
        super().__init__(commands)
        self.stream = stream
        self.output = memoryview(b"".join(command.octets for command in commands))
        # Why the connection takes no more, and how many replies are due to what it took.
        self.fault: Optional[OSError] = None
        self.due = len(commands)

    def is_due(self) -> bool:
        """Whether a reply is missing."""
        return len(self.replies) < len(self.commands)

    def has_output(self) -> bool:
        """Whether there is more to send."""
        return self.sent < len(self.output) and self.fault is None

    def wait(self, left: float) -> float:
        """How many seconds to wait for the connection: none where it takes no more and no reply is due."""
        return max(0.0, min(left, _MAX_WAIT)) if len(self.replies) < self.due else 0.0

    def timed_out(self, timeout: float) -> SessionBroken:
        """The error for a time that ran out, or for a connection that took no more."""
        if self.fault is not None and len(self.replies) >= self.due:
            return self.lost(str(self.fault))
        return super().timed_out(timeout)

    def write(self) -> bool:
        """Sends what the connection takes; whether it took anything."""
        if not self.has_output():
            return False
        try:
            count = self.stream.send(self.output[self.sent:self.sent + _CHUNK], _SEND_FLAGS)
        except BlockingIOError:
            return False
        except OSError as fault:
            if fault.errno is None:
                raise  # (of a signal's handler)
            # What was replied before the connection failed is still read.
            self.fault = fault
            ends = itertools.accumulate(len(command.octets) for command in self.commands)
            self.due = sum(end <= self.sent for end in ends)
            return False
        self.sent += count
        return count > 0

    def read(self) -> bool:
        """Reads what has come; whether a reply is complete."""
        try:
            octets = self.stream.recv(_CHUNK)
        except BlockingIOError:
            return False
        is_complete = self.feed(octets)
        if not self.is_due() and self.sent < len(self.output):
            # (what is sent next would be taken for the rest)
            raise self.broken(BadReply, "a reply before its command was sent")
        return is_complete

    def read_before(self) -> None:
        """Raises what octets mean that came before any command was sent: the end of the connection, or a refusal of the
        session."""
        if not self.commands:
            return
        try:
            octets = self.stream.recv(_CHUNK)
        except BlockingIOError:
            return
        if not octets:
            raise self.lost("the server has closed the connection")
        match = re.fullmatch(f"{_REFUSED.pattern}\n", octets.decode("latin-1"))
        if match:
            raise _refused_session(match[1])
        raise self.bad(octets.decode("latin-1"))
