"""A connection to Redis, which is spoken to directly (RESP 2), without TLS."""

from __future__ import annotations

import os
import re
import socket
from typing import BinaryIO, List, NamedTuple, Optional, Sequence, Union

#: What Redis refuses while it reads its files at the start, while a replica takes its place, or while a script runs.
_AWAY = ("LOADING", "READONLY", "MASTERDOWN", "NOREPLICAS", "CLUSTERDOWN", "TRYAGAIN", "BUSY")

#: What of the environment has the password of Redis.
PASSWORD = "REDISCLI_AUTH"
#: The octets of a line that Redis replies.
_MAX_LINE = 65_536
#: The octets of a string that Redis replies, or the elements of an array, and how deep arrays are in others.
_MAX_BULK, _MAX_DEPTH = 1 << 29, 8
#: How many octets are sent at a time.
_CHUNK = 1 << 16


class Fault(Exception):
    """What ends a tool, with its cause."""


class Away(Fault):
    """Redis is not there, was not there any more, or takes nothing at present."""


Value = Union[bytes, int, None, "Refusal", List["Value"]]


class Refusal(NamedTuple):
    """An error that Redis replies."""

    text: str


class Connection:
    """A connection to Redis. Raises `Fault` where Redis is away or refuses a command."""

    def __init__(self, address: str, seconds: float) -> None:
        """To `127.0.0.1:6379` or `unix:/run/redis.sock`, which may be silent for some seconds. The password is that of
        the environment, as for redis-cli; a user that has it is before the address, as `siploc@`."""
        self.address = address
        user, place = re.fullmatch("(?:([^@:/]*)@)?(.*)", address, re.DOTALL).groups()  # type: ignore[union-attr]
        try:
            self.socket = connected(place, seconds)
        except OSError as fault:
            raise Away(f"Redis at {address}: {fault}") from fault
        self.reader: BinaryIO = self.socket.makefile("rb")
        # Whether it has replied.
        self.is_redis = False
        password = os.environ.get(PASSWORD, "")
        if user or password:
            self.ask([[b"AUTH", *map(octets_of, filter(None, [user])), octets_of(password)]])

    def transact(self, commands: Sequence[Sequence[bytes]]) -> List[Value]:
        """The replies to commands of which all are done, or none. Where a key that was watched has changed, none is,
        and there is no reply."""
        done = self.ask([[b"MULTI"], *commands, [b"EXEC"]])[-1]
        if done is not None and (not isinstance(done, list) or len(done) != len(commands)):
            raise Fault(f"not a reply of Redis: {done!r}")
        for it in done or []:
            if isinstance(it, Refusal):
                raise Fault(f"Redis at {self.address}: {it.text}")
        return done or []

    def ask(self, commands: Sequence[Sequence[bytes]]) -> List[Value]:
        """Sends commands at once; their replies."""
        if self.reader.closed:
            raise Away(f"Redis at {self.address}: the connection has ended")
        fault: Optional[OSError] = None
        replies: List[Value] = []
        try:
            self.send(b"".join(
                b"*%d\r\n%s" % (len(words), b"".join(b"$%d\r\n%s\r\n" % (len(it), it) for it in words))
                for words in commands))
        except OSError as it:
            fault = it
        try:
            # Where it took no more, it may have said why.
            while len(replies) < len(commands) and not isinstance(fault, socket.timeout):
                replies.append(self.reply())
        except OSError as it:
            fault = fault or it
        if fault:
            # Redis may wait for the rest of this, and what it replies later is no reply to what is asked next.
            self.close()
        self.is_redis = self.is_redis or bool(replies)
        for reply in replies:
            if isinstance(reply, Refusal):
                code = reply.text.split(" ")[0]
                more = f": {PASSWORD} of the environment is to have the password" if code == "NOAUTH" else ""
                raise (Away if code in _AWAY else Fault)(f"Redis at {self.address}: {reply.text}{more}")
        if fault:
            more = "" if self.is_redis or isinstance(fault, socket.timeout) else ": there is no Redis, or it wants TLS"
            raise Away(f"Redis at {self.address}: {fault}{more}") from fault
        return replies

    def close(self) -> None:
        self.reader.close()
        self.socket.close()

    def send(self, octets: bytes) -> None:
        """Sends octets, for however long Redis goes on to take some."""
        rest = memoryview(octets)
        while rest:
            rest = rest[self.socket.send(rest[:_CHUNK]):]

    def reply(self, depth: int = 0) -> Value:
        """The next reply, which may be an array of others."""
        line = self.reader.readline(_MAX_LINE)
        kind, text = line[:1], line[1:-2]
        if not line.endswith(b"\r\n"):
            raise OSError("the connection was closed")
        if kind == b"+":
            return text
        if kind == b"-":
            return Refusal(text.decode("utf-8", "replace"))
        is_number = kind in (b":", b"$", b"*") and re.fullmatch(rb"-?[0-9]{1,19}", text)
        if not is_number or kind != b":" and int(text) > _MAX_BULK or depth > _MAX_DEPTH:
            raise OSError(f"not a reply of Redis: {line[:60]!r}")
        number = int(text)
        if kind == b":" or number < 0:
            return number if kind == b":" else None
        if kind == b"*":
            return [self.reply(depth + 1) for _ in range(number)]
        octets = self.reader.read(number + 2)
        if len(octets) != number + 2:
            raise OSError("the connection was closed")
        return octets[:-2]


def bytes_of(value: object) -> bytes:
    """A reply that must be octets."""
    if not isinstance(value, bytes):
        raise Fault(f"not a reply of Redis: {value!r}")
    return value


def octets_of(text: str) -> bytes:
    """The octets of a text, which may be those of a word that is not UTF-8."""
    return text.encode("utf-8", "surrogateescape")


def connected(address: str, seconds: float) -> socket.socket:
    """A socket that is connected to an address, and waits so many seconds at most."""
    if address.startswith("unix:"):
        stream = socket.socket(socket.AF_UNIX, socket.SOCK_STREAM)
        stream.settimeout(seconds)
        stream.connect(address[len("unix:"):])
        return stream
    match = re.fullmatch(r"(.*):([0-9]{1,5})", address)
    if not match or int(match[2]) > 65_535:
        raise OSError("not an address such as 127.0.0.1:6379")
    try:
        return socket.create_connection((match[1].strip("[]"), int(match[2])), timeout=seconds)
    except UnicodeError as fault:
        raise OSError(fault) from fault
