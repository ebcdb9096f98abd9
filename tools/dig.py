"""What `dig` says: the records of the answer to a question, as they come, and why they are not to be used.

Nothing here trusts that an answer is whole because `dig` ended with 0: it does so after `; Transfer failed.`, and
prints what it received before.
"""

from __future__ import annotations

import os
import re
import select
import socket
import subprocess
import tempfile
import time
from typing import IO, Callable, Iterator, NamedTuple, Optional

# The types that siploc reads.
READ = ("A", "AAAA", "CNAME", "SRV", "NAPTR")
# Others whose data are names and numbers, which are compared without case.
NAMED = ("NS", "PTR", "MX", "DNAME", "KX", "AFSDB", "RP", "RT", "PX", "MINFO")

OPTIONS = ["+noall", "+answer", "+comments", "+additional", "+norecurse", "+noedns", "+noidnin", "+noidnout",
           "+tries=1", "+retry=0"]
# What `dig` prints about a message that is in order, beside its status. Of names below .local it warns, and many
# networks have such zones.
USUAL = re.compile(r";; (Got answer:|(ANSWER|AUTHORITY|ADDITIONAL) SECTION:|(OPT|TSIG) PSEUDOSECTION:)|"
                   r"; (EDNS|COOKIE|EDE):|;; WARNING: \.local is reserved for Multicast DNS|"
                   r";; You are currently testing what happens when an mDNS query is leaked to DNS")


class Fault(Exception):
    """Why a transfer is not taken."""


class Server(NamedTuple):
    """A name server, with the file of its TSIG key, the seconds for which it may be silent, and what is done each
    second while it is waited for."""
    host: str
    port: int
    key: Optional[str] = None
    seconds: int = 10
    meanwhile: Callable[[], None] = lambda: None

    @classmethod
    def read(cls, text: str, key: Optional[str] = None, seconds: int = 10) -> Server:
        host, at, port = text.partition("@")
        if not host or at and not (port.isascii() and port.isdigit() and 0 < int(port) < 65_536):
            raise ValueError(f"{text} is not SERVER or SERVER@PORT")
        return cls(host, int(port or 53), key, seconds)

    def __str__(self) -> str:
        return f"{self.host}@{self.port}"

    def addresses(self) -> list[str]:
        try:
            found = socket.getaddrinfo(self.host, self.port, type=socket.SOCK_STREAM)
        except (OSError, UnicodeError) as fault:
            raise Fault(f"{self.host} has no address: {getattr(fault, 'strerror', None) or fault}") from None
        return [*dict.fromkeys(str(it[4][0]) for it in found)]


class Record(NamedTuple):
    """A record as it is compared: its owner, type and data, where names are in lower case."""
    owner: str
    kind: str
    data: str


def read_record(line: str) -> Record:
    """The record of a line of `dig`."""
    fields = line.split(None, 4)
    if len(fields) < 4 or not fields[1].isdigit():
        raise Fault(f"dig printed a line that is not a record: {line[:80]!r}")
    owner, _, group, kind, *rest = fields
    if group != "IN":
        raise Fault(f"{owner} has a record of class {group}, and only IN is served")
    data = rest[0].rstrip() if rest else ""
    if kind in READ and data.startswith("\\#"):
        raise Fault(f"{owner} has a record of type {kind} in generic form (RFC 3597), which siploc refuses (Z10)")
    if kind in ("A", "AAAA", "CNAME", "SRV", *NAMED):
        data = data.lower()
    elif kind == "NAPTR":
        head, _, replacement = data.rpartition(" ")
        data = f"{head} {replacement.lower()}"
    return Record(owner.lower(), kind, data)


class Reply:
    """What `dig` prints, read line by line. The faults it tells of are gathered, and raised by `end`."""

    def __init__(self, server: Server, is_transfer: bool):
        self.server, self.is_transfer, self.is_answer, self.is_signed = server, is_transfer, False, False
        self.faults: list[str] = []

    def read(self, line: str) -> Optional[Record]:
        if line.startswith(";"):
            self.comment(line)
        elif self.is_answer and not line.isspace() and not self.faults:
            return read_record(line)
        elif "\tTSIG\t" in line:
            self.is_signed = True
        return None

    def comment(self, line: str) -> None:
        header = re.match(r";; ->>HEADER<<- opcode: (\S+), status: (\S+),", line)
        flags = re.match(r";; flags:([^;]*);", line)
        if header:
            self.is_answer = self.is_signed = False
            if header[1] != "QUERY" or header[2] != "NOERROR":
                self.faults.append(f"the server's status is {header[2]}")
        elif flags:
            if "tc" in flags[1].split():
                self.faults.append("the server's message is truncated")
            if not self.is_transfer and not self.faults and "aa" not in flags[1].split():
                self.faults.append("the answer is not that of a server of the zone (RFC 1035, 4.1.1: AA)")
        elif USUAL.match(line):
            self.is_answer = line.startswith(";; ANSWER")
        elif not re.match(r"; <<>> |; \(\d|;; global options", line):
            # (the numbers are others each time, and the fault is the same)
            self.faults.append(re.sub(r"(ID mismatch): expected .*", r"\1", line.strip("; \n\r")))

    def end(self, errors: str, status: int) -> None:
        self.faults += errors.split("\n")
        if status and not any(self.faults):
            self.faults.append(f"dig ended with {status}")
        if any(self.faults):
            raise Fault("; ".join(dict.fromkeys(filter(None, self.faults))))
        if self.server.key and not self.is_signed:
            raise Fault("the last message has no TSIG (RFC 8945, 5.3.1)")


def ask(server: Server, address: str, apex: str, question: list[str]) -> Iterator[Record]:
    """The records of the answer to a question. They are to be used only when all of them have come."""
    command = ["dig", "-r", f"@{address}", "-p", str(server.port), "-c", "IN",
               *(["-k", server.key] if server.key else []),
               *OPTIONS, f"+time={server.seconds}", "-q", apex, *question]
    reply = Reply(server, "SOA" not in question)
    with temporary_file() as errors:
        try:
            dig = subprocess.Popen(command, stdin=subprocess.DEVNULL, stdout=subprocess.PIPE, stderr=errors)
        except OSError as fault:
            raise Fault(f"dig can't be started (Debian's bind9-dnsutils has it): {fault.strerror}") from None
        end = time.monotonic() + 60 * server.seconds
        assert dig.stdout
        try:
            yield from filter(None, map(reply.read, lines_of(dig.stdout, end, server.meanwhile)))
            dig.wait(max(end - time.monotonic(), 1))
        except subprocess.TimeoutExpired:
            raise Fault(f"the transfer took more than {60 * server.seconds} seconds") from None
        finally:
            dig.kill()
            dig.wait()
            dig.stdout.close()
        errors.seek(0)
        reply.end(errors.read().decode(errors="replace"), dig.returncode)


def temporary_file() -> IO[bytes]:
    try:
        return tempfile.TemporaryFile()
    except OSError as fault:
        raise Fault(f"there is no temporary file: {fault.strerror}") from None


def lines_of(output: IO[bytes], end: float, meanwhile: Callable[[], None]) -> Iterator[str]:
    """The lines of what `dig` prints, as they come, until a time. Each second something else is done."""
    poll, octets, rest, then = select.poll(), b" ", b"", time.monotonic() + 1
    poll.register(output, select.POLLIN)
    while octets:
        is_there = poll.poll(1_000)
        if time.monotonic() >= then:
            meanwhile()
            then = time.monotonic() + 1
        if time.monotonic() >= end:
            raise subprocess.TimeoutExpired("dig", 0)
        if is_there:
            octets = os.read(output.fileno(), 1 << 16)
            *lines, rest = (rest + (octets or b"\n" * bool(rest))).split(b"\n")
            for line in lines:
                if not line.isascii():
                    raise Fault(f"dig printed octets that are not of ASCII: {line[:80]!r}")
                yield f"{line.decode()}\n"
