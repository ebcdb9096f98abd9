"""Listens for NOTIFY messages (RFC 1996), for `tools/follow`."""

from __future__ import annotations

import contextlib
import ipaddress
import re
import socket
import struct
import threading
import time
from typing import Callable, Iterable, Optional

import tsig
import zones

# TCP connections at a time; a further one is closed.
STREAMS = 16
# Seconds until a name is looked up again for a sender that is not known, and until another one is told of.
LOOK_UP = 60.0

Place = tuple[str, int]


def read_place(text: str) -> Place:
    """An address and a port: `192.0.2.1:5353`, `[2001:db8::1]:5353`, or a port of 127.0.0.1."""
    match = re.fullmatch(r"(?:(?:\[([0-9A-Fa-f:.]+)\]|([0-9.]+)):)?([0-9]{1,5})", text)
    if not match or int(match[3]) > 65_535:
        raise ValueError(f"{text} is neither PORT nor ADDRESS:PORT")
    return str(ipaddress.ip_address(match[1] or match[2] or "127.0.0.1")), int(match[3])


def read_sender(text: str) -> str:
    """An address, as the system prints that of a sender; one of IPv4 as itself."""
    try:
        address = ipaddress.ip_address(text)
        return str(getattr(address, "ipv4_mapped", None) or address)
    except ValueError:
        raise ValueError(f"--from {text} is not an address") from None


def show_place(place: Place) -> str:
    return f"[{place[0]}]:{place[1]}" if ":" in place[0] else f"{place[0]}:{place[1]}"


class Primary:
    """The addresses of a name server, and others that are given: they alone are heard (RFC 1996, 3.10)."""

    def __init__(self, server: zones.Server, say: Callable[[str], None], others: Iterable[str] = ()):
        self.server, self.say, self.others = server, say, {*others}
        self.addresses: set[str] = set()
        self.next_look = self.next_word = 0.0

    def has(self, address: str) -> bool:
        # (at [::] one of IPv4 comes so)
        address = address[len("::ffff:"):] if re.fullmatch(r"::ffff:[0-9.]+", address) else address
        if address in self.others:
            return True
        if address not in self.addresses and time.monotonic() >= self.next_look:
            self.next_look = time.monotonic() + LOOK_UP
            with contextlib.suppress(zones.Fault):
                self.addresses = {*self.server.addresses()}
        if address not in self.addresses and time.monotonic() >= self.next_word:
            self.next_word = time.monotonic() + LOOK_UP
            self.say(f"a message from {address} is ignored, which is not an address of {self.server.host}, "
                     "nor of --from")
        return address in self.addresses


class Bell:
    """Rings for zones whose primary says that they have changed: over UDP and, as Knot sends it, over TCP."""

    def __init__(self, place: Place, apexes: Iterable[str], primary: Primary, key: Optional[str]):
        self.apexes, self.primary, self.key = {*apexes}, primary, key
        self.changed: set[str] = set()
        self.rung, self.free = threading.Condition(), threading.Semaphore(STREAMS)
        self.datagrams, self.streams = self.listeners(place)
        self.place: Place = self.datagrams.getsockname()[:2]
        try:
            for serve in (self.serve_datagrams, self.serve_streams):
                threading.Thread(target=serve, daemon=True).start()
        except RuntimeError as fault:
            raise OSError(f"nothing listens at {show_place(self.place)}: {fault}") from None

    @staticmethod
    def listeners(place: Place) -> tuple[socket.socket, socket.socket]:
        """A socket of each kind, at the same port. Where any port will do, a few are tried."""
        family = socket.AF_INET6 if ":" in place[0] else socket.AF_INET
        for tries in range(20, -1, -1):
            datagrams = socket.socket(family, socket.SOCK_DGRAM)
            try:
                datagrams.bind(place)
                is_dual = place[0] == "::" and socket.has_dualstack_ipv6()
                there = datagrams.getsockname()[:2]
                return datagrams, socket.create_server(there, family=family, dualstack_ipv6=is_dual)
            except OSError as fault:
                datagrams.close()
                if place[1] or not tries:
                    raise OSError(f"nothing can listen at {show_place(place)}: {fault.strerror}") from None
        raise AssertionError

    def hear(self, octets: bytes) -> bytes:
        """The reply to a message of the primary. The file of the key is read each time, as `dig` does for a transfer: so
        another key is used once it is there."""
        reply, apex = answer_notify(octets, self.apexes, tsig.read_key(self.key) if self.key else None)
        if apex:
            with self.rung:
                self.changed.add(apex)
                self.rung.notify()
        return reply

    def serve_datagrams(self) -> None:
        while True:
            with contextlib.suppress(OSError):
                octets, sender = self.datagrams.recvfrom(4_096)
                reply = self.hear(octets) if self.primary.has(sender[0]) else b""
                if reply:
                    self.datagrams.sendto(reply, sender)

    def serve_streams(self) -> None:
        while True:
            try:
                stream, sender = self.streams.accept()
            except OSError:
                # (without a descriptor it would fail at once, again and again)
                time.sleep(0.1)
                continue
            with contextlib.suppress(OSError):
                if self.primary.has(sender[0]) and self.free.acquire(blocking=False):
                    try:
                        threading.Thread(target=self.serve_stream, args=(stream,), daemon=True).start()
                        continue
                    except RuntimeError:
                        # (there is no other thread)
                        self.free.release()
                stream.close()

    def serve_stream(self, stream: socket.socket) -> None:
        """One message of a connection, which may take two seconds."""
        try:
            with contextlib.suppress(OSError, struct.error), stream:
                end = time.monotonic() + 2
                length, = struct.unpack(">H", read_octets(stream, 2, end))
                reply = self.hear(read_octets(stream, min(length, 4_096), end))
                stream.sendall(struct.pack(">H", len(reply)) + reply)
        finally:
            self.free.release()

    def wait(self, seconds: float) -> set[str]:
        """Waits until a zone has changed, or so long; the zones that have."""
        with self.rung:
            if not self.changed:
                self.rung.wait(max(seconds, 0.0))
            changed, self.changed = self.changed, set()
        return changed


def read_octets(stream: socket.socket, count: int, end: float) -> bytes:
    """So many octets of a connection, which may come in pieces until a time."""
    octets = b""
    while len(octets) < count:
        stream.settimeout(max(end - time.monotonic(), 0.001))
        more = stream.recv(count - len(octets))
        if not more:
            raise ConnectionError("it was closed")
        octets += more
    return octets


def read_question(octets: bytes) -> Optional[tuple[str, bytes]]:
    """The name of a message's first question, and the octets of the question."""
    at, labels = 12, []
    while at < len(octets) and 0 < octets[at] < 64:
        labels.append(zones.print_label(octets[at + 1:at + 1 + octets[at]].lower()))
        at += octets[at] + 1
    if octets[at:at + 1] != b"\0" or len(octets) < at + 5 or at > 12 + 254:
        return None
    return "".join(f"{it}." for it in labels) or ".", octets[12:at + 5]


def answer_notify(octets: bytes, apexes: set[str], key: Optional[tsig.Key]) -> tuple[bytes, str]:
    """The reply to a message, if it has one, and the zone of which it says that it has changed. What is signed has a
    reply that is signed; what is signed with another key says as much as what is not signed at all."""
    reply, apex = answer_plain(octets, apexes)
    asked = tsig.signature_of(octets) if reply else None
    if asked:
        reply = tsig.signed(reply, asked, key, asked.fault(key, int(time.time())))
    return reply, apex


def answer_plain(octets: bytes, apexes: set[str]) -> tuple[bytes, str]:
    """What `answer_notify` returns, before anything is signed."""
    if len(octets) < 12:
        return b"", ""
    number, flags, questions = struct.unpack(">3H", octets[:6])
    asked = read_question(octets)
    if flags & 0x8000:
        return b"", ""
    if flags >> 11 & 15 != 4 or questions != 1 or asked is None or asked[1][-4:] != b"\0\6\0\1":
        return struct.pack(">6H", number, 0x8000 | flags & 0x7900 | (4 if flags >> 11 & 15 != 4 else 1), 0, 0, 0, 0), ""
    is_ours = asked[0] in apexes
    return struct.pack(">6H", number, 0xA400 | (0 if is_ours else 9), 1, 0, 0,
                       0) + asked[1], asked[0] if is_ours else ""
