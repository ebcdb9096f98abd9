"""TSIG (RFC 8945) of the messages that a tool receives and replies to; `dig` signs those that it sends."""

from __future__ import annotations

import base64
import binascii
import hmac
import pathlib
import re
import struct
import time
from typing import NamedTuple, Optional

# Each algorithm by its name, with that of its digest.
DIGESTS = {"hmac-md5": "md5", "hmac-md5.sig-alg.reg.int": "md5",
           **{f"hmac-{it}": it for it in ("sha1", "sha224", "sha256", "sha384", "sha512")}}
BADSIG, BADKEY, BADTIME, BADTRUNC = 16, 17, 18, 22
NOTAUTH = 9
FUDGE = 300
TYPE = struct.pack(">HHI", 250, 255, 0)
# What is in quotes, or else a comment of BIND's files.
COMMENT = re.compile(r'"[^"]*"|(?<![^\s;{}])(?://[^\n]*|#[^\n]*|/\*.*?\*/)', re.DOTALL)


class Key(NamedTuple):
    """A key: its name and that of its algorithm in wire form and lower case, the digest, the secret, and the octets of a
    signature that is truncated (RFC 8945, 5.2.2.1)."""
    name: bytes
    algorithm: bytes
    digest: str
    secret: bytes
    size: Optional[int] = None


def wire(name: str) -> bytes:
    return b"".join(bytes([len(it)]) + it.encode().lower() for it in name.rstrip(".").split(".") if it) + b"\0"


def read_key(path: str) -> Optional[Key]:
    """The key of a file as BIND's tsig-keygen prints it, if it is one: `dig` takes the first that is no comment, too."""
    try:
        text = COMMENT.sub(lambda it: it[0] if it[0].startswith('"') else " ", pathlib.Path(path).read_text())
        match = re.search(r'key\s+"?([^\s";{]+)"?\s*\{', text)
        algorithm = re.search(r'algorithm\s+"?([^\s";]+)"?\s*;', text)
        secret = re.search(r'secret\s+"?([A-Za-z0-9+/=]+)"?\s*;', text)
        if not match or not algorithm or not secret:
            return None
        name, _, bits = re.sub(r"-(?=[0-9]+$)", " ", algorithm[1].lower().rstrip(".")).partition(" ")
        name = "hmac-md5.sig-alg.reg.int" if name == "hmac-md5" else name
        return Key(wire(match[1]), wire(name), DIGESTS[name], base64.b64decode(secret[1], validate=True),
                   int(bits) // 8 if bits else None)
    except (OSError, ValueError, KeyError, binascii.Error):
        return None


class Signature(NamedTuple):
    """The TSIG record of a message, and the message as it was before it was signed."""
    message: bytes
    key: bytes
    algorithm: bytes
    time: int
    fudge: int
    mac: bytes
    error: int
    other: bytes

    def fault(self, key: Optional[Key], now: int) -> int:
        """The error of a request's signature; 0 where it is that of the key."""
        if key is None or (self.key, self.algorithm) != (key.name, key.algorithm):
            return BADKEY
        whole = mac_of(key, self.message, self.time, self.fudge, self.error, self.other)
        if len(self.mac) < 10 or not hmac.compare_digest(self.mac, whole[:len(self.mac)]):
            return BADSIG
        if abs(now - self.time) > self.fudge:
            return BADTIME
        return 0 if len(self.mac) >= len(whole[:key.size]) else BADTRUNC


def mac_of(key: Key, octets: bytes, seconds: int, fudge: int, error: int, other: bytes) -> bytes:
    """The signature of octets and of the variables of a TSIG record (RFC 8945, 4.3)."""
    variables = key.name + struct.pack(">HI", 255, 0) + key.algorithm + seconds.to_bytes(6, "big")
    return hmac.new(key.secret, octets + variables + struct.pack(">3H", fudge, error, len(other)) + other,
                    key.digest).digest()


def name_at(octets: bytes, at: int) -> int:
    """Where a name ends that begins at a place."""
    while octets[at] and octets[at] < 64:
        at += octets[at] + 1
    return at + (1 if octets[at] == 0 else 2)


def last_record(octets: bytes) -> int:
    """Where the last record of a message begins, which has any."""
    questions, *counts = struct.unpack(">4H", octets[4:12])
    at = last = 12
    for number in range(questions + sum(counts)):
        last, at = at, name_at(octets, at)
        at += 4 if number < questions else 10 + struct.unpack(">H", octets[at + 8:at + 10])[0]
    if at != len(octets):
        raise ValueError("a message of another length than it says")
    return last


def signature_of(octets: bytes) -> Optional[Signature]:
    """The signature of a message, if it has one (its last record, RFC 8945, 5.1)."""
    try:
        more, = struct.unpack(">H", octets[10:12])
        begin = last_record(octets) if more else 0
        name_end = name_at(octets, begin) if more else 0
        if not more or octets[name_end:name_end + 4] != TYPE[:4]:
            return None
        data = octets[name_end + 10:]
        end = name_at(data, 0)
        seconds, (fudge, size) = int.from_bytes(data[end:end + 6], "big"), struct.unpack(">2H", data[end + 6:end + 10])
        rest = data[end + 10 + size:]
        number, error, count = struct.unpack(">3H", rest[:6])
        message = struct.pack(">H", number) + octets[2:10] + struct.pack(">H", more - 1) + octets[12:begin]
        return Signature(message, octets[begin:name_end].lower(), data[:end].lower(), seconds, fudge,
                         data[end + 10:end + 10 + size], error, rest[6:6 + count])
    except (struct.error, IndexError, ValueError):
        return None


def signed(reply: bytes, asked: Signature, key: Optional[Key], error: int) -> bytes:
    """A reply with the TSIG record that a signed request wants (RFC 8945, 5.3): after BADKEY and BADSIG without a
    signature, and each error with the status NOTAUTH."""
    now = int(time.time())
    if error:
        reply = reply[:3] + bytes([reply[3] & 0xF0 | NOTAUTH]) + reply[4:]
    other = now.to_bytes(6, "big") if error == BADTIME else b""
    seconds = asked.time if error == BADTIME else now
    mac = b""
    if key and error in (0, BADTIME, BADTRUNC):
        mac = mac_of(key, struct.pack(">H", len(asked.mac)) + asked.mac + reply, seconds, FUDGE, error, other)[:key.size]
    data = asked.algorithm + seconds.to_bytes(6, "big") + struct.pack(">2H", FUDGE, len(mac)) + mac + reply[:2] + \
        struct.pack(">2H", error, len(other)) + other
    count, = struct.unpack(">H", reply[10:12])
    return reply[:10] + struct.pack(">H", count + 1) + reply[12:] + asked.key + TYPE + struct.pack(">H",
                                                                                                   len(data)) + data
