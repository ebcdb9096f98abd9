"""The files of a `siplocd`'s state, a state and a log of commits, read and written as docs/use/OPERATING.md says."""

from __future__ import annotations

import hashlib
import re
from typing import Optional, Sequence, Tuple

STATE_LINE = b"siplocd state 2\n"
SEAL_LEN = len(b"sha256 ") + 64 + 1
HEAD_LEN = len(b"siplocd log 2 ") + 16 + 1 + 64 + 1 + SEAL_LEN
LINE_LEN = len(b"\tcommit ") + 16 + 1 + 16 + 1 + 64 + 1 + SEAL_LEN
COMMIT_LINE = re.compile(rb"\tcommit [0-9a-f]{16} ([0-9a-f]{16}) ")


def sealed(text: bytes) -> bytes:
    """A text, and its digest after it."""
    return text + b"sha256 " + hashlib.sha256(text).hexdigest().encode() + b"\n"


def state_of(body: bytes) -> bytes:
    """The state of these lines."""
    return sealed(STATE_LINE + body)


def digest_of(state: bytes) -> bytes:
    """The digest of a state."""
    return hashlib.sha256(state[:-SEAL_LEN]).digest()


def log_of(state: bytes, bodies: Sequence[bytes]) -> bytes:
    """The log of a state, with commits of these bodies."""
    digest = digest_of(state)
    log = sealed(b"siplocd log 2 %016x %s " % (0, digest.hex().encode()))
    for number, body in enumerate(bodies, 1):
        digest, commit = commit_of(number, digest, body)
        log += commit
    return log


def commit_of(number: int, before: bytes, body: bytes) -> Tuple[bytes, bytes]:
    """The digest of the commit of this number and body after one of this digest, and its octets."""
    digest = hashlib.sha256(number.to_bytes(8, "big") + before + body).digest()
    return digest, sealed(b"\tcommit %016x %016x %s " % (number, len(body), digest.hex().encode())) + body


def bodies_of(log: bytes) -> list[bytes]:
    """The bodies of the commits that a log has whole, each after the one before it."""
    digest, bodies, place = bytes.fromhex(log[:HEAD_LEN].split(b" ")[4].decode()), [], HEAD_LEN
    line = COMMIT_LINE.match(log, place)
    while line:
        body = log[place + LINE_LEN:place + LINE_LEN + int(line[1], 16)]
        digest, commit = commit_of(len(bodies) + 1, digest, body)
        if not log.startswith(commit, place):
            break
        bodies.append(body)
        place += len(commit)
        line = COMMIT_LINE.match(log, place)
    return bodies


def body_of(state: bytes) -> bytes:
    """The lines of a state."""
    return state[len(STATE_LINE):-SEAL_LEN]


def lines_of(state: bytes, log: bytes) -> Optional[bytes]:
    """The lines of a state, and those of the whole commits after it; None where these octets are no state and its
    log."""
    if state != state_of(body_of(state)) or not log.startswith(log_of(state, [])):
        return None
    return body_of(state) + b"".join(bodies_of(log))
