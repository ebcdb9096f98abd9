"""What lines of a session cost, for benches of bench/rows: the seconds, the instructions and the memory of `siploc run`.

A bench says which replies are right for a text, and ends where they are not. A cost is that of a session with the lines
less that of the same session without them.
"""

from __future__ import annotations

import itertools
import pathlib
import re
import shutil
import subprocess
import sys
import tempfile
import threading
import time
from typing import IO, Callable, Collection, Sequence

import usage

ADDRESS = b"zone example.com. 1\nserver1 A 192.0.2.1\n"
# The example of RFC 3263, 4.1 and 4.2.
SERVICE = b"""zone example.com. 7
@ NAPTR 50 50 "s" "SIPS+D2T" "" _sips._tcp
@ NAPTR 90 50 "s" "SIP+D2T" "" _sip._tcp
@ NAPTR 100 50 "s" "SIP+D2U" "" _sip._udp
_sip._tcp SRV 0 1 5060 server1
_sip._tcp SRV 0 2 5060 server2
server1 A 192.0.2.1
server2 A 192.0.2.2
"""


class Cost:
    """What sessions with a program cost, whose replies to a text are right by this test; of seconds the least of so
    many runs."""

    def __init__(self, program: str, are_right: Callable[[bytes, bytes], bool], rounds: int = 3) -> None:
        self.program, self.are_right, self.rounds = program, are_right, rounds

    def run(self, command: Sequence[str], text: bytes) -> tuple[str, float]:
        """Gives a session to a command: its standard error, and the seconds."""
        with tempfile.TemporaryFile() as session, tempfile.TemporaryFile() as output:
            session.write(text)
            session.seek(0)
            start = time.perf_counter()
            done = subprocess.run(command, stdin=session, stdout=output, stderr=subprocess.PIPE, check=False)
            seconds = time.perf_counter() - start
            output.seek(0)
            if done.returncode or not self.are_right(text, output.read()):
                sys.exit(f"{sys.argv[0]}: the replies are not those of the session")
        return done.stderr.decode(), seconds

    def nanoseconds(self, less: bytes, more: bytes, settings: str = "") -> float:
        """The nanoseconds by which a session takes longer than another."""
        command = [self.program, "run", settings]
        few, many = (min(self.run(command, text)[1] for _ in range(self.rounds)) for text in (less, more))
        return (many - few) * 1e9

    def instructions(self, less: bytes, more: bytes, settings: str = "") -> int:
        """The instructions by which a session takes more than another."""
        command = ["valgrind", "--tool=callgrind", "--callgrind-out-file=/dev/null", self.program, "run", settings]
        few, many = (int(re.findall(r"Collected : (\d+)", self.run(command, text)[0])[0]) for text in (less, more))
        return many - few

    def peak(self, text: bytes) -> int:
        """The octets of the peak memory of a session, before its input ends: what the system says of a process that has
        ended is no less than what the one that started it took."""
        with subprocess.Popen([self.program, "run"], stdin=subprocess.PIPE, stdout=subprocess.PIPE) as process:
            threading.Thread(target=send, args=(process.stdin, text)).start()
            replies = (line for line in process.stdout if line.startswith((b"ok ", b"none ", b"err ")))
            got = b"".join(itertools.islice(replies, text.count(b"\nfind ") + 1))
            memory = re.findall(r"VmHWM:\s*(\d+) kB", pathlib.Path(f"/proc/{process.pid}/status").read_text())
        if not self.are_right(text, got):
            sys.exit(f"{sys.argv[0]}: the replies are not those of the session")
        return int(memory[0]) * 1024


def send(stream: IO[bytes], text: bytes) -> None:
    stream.write(text)
    stream.flush()


def counts() -> bool:
    """Whether instructions can be counted, by valgrind; else it says so."""
    is_there = shutil.which("valgrind") is not None
    if not is_there:
        print("valgrind is not installed: no instructions are counted")
    return is_there


def asked(sessions: Collection[str]) -> tuple[str, bool, list[str]]:
    """What the words `[--count] [PROGRAM [NAME..]]` ask for: the program, whether lines are timed, and which sessions."""
    words = usage.words(options=["--count"])
    is_timed, words = "--count" not in words, [it for it in words if it != "--count"]
    program = usage.program(words)
    for name in words[1:]:
        if name not in sessions:
            usage.wrong(f"{name}: no such session")
    return program, is_timed, words[1:] or list(sessions)
