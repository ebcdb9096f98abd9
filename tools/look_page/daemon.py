"""What a daemon says at its control address, now and over the last minutes."""

from __future__ import annotations

import collections
import ipaddress
import socket
import threading
import time
from typing import Any, NamedTuple, Optional, Sequence

# Seconds that a reply may take, and between two samples; and how many samples are kept: ten minutes of them.
PATIENCE, PAUSE, KEPT = 5.0, 2.0, 300
ENDS = ("targets", "NoAddress", "NotAvailable", "NoTransport", "AllHeld")


class Fault(Exception):
    """Why there is nothing to show."""


class Held(NamedTuple):
    """An endpoint that is held, and for how many milliseconds still."""
    transport: str
    address: str
    port: int
    left: int


class Overview(NamedTuple):
    """What the daemon has at a moment."""
    stats: dict[str, int]
    zones: list[tuple[str, int]]
    held: list[Held]


class Sample(NamedTuple):
    """Counts of a moment, by the clock of this machine that only goes on."""
    at: float
    stats: dict[str, int]


class Rate(NamedTuple):
    """What there was a second, of answers with targets, of those without, and of changes, between two samples."""
    at: float
    found: float
    none: float
    changes: float


class Control:
    """The control address of a daemon."""

    def __init__(self, address: str) -> None:
        self.address, self.place = address, place_of(address)
        self.lock = threading.Lock()

    def ask(self, lines: Sequence[str]) -> list[list[str]]:
        """The replies to some control lines, over one connection."""
        family, place = self.place
        try:
            with self.lock, socket.socket(family, socket.SOCK_STREAM) as stream:
                stream.settimeout(PATIENCE)
                stream.connect(place)
                file = stream.makefile("rwb")
                return [self.reply(file, line) for line in lines]
        except OSError as fault:
            raise Fault(f"nobody replies at {self.address}: {fault.strerror or fault}") from None

    def reply(self, file: Any, line: str) -> list[str]:
        """The lines of a reply before its last one."""
        file.write(f"{line}\n".encode())
        file.flush()
        found: list[str] = []
        while True:
            text = file.readline(1 << 17).decode("latin-1")
            if not text.endswith("\n"):
                raise Fault(f"{self.address} ended the connection")
            text = text[:-1]
            if text.startswith("err"):
                raise Fault(f"{self.address} replies {text} to {line}: is it a control address?")
            if text.startswith("ok"):
                return found
            found.append(text)

    def stats(self) -> dict[str, int]:
        return read_stats(self.ask(["stats"])[0])

    def held(self) -> list[Held]:
        return read_held(self.ask(["holds"])[0])

    def overview(self) -> Overview:
        stats, zones, held = self.ask(["stats", "zones", "holds"])
        loaded = [(fields[1], int(fields[2])) for fields in (it.split(" ") for it in zones)]
        return Overview(read_stats(stats), loaded, read_held(held))


def read_stats(lines: Sequence[str]) -> dict[str, int]:
    return {name: int(value) for name, _, value in (it.partition(" ") for it in lines)}


def read_held(lines: Sequence[str]) -> list[Held]:
    fields = (it.split(" ") for it in lines)
    return [Held(transport, address, int(port), int(left)) for _, transport, address, port, left in fields]


def place_of(address: str) -> tuple[int, Any]:
    """The family and the place of an address, as the settings of the daemon have it."""
    if address.startswith("unix:"):
        return socket.AF_UNIX, address[5:]
    host, _, port = address.rpartition(":")
    try:
        found = ipaddress.ip_address(host.strip("[]"))
        if found.is_loopback and 0 < int(port) < 65_536:
            return (socket.AF_INET if found.version == 4 else socket.AF_INET6), (str(found), int(port))
    except ValueError:
        pass
    raise Fault(f"{address}: neither a loopback address with a port nor `unix:` and a path")


class Sampler:
    """Takes a sample every two seconds, from when it is started on."""

    def __init__(self, control: Control) -> None:
        self.control = control
        self.samples: collections.deque[Optional[Sample]] = collections.deque(maxlen=KEPT)

    def start(self) -> None:
        threading.Thread(target=self.run, daemon=True).start()

    def run(self) -> None:
        while True:
            self.take()
            time.sleep(PAUSE)

    def take(self) -> None:
        """Takes a sample; None where the daemon is away."""
        try:
            self.samples.append(Sample(time.monotonic(), self.control.stats()))
        except (Fault, ValueError):
            self.samples.append(None)

    def rates(self) -> list[Optional[Rate]]:
        """The rates between the samples, the oldest first; None where one is missing, or the daemon began anew."""
        samples = list(self.samples)
        return [rate(a, b) for a, b in zip(samples, samples[1:])]


def rate(before: Optional[Sample], after: Optional[Sample]) -> Optional[Rate]:
    if not before or not after or after.stats["events"] < before.stats["events"]:
        return None
    seconds = after.at - before.at
    grown = {name: after.stats[name] - before.stats[name] for name in ("events", *ENDS)}
    answers = sum(grown[name] for name in ENDS)
    return Rate(after.at, grown["targets"] / seconds, (answers - grown["targets"]) / seconds,
                max(0, grown["events"] - answers) / seconds)
