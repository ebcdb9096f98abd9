"""Name servers on the loopback for tests: Knot and BIND, each in a folder of its own and ended by its own pid, and a
small one of a few lines that says what it is told to, right or wrong."""

from __future__ import annotations

import base64
import contextlib
import pathlib
import signal
import socket
import struct
import subprocess
import sys
import threading
import time
from typing import Callable, Iterable, Iterator, Optional, Sequence

sys.path.insert(0, str(pathlib.Path(__file__).resolve().parent.parent.parent / "tools"))
import ports  # noqa: E402

# For how long a busy machine is waited for, in seconds.
PATIENCE = 120.0
SECRET = base64.b64encode(b"a secret of 32 octets for tests.").decode()
OTHER_SECRET = base64.b64encode(b"another one of 32 octets, wrong.").decode()


def free_port() -> int:
    """A port of 127.0.0.1 that is free for TCP and for UDP."""
    while True:
        port = ports.free_port()
        with socket.socket(type=socket.SOCK_DGRAM) as datagrams, contextlib.suppress(OSError):
            datagrams.bind(("127.0.0.1", port))
            return port


def wait_until(is_so: Callable[[], bool], seconds: float = PATIENCE) -> bool:
    """Whether something becomes so within some seconds."""
    end = time.monotonic() + seconds
    while time.monotonic() < end:
        if is_so():
            return True
        time.sleep(0.05)
    return is_so()


def key_text(secret: str, name: str = "test.key") -> str:
    """A key file as `tsig-keygen` prints it."""
    return f'key "{name}" {{\n\talgorithm hmac-sha256;\n\tsecret "{secret}";\n}};\n'


class Process:
    """A process that is started by a test, with its output in a file."""

    def __init__(self, words: Sequence[str], log: pathlib.Path):
        self.words, self.log = [*words], log
        self.process: Optional[subprocess.Popen[bytes]] = None

    def start(self) -> None:
        with open(self.log, "ab") as file:
            self.process = subprocess.Popen(self.words, stdin=subprocess.DEVNULL, stdout=file, stderr=subprocess.STDOUT)

    def stop(self, number: int = signal.SIGTERM) -> None:
        if self.process:
            self.process.send_signal(number)
            try:
                self.process.wait(10)
            except subprocess.TimeoutExpired:
                self.process.kill()
                self.process.wait(10)
            self.process = None

    def text(self) -> str:
        """The end of what it has said."""
        return self.log.read_text(errors="replace")[-100_000:] if self.log.exists() else ""


def serial_at(port: int, apex: str) -> int:
    """The serial of a zone that is served, or -1."""
    done = subprocess.run(["dig", "-r", "@127.0.0.1", "-p", str(port), "+short", "+time=1", "+tries=1", "+tcp", apex,
                           "SOA"],
                          stdout=subprocess.PIPE, check=False)
    fields = done.stdout.split()
    return int(fields[2]) if len(fields) == 7 and fields[2].isdigit() else -1


def is_signed_at(port: int, apex: str) -> bool:
    """Whether a zone's SOA record comes with its signature."""
    done = subprocess.run(["dig", "-r", "@127.0.0.1", "-p", str(port), "+noall", "+answer", "+dnssec", "+time=1",
                           "+tries=1",
                           "+tcp", apex, "SOA"], stdout=subprocess.PIPE, check=False)
    return b"RRSIG\tSOA" in done.stdout


class Served:
    """What Knot and BIND have in common: a folder with zone files, and a process that serves them."""

    def __init__(self, folder: pathlib.Path, zones: dict[str, str], signed: Iterable[str], words: Sequence[str]):
        self.folder, self.port, self.notified = folder, free_port(), free_port()
        self.signed = {*signed}
        folder.mkdir(parents=True)
        folder.chmod(0o777)
        for apex, text in zones.items():
            self.write(apex, text)
        (folder / "conf").write_text(self.config(zones))
        self.process = Process([*words, str(folder / "conf")], folder / "log")

    def config(self, zones: Iterable[str]) -> str:
        raise NotImplementedError

    def start(self) -> bool:
        """Starts it, and says whether it serves, and signs, within some seconds."""
        self.process.start()
        return wait_until(lambda: serial_at(self.port, "example.com") >= 0) and all(
            wait_until(lambda: is_signed_at(self.port, apex)) for apex in self.signed)

    def write(self, apex: str, text: str) -> None:
        (self.folder / f"{apex}.zone").write_text(text)

    def change(self, apex: str, text: str) -> bool:
        """Writes another text of a zone, and waits until it is served."""
        before = serial_at(self.port, apex)
        self.write(apex, text)
        self.reload(apex)
        return wait_until(lambda: serial_at(self.port, apex) not in (before, -1))

    def reload(self, apex: str) -> None:
        raise NotImplementedError

    @property
    def at(self) -> str:
        return f"127.0.0.1@{self.port}"


class Knot(Served):
    """Knot, whose zones are open to all, keyed (`keyed.example`) or closed (`closed.example`), or signed."""

    def __init__(self, folder: pathlib.Path, zones: dict[str, str], signed: Iterable[str] = ()):
        super().__init__(folder, zones, signed, ["knotd", "-c"])

    def config(self, zones: Iterable[str]) -> str:
        return self.head() + "zone:\n" + "".join(f"""  - domain: {apex}
    file: {apex}.zone
    acl: {"keyed" if apex == "keyed.example" else "nobody" if apex == "closed.example" else "open"}
    notify: follower
    dnssec-signing: {"on" if apex in self.signed else "off"}
""" for apex in zones)

    def head(self) -> str:
        return f"""server:
    listen: 127.0.0.1@{self.port}
    rundir: {self.folder}
log:
  - target: stderr
    any: info
database:
    storage: {self.folder}
key:
  - id: test.key
    algorithm: hmac-sha256
    secret: {SECRET}
remote:
  - id: follower
    address: 127.0.0.1@{self.notified}
acl:
  - id: open
    address: 127.0.0.1
    action: transfer
  - id: keyed
    key: test.key
    action: transfer
  - id: nobody
    deny: on
template:
  - id: default
    storage: {self.folder}
    zonefile-sync: -1
    zonefile-load: difference-no-serial
    journal-content: all
    serial-policy: increment
policy:
  - id: default
    nsec3: on
"""

    def reload(self, apex: str) -> None:
        subprocess.run(["knotc", "-c", str(self.folder / "conf"), "zone-reload", apex], stdout=subprocess.DEVNULL,
                       stderr=subprocess.DEVNULL, check=False, timeout=30)


class Bind(Served):
    """BIND, which signs its zones, and is reloaded by a signal."""

    def __init__(self, folder: pathlib.Path, zones: dict[str, str], signed: Iterable[str] = ()):
        super().__init__(folder, zones, signed, ["named", "-g", "-c"])

    def config(self, zones: Iterable[str]) -> str:
        listed = "".join(f"""zone "{apex}" {{
    type primary;
    file "{self.folder}/{apex}.zone";
    allow-transfer {{ {"key test.key" if apex == "keyed.example" else "none" if apex == "closed.example" else "any"}; }};
    ixfr-from-differences yes;
    also-notify {{ 127.0.0.1 port {self.notified}; }};
    notify explicit;
    {'dnssec-policy default; inline-signing yes;' if apex in self.signed else ''}
}};
""" for apex in zones)
        return f"""{key_text(SECRET)}
options {{
    directory "{self.folder}";
    pid-file "{self.folder}/named.pid";
    session-keyfile "{self.folder}/session.key";
    listen-on port {self.port} {{ 127.0.0.1; }};
    listen-on-v6 {{ none; }};
    recursion no;
    dnssec-validation no;
    check-names primary ignore;
    notify-delay 0;
}};
controls {{ }};
{listed}"""

    def reload(self, apex: str) -> None:
        if self.process.process:
            self.process.process.send_signal(signal.SIGHUP)


# ---- a server of a few lines


def name(text: str) -> bytes:
    return b"".join(bytes([len(it)]) + it.encode() for it in text.rstrip(".").split(".") if it) + b"\0"


def record(owner: str, kind: int, data: bytes, ttl: int = 300, group: int = 1) -> bytes:
    return name(owner) + struct.pack(">HHIH", kind, group, ttl, len(data)) + data


def soa(apex: str, serial: int = 1, refresh: int = 3_600, retry: int = 2, expire: int = 86_400) -> bytes:
    return record(apex, 6,
                  name(f"ns.{apex}") + name(f"host.{apex}") + struct.pack(">5I", serial, refresh, retry, expire, 60))


def a(owner: str, text: str, ttl: int = 300, group: int = 1) -> bytes:
    return record(owner, 1, socket.inet_aton(text), ttl, group)


class Asked:
    """A question that came over TCP: its number, its octets, and the type that it asks for."""

    def __init__(self, octets: bytes):
        self.number, at = struct.unpack(">H", octets[:2])[0], 12
        while octets[at]:
            at += octets[at] + 1
        self.question, self.kind = octets[12:at + 5], struct.unpack(">H", octets[at + 1:at + 3])[0]

    def message(self, answers: Sequence[bytes], flags: int = 0x8400, number: int = 0) -> bytes:
        """A message with its length. The flags are those of an authoritative answer without a fault."""
        octets = struct.pack(">6H", self.number ^ number, flags, 1, len(answers), 0,
                             0) + self.question + b"".join(answers)
        return struct.pack(">H", len(octets)) + octets


class Scripted:
    """A server over TCP that sends what `reply` returns for a question, and closes the connection; None is silence."""

    def __init__(self, reply: Callable[[Asked], Optional[bytes]], place: tuple[str, int] = ("127.0.0.1", 0)):
        self.reply = reply
        self.asked: list[int] = []
        self.stream = socket.create_server(place)
        self.port = self.stream.getsockname()[1]
        self.thread = threading.Thread(target=self.serve, daemon=True)
        self.thread.start()

    @property
    def at(self) -> str:
        return f"127.0.0.1@{self.port}"

    def serve(self) -> None:
        while True:
            try:
                connection, _ = self.stream.accept()
            except OSError:
                return
            with connection, contextlib.suppress(OSError, struct.error, IndexError):
                connection.settimeout(5)
                length = struct.unpack(">H", connection.recv(2, socket.MSG_WAITALL))[0]
                asked = Asked(connection.recv(length, socket.MSG_WAITALL))
                self.asked.append(asked.kind)
                octets = self.reply(asked)
                if octets is not None:
                    connection.settimeout(600)
                    connection.sendall(octets)
                    connection.shutdown(socket.SHUT_WR)
                connection.recv(1)

    def close(self) -> None:
        with contextlib.suppress(OSError):
            self.stream.shutdown(socket.SHUT_RDWR)
        self.stream.close()
        self.thread.join(10)


@contextlib.contextmanager
def scripted(reply: Callable[[Asked], Optional[bytes]], *place: tuple[str, int]) -> Iterator[Scripted]:
    server = Scripted(reply, *place)
    try:
        yield server
    finally:
        server.close()
