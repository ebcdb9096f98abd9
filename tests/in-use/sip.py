"""SIP servers of a few lines, and requests to a proxy, for tests."""

from __future__ import annotations

import contextlib
import itertools
import re
import socket
import ssl
import threading
import time
from typing import List, Optional, Tuple

COPIED = re.compile(rb"(?im)^(?:via|from|to|call-id|cseq|record-route):.*\r\n")
NUMBERS = itertools.count(1)


def reply_to(request: bytes, status: int, more: str = "") -> bytes:
    """A response without a body; `more` has further header fields, each with its line end."""
    copied = b"".join(COPIED.findall(request))
    if status > 100:
        copied = re.sub(rb"(?im)^(to:[^\r]*?)(;tag=[^\r]*)?\r\n", rb"\1;tag=t\r\n", copied)
    return b"SIP/2.0 %d Test\r\n%s%sContent-Length: 0\r\n\r\n" % (status, copied, more.encode(errors="surrogateescape"))


class Server:
    """A server at an address, over `udp`, `tcp` or `tls`. Its status may be changed; with None it is silent. An ACK
    has no reply."""

    def __init__(self, transport: str = "udp", host: str = "127.0.0.1", port: int = 0, status: Optional[int] = 200,
                 more: str = "", context: Optional[ssl.SSLContext] = None) -> None:
        self.transport, self.host, self.status, self.more, self.context = transport, host, status, more, context
        self.methods: List[str] = []
        self.last = b""
        if transport == "udp":
            self.socket = socket.socket(socket.AF_INET6 if ":" in host else socket.AF_INET, socket.SOCK_DGRAM)
            self.socket.bind((host, port))
        else:
            self.socket = socket.create_server((host, port), family=socket.AF_INET6 if ":" in host else socket.AF_INET)
        self.port: int = self.socket.getsockname()[1]
        serve = self.serve_datagrams if transport == "udp" else self.serve_streams
        self.thread = threading.Thread(target=serve, daemon=True)
        self.thread.start()

    def reply(self, request: bytes) -> bytes:
        """What it sends back, if it sends anything."""
        method = request.split(b" ", 1)[0].decode("latin-1")
        self.methods.append(method)
        self.last = request
        return b"" if self.status is None or method == "ACK" else reply_to(request, self.status, self.more)

    def serve_datagrams(self) -> None:
        with contextlib.suppress(OSError):
            while True:
                request, sender = self.socket.recvfrom(65_536)
                if not sender:
                    return
                reply = self.reply(request)
                if reply:
                    self.socket.sendto(reply, sender)

    def serve_streams(self) -> None:
        with contextlib.suppress(OSError):
            while True:
                stream, _ = self.socket.accept()
                threading.Thread(target=self.serve_stream, args=(stream,), daemon=True).start()

    def serve_stream(self, stream: socket.socket) -> None:
        """Requests without bodies, one after another."""
        with contextlib.suppress(OSError), stream:
            if self.context:
                stream = self.context.wrap_socket(stream, server_side=True)
            octets = b""
            while True:
                more = stream.recv(65_536)
                if not more:
                    return
                *requests, octets = (octets + more).split(b"\r\n\r\n")
                for it in requests:
                    stream.sendall(self.reply(it.lstrip(b"\r\n") + b"\r\n\r\n"))

    def close(self) -> None:
        with contextlib.suppress(OSError):
            self.socket.shutdown(socket.SHUT_RDWR)
        self.thread.join(5)
        self.socket.close()

    def __enter__(self) -> Server:
        return self

    def __exit__(self, *_: object) -> None:
        self.close()


def request(method: str, uri: str, here: str, number: int, tag: str = "", call: str = "", more: str = "") -> bytes:
    """A request of the client at an address; `tag` is that of To, `call` the Call-ID, and `more` has further header
    fields, each with its line end."""
    lines = [f"{method} {uri} SIP/2.0", f"Via: SIP/2.0/UDP {here};branch=z9hG4bKt{number}",
             f"From: <sip:alice@example.net>;tag={number}",
             f"To: <sip:bob@example.com>{f';tag={tag}' if tag else ''}",
             f"Call-ID: {call or f'{number}@{here}'}", f"Contact: <sip:alice@{here}>", "Max-Forwards: 70",
             f"CSeq: {number} {method}", f"{more}Content-Length: 0\r\n\r\n"]
    return "\r\n".join(lines).encode(errors="surrogateescape")


def final(port: int, uri: str, method: str = "INVITE", seconds: float = 8.0, tag: str = "", call: str = "",
          more: str = "") -> Tuple[bytes, float]:
    """The final response to a request over UDP to a port of 127.0.0.1, and after how many seconds it came; nothing
    where none comes. It is sent once, and an INVITE that has failed has its ACK. The other words are those of
    `request`."""
    number, start = next(NUMBERS), time.monotonic()
    with socket.socket(socket.AF_INET, socket.SOCK_DGRAM) as client:
        client.bind(("127.0.0.1", 0))
        here = f"127.0.0.1:{client.getsockname()[1]}"

        def send(method: str, tag: str) -> None:
            client.sendto(request(method, uri, here, number, tag, call, more), ("127.0.0.1", port))

        send(method, tag)
        reply, status = b"", 0
        while status < 200:
            client.settimeout(max(0.01, start + seconds - time.monotonic()))
            try:
                reply = client.recv(65_536)
            except socket.timeout:
                return b"", time.monotonic() - start
            status = status_of(reply)
        took = time.monotonic() - start
        if method == "INVITE" and status >= 300:
            given = re.search(rb"(?im)^to:[^\r]*;tag=([^;\r]+)", reply)
            send("ACK", given[1].decode() if given else tag)
        return reply, took


def status_of(reply: bytes) -> int:
    """The status of a response; 0 where there is none."""
    return int(reply.split(b" ", 2)[1]) if reply else 0


def ask(port: int, uri: str = "sip:bob@example.com", method: str = "INVITE", seconds: float = 8.0, **words: str
        ) -> Tuple[int, float]:
    """The status of what `final` has, or 0."""
    reply, took = final(port, uri, method, seconds, **words)
    return status_of(reply), took
