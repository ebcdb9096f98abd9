"""`siplocd tell`, where the other end is a daemon, where it is none, and where it says nothing."""

from __future__ import annotations

import contextlib
import pathlib
import signal
import socket
import subprocess
import threading
import time
from typing import Callable, Iterator

from daemon_tests.support import PATIENCE, PROGRAM, Checks, started, test, until


def told(address: str, line: str = "stats", seconds: float = PATIENCE) -> tuple[int, bytes, str]:
    """The status of `siplocd tell`, and what it prints on standard output and error."""
    ran = subprocess.run([PROGRAM, "tell", address, line], capture_output=True, timeout=seconds, check=False)
    return ran.returncode, ran.stdout, ran.stderr.decode()


@contextlib.contextmanager
def peer(address: str, serve: Callable[[socket.socket], None]) -> Iterator[str]:
    """A server at a path, or where that is empty at a port, which serves each connection in a thread."""
    listener = socket.socket(socket.AF_UNIX) if address else socket.create_server(("127.0.0.1", 0))
    if address:
        listener.bind(address.removeprefix("unix:"))
        listener.listen(8)

    def run(stream: socket.socket) -> None:
        with contextlib.suppress(OSError), stream:
            serve(stream)

    def accept() -> None:
        with contextlib.suppress(OSError):
            while True:
                threading.Thread(target=run, args=(listener.accept()[0],), daemon=True).start()

    threading.Thread(target=accept, daemon=True).start()
    try:
        yield address or f"127.0.0.1:{listener.getsockname()[1]}"
    finally:
        with contextlib.suppress(OSError):
            listener.shutdown(socket.SHUT_RDWR)
        listener.close()


def replies(octets: bytes) -> Callable[[socket.socket], None]:
    """A server that sends this, whatever it is asked, and ends the connection."""
    def serve(stream: socket.socket) -> None:
        stream.recv(1 << 16)
        stream.sendall(octets)
    return serve


def echo(stream: socket.socket) -> None:
    while octets := stream.recv(1 << 16):
        stream.sendall(octets)


@test
def tell_has_a_status_for_each_reply(checks: Checks, folder: pathlib.Path) -> None:
    with started(checks, folder) as daemon:
        for line in "stats", "now", "zones", "holds", "page", "stats x", "stop":
            status, printed, said = told(daemon.control, line)
            lines = printed.decode().splitlines()
            checks.expect(lines and lines[-1].startswith(f"ok {line}" if line != "stats x" else "err K1"),
                          (line, printed))
            checks.equal((status, said), (int(line == "stats x"), ""), line)
        checks.equal(daemon.end(), (0, "closed 0"), "the end")


@test
def tell_takes_only_a_daemons_reply(checks: Checks, folder: pathlib.Path) -> None:
    page = b"HTTP/1.0 400 Bad Request\r\nContent-Type: text/html\r\n\r\n<html>ok no</html>\n"
    for place, (name, octets, word) in enumerate([
        ("a web server", page, "not the reply"), ("nothing", b"", "no reply"),
        ("no end of line", b"events 1\nok stats", "within a line"), ("the word alone", b"ok\n", "not the reply"),
        ("octets that are no text", b"\xff\xfe\n", "not the reply"), ("an empty line after it", b"ok stats\n\n", "not"),
        ("another word", b"okay stats\n", "not the reply"), ("another word", b"error: stats\n", "not the reply"),
        ("a session's reply", b"none NoAddress\n", "not the reply"),
        ("a long line", b"x" * 100_000 + b"ok stats\n", "not the reply"),
        ("a line that comes before", b"ok stats\n" + b"x" * 100_000 + b"\n", "not the reply"),
    ]):
        with peer(f"unix:{folder}/{place}" if place % 3 else "", replies(octets)) as address:
            status, printed, said = told(address)
        checks.equal((status, printed), (1, octets), name)
        checks.expect(said.startswith(f"siplocd: tell {address}: ") and said.count("\n") == 1 and word in said,
                      (name, said))
    with peer(f"unix:{folder}/echo", echo) as address:
        status, printed, said = told(address)
        checks.equal((status, printed), (1, b"stats\n"), "a server that echoes")
        checks.expect(said.startswith(f"siplocd: tell {address}: "), said)
    for octets, wanted in (b"events 1\nok stats\n", 0), (b"err Busy\n", 1), (b"x" * 100_000 + b"\nok stats\n", 0):
        with peer(f"unix:{folder}/other", replies(octets)) as address:
            checks.equal(told(address), (wanted, octets, ""), octets[-20:])
        (folder / "other").unlink()

    def slow(stream: socket.socket) -> None:
        stream.recv(1 << 16)
        for octet in b"events 1\nok stats\n":
            time.sleep(0.01)
            stream.sendall(bytes([octet]))

    with peer(f"unix:{folder}/slow", slow) as address:
        checks.equal(told(address), (0, b"events 1\nok stats\n", ""), "octet by octet")
    for address in "localhost:5098", "192.0.2.1:5098", "", "unix:", f"unix:{folder}/nobody", f"unix:{folder}":
        status, printed, said = told(address)
        checks.expect(status == 1 and not printed and said.startswith(f"siplocd: tell {address}: "),
                      (address, status, said))


@test
def tell_ends_where_the_reply_does_not(checks: Checks, folder: pathlib.Path) -> None:
    def endless(stream: socket.socket) -> None:
        while True:
            stream.sendall(b"events 1\nok stats\n" * 10_000)

    # (a gibibyte, and what a busy machine needs for it)
    with peer(f"unix:{folder}/peer", endless) as address:
        ran = subprocess.run([PROGRAM, "tell", address, "stats"], stdout=subprocess.DEVNULL, stderr=subprocess.PIPE,
                             timeout=10 * PATIENCE, text=True, check=False)
    checks.equal((ran.returncode, ran.stderr), (1, f"siplocd: tell {address}: a reply without end\n"), "status")


@test
def tell_gives_up_who_says_nothing(checks: Checks, folder: pathlib.Path) -> None:
    kept: list[socket.socket] = []

    def half(stream: socket.socket) -> None:
        kept.append(stream.dup())
        stream.sendall(b"events 1\nok stats\n")

    def stopping(stream: socket.socket) -> None:
        stream.recv(1 << 16)
        stream.sendall(b"ok stop\n")
        time.sleep(33)

    with contextlib.ExitStack() as stack:
        daemon = stack.enter_context(started(checks, folder))
        peers = [stack.enter_context(peer(address, serve)) for address, serve in (
            ("", lambda stream: kept.append(stream.dup())), (f"unix:{folder}/half", half),
            (f"unix:{folder}/stopping", stopping))]
        daemon.process.send_signal(signal.SIGSTOP)
        begin = time.monotonic()
        waiting = [(address, subprocess.Popen([PROGRAM, "tell", address, line], stdout=subprocess.PIPE,
                                              stderr=subprocess.PIPE, text=True))
                   for address in (daemon.control, *peers) for line in ("stats", "stop")]
        for address, process in waiting:
            stack.callback(process.kill)
            try:
                printed, said = process.communicate(timeout=30 + PATIENCE - (time.monotonic() - begin))
            except subprocess.TimeoutExpired:
                checks.expect(False, f"it waits for {address}")
                continue
            seconds = time.monotonic() - begin
            if address == peers[-1]:
                # The process has yet to end: that may take longer.
                checks.equal((process.returncode, printed, said), (0, "ok stop\n", ""), "after `ok stop`")
                checks.expect(seconds > 32, seconds)
                continue
            checks.equal((process.returncode, said), (1, f"siplocd: tell {address}: timed out\n"), address)
            checks.equal(printed, "events 1\nok stats\n" if address == peers[1] else "", address)
            checks.expect(seconds > 25, seconds)
        daemon.process.send_signal(signal.SIGCONT)
        # The stop was sent: it is carried out, though nobody waits for its reply.
        status, last = daemon.end()
        checks.expect(status == 0 and last.startswith("closed "), (status, last, daemon.said()))


@test
def tell_prints_on_no_connection(checks: Checks, folder: pathlib.Path) -> None:
    heard = b""

    def listen(stream: socket.socket) -> None:
        nonlocal heard
        stream.sendall(b"ok now 1\n")
        while octets := stream.recv(1 << 16):
            heard += octets

    with peer(f"unix:{folder}/peer", listen) as address:
        for closed in ">&-", "<&- >&- 2>&-":
            heard = b""
            ran = subprocess.run(["sh", "-c", f'exec "$0" "$@" {closed}', PROGRAM, "tell", address, "now"],
                                 timeout=PATIENCE, check=False)
            checks.equal(ran.returncode, 0, closed)
            checks.expect(until(lambda: heard.endswith(b"now\n")), heard)
            checks.equal(heard, b"now\n", closed)
