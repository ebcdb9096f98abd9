#!/usr/bin/env python3
"""Tests of the client against servers that they start: the program SIPLOC, and some that do what no server should.

    SIPLOC=PROGRAM clients/python/test_siploc.py [TEST..]      such as Sessions.test_draws

Replies are those of docs/use/FORMATS.md, and of the README's session. The last line is `N passed, M failed`.
"""

import contextlib
import errno
import http
import json
import math
import os
import pathlib
import pickle
import random
import re
import resource
import select
import signal
import socket
import struct
import subprocess
import sys
import tempfile
import threading
import time
import unittest
from unittest import mock

import siploc
from siploc import Ack, Deliver, Dependency, Exhausted, Hold, Resend, Send, Target

HERE = pathlib.Path(__file__).resolve().parent
TOP = HERE.parent.parent
TESTS = HERE.parent / "tests"
PROGRAM = os.environ.get("SIPLOC") or str(TOP / "crates/siploc/out/siploc")

FIRST, SECOND, THIRD = (Target("tcp", f"192.0.2.{n}", 5060) for n in (1, 2, 3))
ZONE = """\
@ NAPTR 50 50 "s" "SIPS+D2T" "" _sips._tcp
@ NAPTR 90 50 "s" "SIP+D2T" "" _sip._tcp
@ NAPTR 100 50 "s" "SIP+D2U" "" _sip._udp
_sip._tcp SRV 0 1 5060 server1
_sip._tcp SRV 0 2 5060 server2
server1 A 192.0.2.1
server2 A 192.0.2.2
"""


def free_port():
    """A port that nobody has, below those that the system gives to sockets without one."""
    while True:
        port = random.SystemRandom().randrange(16_384, 32_768)
        with socket.socket() as probe, contextlib.suppress(OSError):
            probe.bind(("127.0.0.1", port))
            return port


@contextlib.contextmanager
def full_queue():
    """The address of a Unix socket that has as many clients waiting as it takes, and the socket."""
    with tempfile.TemporaryDirectory() as folder, contextlib.ExitStack() as stack:
        listener = stack.enter_context(socket.socket(socket.AF_UNIX))
        listener.bind(f"{folder}/s")
        listener.listen(0)
        with contextlib.suppress(BlockingIOError):
            while True:
                client = stack.enter_context(socket.socket(socket.AF_UNIX))
                client.setblocking(False)
                client.connect(f"{folder}/s")
        yield f"unix:{folder}/s", listener


class Bound(socket.socket):
    """A socket that connects from the port to which it connects."""

    def connect(self, place):
        self.bind(place)
        super().connect(place)

    def connect_ex(self, place):
        self.bind(place)
        return super().connect_ex(place)


class Failing(socket.socket):
    """A socket that takes so many octets, and then fails to send."""

    def __init__(self, stream, size, fault):
        super().__init__(fileno=stream.detach())
        self.size, self.fault = size, fault

    def send(self, octets, flags=0):
        if not self.size:
            raise self.fault
        count = super().send(octets[:self.size], flags)
        self.size -= count
        return count


class Answering(socket.socket):
    """A socket to which another one replies once something is sent, and ends."""

    def __init__(self, stream, other, reply):
        super().__init__(fileno=stream.detach())
        self.other, self.reply = other, reply

    def send(self, octets, flags=0):
        count = super().send(octets, flags)
        self.other.sendall(self.reply)
        self.other.shutdown(socket.SHUT_WR)
        return count


def accept_all(listener):
    """Accepts two clients, and closes their connections."""
    for _ in range(2):
        listener.accept()[0].close()


@contextlib.contextmanager
def no_descriptors():
    """This process can open no more meanwhile."""
    limits = resource.getrlimit(resource.RLIMIT_NOFILE)
    resource.setrlimit(resource.RLIMIT_NOFILE, (3, limits[1]))
    try:
        yield
    finally:
        resource.setrlimit(resource.RLIMIT_NOFILE, limits)


def wait_for_octets(session):
    """Waits until something has come for a session, or its end."""
    select.select([session._stream], [], [], 20)


class Server:
    """`siploc serve` on a free port, for so many sessions; it is ended with the block."""

    def __init__(self, sessions=1, settings='transports = ["tcp", "udp"]'):
        self.port = free_port()
        self.address = f"127.0.0.1:{self.port}"
        text = f'{settings}\nlisten = "{self.address}"\nsessions = {sessions}\n'
        self.process = subprocess.Popen([PROGRAM, "serve", text], stdin=subprocess.DEVNULL, stdout=subprocess.PIPE)

    def __enter__(self):
        return self

    def __exit__(self, *_):
        if self.process.poll() is None:
            self.process.kill()
        self.process.communicate()

    def connect(self, address=None, timeout=30.0):
        """A session, as soon as the program listens."""
        end = time.monotonic() + 60
        while True:
            try:
                return siploc.connect(address or self.address, timeout)
            except siploc.NotConnected:
                if time.monotonic() > end:
                    raise
                time.sleep(0.025)

    def closed(self):
        """What the program prints at its end, after its last session."""
        output = self.process.communicate(timeout=30)[0].decode()
        return output, self.process.returncode


@contextlib.contextmanager
def fake(serve, count=1):
    """A server that calls `serve` with each of so many connections; its address, and what `serve` returned."""
    listener = socket.create_server(("127.0.0.1", 0))
    listener.settimeout(30)
    results = []

    def run():
        for _ in range(count):
            stream, _ = listener.accept()
            with stream:
                stream.settimeout(30)
                results.append(serve(stream))

    thread = threading.Thread(target=run)
    thread.start()
    try:
        yield f"127.0.0.1:{listener.getsockname()[1]}", results
    finally:
        thread.join(30)
        listener.close()


def read_lines(stream, count=1):
    """So many lines from a connection."""
    octets = b""
    while octets.count(b"\n") < count:
        octets += stream.recv(1 << 16) or b"\n" * count
    return octets


def until_end(stream):
    """All that comes from a connection until it ends."""
    octets = b""
    with contextlib.suppress(ConnectionResetError):
        while part := stream.recv(1 << 16):
            octets += part
    return octets


def end_of(stream):
    """How a connection ends."""
    try:
        while stream.recv(1 << 16):
            pass
    except ConnectionResetError:
        return "reset"
    return "end"


@contextlib.contextmanager
def relay(port, address):
    """Another address of the server at a port."""
    words = [sys.executable, str(TESTS / "relay.py"), str(port), address]
    with subprocess.Popen(words, stdin=subprocess.PIPE, stdout=subprocess.PIPE) as process:
        try:
            assert process.stdout.readline() == b"ready\n"
            yield
        finally:
            process.stdin.close()


def is_interrupted(call, functions, number):
    """Makes a call, and raises what a signal may before the line of this number of these functions; whether it has
    so many."""
    codes, left = [it.__code__ for it in functions], number

    def trace(frame, event, _):
        nonlocal left
        if frame.f_code not in codes:
            return None
        left -= event == "line"
        if event == "line" and left == 0:
            raise KeyboardInterrupt
        return trace

    before = sys.gettrace()
    sys.settrace(trace)
    try:
        call()
    except KeyboardInterrupt:
        pass
    finally:
        sys.settrace(before)
    return left <= 0


def unescape(text):
    """The octets of a field of replies.txt."""
    def octet(match):
        return {"n": "\n", "r": "\r", "\\": "\\"}.get(match[1]) or chr(int(match[1][1:], 16))
    return re.sub(r"\\(n|r|\\|x[0-9a-f]{2})", octet, text).encode("latin-1")


def rows_of_replies():
    """The rows of replies.txt: what the reply to a command is, the command and the reply."""
    return [text.split("\t") for text in (TESTS / "replies.txt").read_text().splitlines() if text[0] != "#"]


def commands_of(lines):
    """The commands of a session's lines: each a line, or a `zone` line with its text."""
    lines = iter(lines)
    for text in lines:
        fields = text.split()
        if fields and not text.startswith("#"):
            count = int(fields[2]) if fields[0] == "zone" else 0
            yield "\n".join([text, *(next(lines) for _ in range(count))])


class Sessions(unittest.TestCase):
    """Against the program."""

    def test_readme_session_in_a_batch(self):
        """The README's session, its lines in one batch: the replies are those of its output."""
        folder = TOP / "crates/siploc"
        *commands, last = commands_of((folder / "stdin").read_text().splitlines())
        self.assertEqual(last, "quit")
        with Server() as server:
            with server.connect() as session:
                lines = [text for reply in session.batch(commands) for text in reply.lines]
            self.assertEqual([*lines, "ok quit"], (folder / "stdout").read_text().splitlines())
            # Zone, hold, 2 clocks, 5 edits, 10 answers, and the hold of the call.
            self.assertEqual(server.closed(), ("closed 20\n", 0))

    def test_readme_session_by_methods(self):
        """The README's session by the methods: what they return is what its output says."""
        uri = "sip:bob@example.com"
        with Server() as server, server.connect() as session:
            def find():
                return list(session.find(uri, words=[2, 0]))

            self.assertEqual(session.load("example.com.", ZONE), (7, 0, 0, 4))
            self.assertEqual(find(), [SECOND, FIRST])
            session.hold(SECOND, 5000)
            self.assertEqual(find(), [FIRST])
            self.assertEqual(session.clock(5000), [])
            self.assertEqual(find(), [SECOND, FIRST])
            self.assertEqual(session.add("_sip._tcp.example.com. SRV 1 0 5060 server3.example.com."), 1)
            self.assertEqual(session.add("server3.example.com. A 192.0.2.3"), 1)
            self.assertEqual(find(), [SECOND, FIRST, THIRD])
            self.assertEqual(list(session.find("sip:server1.example.com:5070")), [("udp", "192.0.2.1", 5070)])
            self.assertEqual(session.remove("server1.example.com. A 192.0.2.1"), 1)
            self.assertIsNone(session.repair())
            self.assertEqual(session.deps("sip:server1.example.com:5070"), [
                Dependency("server1.example.com.", "A", 0), Dependency("server1.example.com.", "CNAME", 0),
                Dependency("server1.example.com.", "EXISTS", 0), Dependency("example.com.", "EXISTS", 1),
                Dependency("*.example.com.", "A", 0), Dependency("*.example.com.", "CNAME", 0)])
            self.assertEqual(find(), [SECOND, THIRD])
            self.assertEqual(session.add("server1.example.com. A 192.0.2.1"), 1)
            self.assertEqual(list(session.find("sip:192.0.2.9")), [("udp", "192.0.2.9", 5060)])
            answer = session.find("sip:x.example.com")
            self.assertEqual((answer.targets, answer.reason, bool(answer)), ([], "NoAddress", False))
            with self.assertRaises(siploc.Refused) as caught:
                session.add("SERVER1.example.com. A 192.0.2.1")
            self.assertEqual(caught.exception.code, "S3")
            opened = session.call("invite", 1, uri, words=[2, 0])
            self.assertEqual(list(opened), [Send(1, SECOND, "z9hG4bK0000000000000001.1")])
            self.assertEqual(session.got(1, 503, retry=10), [
                Ack(1), Hold(SECOND, 10000), Send(2, FIRST, "z9hG4bK0000000000000001.2")])
            self.assertEqual(session.got(2, 200), [Deliver(200)])
            self.assertEqual(find(), [FIRST, THIRD])
            self.assertEqual(session.clock(15000), [])
            self.assertEqual(find(), [SECOND, FIRST, THIRD])

    def test_other_methods(self):
        """What the README's session has not: tests/sessions/holds.txt, calls.txt and edits.txt."""
        with Server(settings="") as server, server.connect() as session:
            self.assertEqual(session.load("e.", ["a A 192.0.2.1\r\n", "a A 192.0.2.2\n", "b.f. A 192.0.2.1"]),
                             (2, 1, 0, 1))
            self.assertEqual(session.load("example.com.", []), (0, 0, 0, 0))
            self.assertEqual(session.drop("e."), 1)
            self.assertIsNone(session.hold(("sctp", "::1", 5060), 0))
            session.hold(("udp", "192.0.2.9", 5060), 1)
            self.assertEqual(session.find("sip:192.0.2.9").reason, "AllHeld")
            opened = session.call("invite", 7, "sip:192.0.2.9")
            self.assertEqual((list(opened), opened.reason), ([], "AllHeld"))
            self.assertIsNone(session.release(("udp", "192.0.2.9", 5060)))
            self.assertEqual(list(session.call("other", 2**64 - 1, "sip:192.0.2.9", seed=1)),
                             [Send(1, Target("udp", "192.0.2.9", 5060), "z9hG4bKffffffffffffffff.1")])
            self.assertEqual(session.clock(499), [])
            self.assertEqual(session.clock(500), [Resend(1)])
            self.assertEqual(session.broke(), [Hold(Target("udp", "192.0.2.9", 5060), 30000), Deliver(500),
                                               Exhausted()])

    def test_pages(self):
        """tests/sessions/serve.txt: a full journal, and room again; `closed` counts all pages."""
        with Server(settings="journal = 2") as server:
            with server.connect() as session:
                session.load("example.com.", "")
                session.add("server1.example.com. A 192.0.2.1")
                with self.assertRaises(siploc.Refused) as caught:
                    session.find("sip:server1.example.com:5060")
                self.assertEqual(caught.exception.code, "B3")
                page = session.page()
                self.assertEqual((page.first, page.events), (0, 2))
                self.assertEqual(list(session.find("sip:server1.example.com:5060")), [("udp", "192.0.2.1", 5060)])
                self.assertEqual([session.page(), session.page()], [(2, 1), (3, 0)])
            self.assertEqual(server.closed(), ("closed 3\n", 0))

    def test_draws(self):
        """A seed, as in tests/sessions/draws.txt; words that are given; and none."""
        zone = [f"_sip._tcp SRV {place // 4} {place % 4 + 1} 5060 {name}" for place, name in enumerate("abcd")]
        zone += ["_sip._tcp SRV 1 0 5060 e", *(f"{name} A 192.0.2.{n}" for n, name in enumerate("abcde", 1))]
        with Server() as server, server.connect() as session:
            session.load("example.com.", zone)
            words = [3795398737, 17903413, 3545275701, 194195274, 2326030198]
            for draws, order in (({}, "12345"), ({"words": []}, "12345"), ({"words": [0] * 32}, "12345"),
                                 ({"words": words}, "42135"), ({"seed": 1}, "42135"), ({"seed": 0}, "24315"),
                                 ({"seed": 2**64 - 1}, "14325")):
                answer = session.find("sip:example.com;transport=tcp", **draws)
                self.assertEqual("".join(target.address[-1] for target in answer), order)

    def test_each_refusal(self):
        """refusals.txt: each code once, by a batch; and each is an error with its meaning."""
        lines = (TESTS / "refusals.txt").read_text().splitlines()
        start = next(at for at, text in enumerate(lines) if text.startswith("$"))
        begin = next(at for at, text in enumerate(lines) if text.startswith("> "))
        settings = "\n".join(lines[start:begin - 1]).split("'", 1)[1]
        inputs = [text[2:] for text in lines[begin:] if text.startswith("> ")]
        wanted = [text for text in lines[begin:] if not text.startswith("> ")]
        with Server(settings=settings) as server:
            with server.connect() as session:
                replies = session.batch(commands_of(inputs))
            self.assertEqual([text for reply in replies for text in reply.lines] + ["closed 6"], wanted)
            self.assertEqual(server.closed(), ("closed 6\n", 0))
        refusals = [reply.refusal for reply in replies if reply.refusal]
        codes = [refusal.code for refusal in refusals]
        self.assertEqual(len(codes), len(set(codes)))
        left_out = re.findall(r"\b(?:[A-Z][0-9]|Memory|Busy)\b", "\n".join(lines[:start]))
        self.assertEqual(set(siploc.MEANINGS) - set(codes), set(left_out))
        for refusal in refusals:
            self.assertEqual(refusal.meaning, siploc.MEANINGS[refusal.code])
        self.assertEqual({refusal.code: refusal.line for refusal in refusals if refusal.line},
                         {"Z12": 2, "Z14": 2, "Z15": 33})

    def test_refusals_by_methods(self):
        """A refusal is raised, and the session goes on; a line may have 65,536 octets."""
        with Server() as server, server.connect() as session:
            for code, call in {
                    "N1": lambda: session.load("a..b", "a A 192.0.2.1"), "Z4": lambda: session.load("e.", "a A x"),
                    "Z2": lambda: session.add("a A"), "S2": lambda: session.drop("e."), "S4": lambda: session.remove(
                        "c.example.com. A 192.0.2.1"), "U1": lambda: session.find("tel:1"),
                    "V1": lambda: session.find("sip:a", words=[0] * 33), "U2": lambda: session.deps("sip:-"),
                    "A1": lambda: session.hold(("udp", "x", 1), 1), "O3": lambda: session.release(FIRST),
                    "O2": lambda: session.clock(2**52 + 1), "K1": lambda: session.call("x", 1, "sip:a"),
                    "K3": lambda: session.broke(), "K2": lambda: session.find("sip:" + "a" * 65_528),
                    "U7": lambda: session.find("sip:a;" + ";" * (65_536 - len("find sip:a;")))}.items():
                with self.subTest(code), self.assertRaises(siploc.Refused) as caught:
                    if code == "S4":
                        session.load("example.com.", ZONE)
                    call()
                self.assertEqual(caught.exception.code, code)
            self.assertEqual(list(session.find("sip:192.0.2.9")), [("udp", "192.0.2.9", 5060)])

    def test_refused_hold_of_a_call(self):
        """tests/sessions/calls.txt: a hold that is refused has its step all the same."""
        with Server(settings="holds = 0") as server, server.connect() as session:
            session.load("example.com.", "a A 192.0.2.1\na A 192.0.2.2")
            session.call("invite", 1, "sip:a.example.com:5060")
            with self.assertRaises(siploc.Refused) as caught:
                session.got(1, 503, retry=10)
            self.assertEqual(caught.exception.code, "O4")
            self.assertEqual(caught.exception.steps, [
                Ack(1), Hold(Target("udp", "192.0.2.1", 5060), 10000),
                Send(2, Target("udp", "192.0.2.2", 5060), "z9hG4bK0000000000000001.2")])

    def test_20_000_finds_in_batches(self):
        """Each reply is that of its own question."""
        with Server() as server:
            with server.connect() as session:
                session.load("example.com.", (f"s{n} A 10.0.{n // 256}.{n % 256}" for n in range(1000)))
                for start in range(0, 20_000, 10_000):
                    places = range(start, start + 10_000)
                    replies = session.batch(f"find sip:s{n % 1000}.example.com:{n % 65_535 + 1}" for n in places)
                    self.assertEqual([reply.lines for reply in replies], [
                        [f"target 1 udp 10.0.{n % 1000 // 256}.{n % 1000 % 256} {n % 65_535 + 1}", "ok find 1"]
                        for n in places])
            self.assertEqual(server.closed(), ("closed 20001\n", 0))

    def test_batch_of_more_than_the_sockets_hold(self):
        """20,000 finds of 32 targets each, sent at once: more than both sockets hold, on either way."""
        with Server() as server:
            with server.connect() as session:
                session.load("e.", (f"a A 192.0.2.{n}" for n in range(32)))
                padding = "x" * 400
                replies = session.batch([f"find sip:{padding}@a.e:5060"] * 20_000)
            self.assertEqual(len(replies), 20_000)
            wanted = [Target("udp", f"192.0.2.{n}", 5060) for n in range(32)]
            for reply in replies[::100]:
                self.assertEqual(reply.answer.targets, wanted)
            self.assertEqual(server.closed(), ("closed 20001\n", 0))

    def test_server_that_ends_in_the_midst(self):
        """A server is killed in a batch: what came is right, and what was sent is known."""
        for pause in (0.02, 0.1, 0.2):
            with Server() as server:
                session = server.connect()
                session.load("e.", "a A 192.0.2.1")
                timer = threading.Timer(pause, server.process.kill)
                timer.start()
                with self.assertRaises(siploc.SessionBroken) as caught:
                    session.batch(["find sip:a.e:5070"] * 150_000)
                timer.join()
                error = caught.exception
                self.assertLess(len(error.replies), 150_000)
                self.assertLessEqual(len(error.replies), error.sent)
                self.assertEqual(error.may_be_done, error.sent > len(error.replies))
                self.assertTrue(all(reply.lines == ["target 1 udp 192.0.2.1 5070", "ok find 1"]
                                    for reply in error.replies))
                self.assertFalse(session.is_open)
                with self.assertRaises(siploc.NotConnected):
                    session.find("sip:a.e:5070")
                with self.assertRaises(siploc.NotConnected):
                    siploc.connect(server.address)

    def test_other_addresses(self):
        """A Unix socket, ::1 and localhost, by a relay: a session, a batch over them, and their end."""
        with tempfile.TemporaryDirectory() as folder, Server(sessions=4) as server:
            port = free_port()
            place = f"unix:{folder}/socket"
            for listens, address in ((place, place), (f"[::1]:{port}", f"[::1]:{port}"),
                                     (f"[::1]:{port}", f"localhost:{port}"),
                                     (None, f"localhost:{server.port}")):
                listener = relay(server.port, listens) if listens else contextlib.nullcontext()
                with listener, server.connect(address) as session:
                    session.load("e.", (f"a A 192.0.2.{n}" for n in range(32)))
                    replies = session.batch(["find sip:a.e:5060"] * 5_000)
                    self.assertEqual({len(reply.answer) for reply in replies}, {32})
            self.assertEqual(server.closed(), ("closed 20004\n", 0))

    def test_client_that_is_killed_in_a_zone(self):
        """Half a zone of a client that was killed is not loaded, and half a line not carried out."""
        with Server(sessions=3) as server, server.connect() as session:
            session.load("e.", "a A 192.0.2.1\na A 192.0.2.2")
            for text in ("zone e. 1000000\\n" + "b A 192.0.2.1\\n" * 5, "del a.e. A 192.0.2.1"):
                script = ("import sys, os, signal; sys.path.insert(0, sys.argv[1]); import siploc\n"
                          "session = siploc.connect(sys.argv[2])\n"
                          f"session._stream.sendall(b'{text}')\n"
                          "os.kill(os.getpid(), signal.SIGKILL)")
                killed = subprocess.run([sys.executable, "-c", script, str(HERE), server.address])
                self.assertEqual(killed.returncode, -signal.SIGKILL)
            session.find("sip:192.0.2.9")
            time.sleep(0.3)
            self.assertEqual(len(session.find("sip:a.e:5060")), 2)

    def test_example(self):
        with Server() as server:
            for _ in range(400):
                ran = subprocess.run([sys.executable, str(HERE / "example.py"), server.address], capture_output=True,
                                     text=True, timeout=30)
                if "refused" not in ran.stderr:
                    break
                time.sleep(0.025)
            self.assertEqual((ran.stdout, ran.stderr, ran.returncode), (
                "try udp 192.0.2.1 5070\ntry udp 192.0.2.2 5070\nthen AllHeld\n", "", 0))
            self.assertEqual(server.closed(), ("closed 5\n", 0))


class Faults(unittest.TestCase):
    """Against servers that do what they should not, and without any."""

    def test_replies(self):
        """replies.txt: what is a reply of the protocol, and what is not."""
        for kind, command, reply in rows_of_replies():
            octets = unescape(reply)

            def serve(stream):
                read_lines(stream, 1 + command.count("\\n"))
                stream.sendall(octets)
                with contextlib.suppress(OSError):
                    stream.shutdown(socket.SHUT_WR)
                return until_end(stream)

            with self.subTest(kind=kind, command=command, reply=reply), fake(serve) as (address, _):
                session = siploc.connect(address, timeout=10)
                try:
                    got = session.batch([unescape(command).decode()])[0]
                    seen = got.refusal.code if got.refusal else "good"
                    if got.refusal:
                        self.assertEqual(got.counts, [])
                    self.assertEqual("".join(f"{text}\n" for text in got.lines).encode(), octets)
                    self.assertTrue(session.is_open)
                except siploc.SessionBroken as error:
                    seen = {siploc.ConnectionLost: "lost", siploc.HalfReply: "half",
                            siploc.BadReply: "bad"}[type(error)]
                    self.assertFalse(session.is_open)
                    self.assertTrue(error.may_be_done or error.replies)
                finally:
                    session.close()
                self.assertEqual(seen, kind)

    def test_changed_replies(self):
        """changed.py: each octet of each reply changed in turn. What is none is not taken, and ends the session."""
        printed = subprocess.run([sys.executable, TESTS / "changed.py"], check=True, stdout=subprocess.PIPE, text=True)
        rows = [text.split("\t") for text in printed.stdout.splitlines()]
        for kind, command, reply in rows:
            octets = unescape(reply)
            ours, other = socket.socketpair()
            with self.subTest(kind=kind, command=command, reply=reply), other:
                session = siploc.Session(Answering(ours, other, octets), 10)
                try:
                    got = session.batch([unescape(command).decode()])[0]
                    seen = got.refusal.code if got.refusal else "good"
                    self.assertEqual("".join(f"{text}\n" for text in got.lines).encode(), octets)
                except siploc.HalfReply:
                    seen = "half"
                except siploc.BadReply:
                    seen = "bad"
                self.assertEqual((seen, session.is_open), (kind, kind not in ("half", "bad")))
                session._end()
        self.assertGreater(len(rows), 5_000)

    def test_cut_at_each_octet(self):
        """A reply that is cut at any octet, as the connection ends or is reset, is told as half a reply, or as none."""
        for kind, command, reply in rows_of_replies():
            octets = unescape(reply)
            cuts = [(at, is_reset) for at in range(len(octets)) for is_reset in (False, True)] if kind == "good" else []
            served = iter(cuts)

            def serve(stream):
                at, is_reset = next(served)
                read_lines(stream, 1 + command.count("\\n"))
                if is_reset:
                    stream.setsockopt(socket.SOL_SOCKET, socket.SO_LINGER, struct.pack("ii", 1, 0))
                stream.sendall(octets[:at])

            with fake(serve, len(cuts)) as (address, _):
                for at, is_reset in cuts:
                    session = siploc.connect(address, timeout=10)
                    start = time.monotonic()
                    with self.subTest(reply=reply, at=at), self.assertRaises(siploc.SessionBroken) as caught:
                        session.batch([unescape(command).decode()])
                    self.assertLess(time.monotonic() - start, 5)
                    # (what came before a reset may be lost with it)
                    halves = [siploc.HalfReply] if at and not is_reset else [siploc.ConnectionLost,
                                                                             siploc.HalfReply][:1 + at]
                    self.assertIn(type(caught.exception), halves)
                    self.assertEqual((session.is_open, caught.exception.may_be_done), (False, True))

    def test_silent_after_each_octet(self):
        """A server that sends no more after any octet of a reply: the time runs out."""
        octets, ended = b"target 1 udp 192.0.2.1 5060\nok find 1\n", threading.Event()

        def serve(stream):
            read_lines(stream)
            stream.sendall(octets[:next(served)])
            ended.wait(20)
            ended.clear()

        served = iter(range(len(octets)))
        with fake(serve, len(octets)) as (address, _):
            for at in range(len(octets)):
                session = siploc.connect(address, timeout=0.05)
                with self.subTest(at=at), self.assertRaises(siploc.TimedOut):
                    session.find("sip:a")
                ended.set()

    def test_what_a_refused_find_names(self):
        """L1 names the set that changed; a code that is not known is a refusal all the same."""
        def serve(stream):
            read_lines(stream, 2)
            stream.sendall(b"err L1 a.example.com. EXISTS\nerr Q9\n")

        with fake(serve) as (address, _):
            session = siploc.connect(address)
            changed, unknown = (reply.refusal for reply in session.batch(["find sip:a"] * 2))
            self.assertEqual((changed.code, changed.changed), ("L1", ("a.example.com.", "EXISTS")))
            self.assertEqual(unknown.meaning, "a code that this client does not know")
            session.close()

    def test_garbage_without_end(self):
        """A line, and a reply, that never end are no replies."""
        for octets in (b"x" * 1_000_000, b"target 1 udp 192.0.2.1 5060\n" * 100_000, b"dep a. A 1\n" * 100_000):
            def serve(stream):
                read_lines(stream)
                with contextlib.suppress(OSError):
                    stream.sendall(octets)
                return until_end(stream)

            with fake(serve) as (address, _):
                session = siploc.connect(address, timeout=20)
                command = "deps sip:a" if octets.startswith(b"dep") else "find sip:a"
                with self.assertRaises(siploc.BadReply):
                    session.batch([command])

    def test_invalid_commands_are_not_sent(self):
        """What would break the protocol is refused before it is sent, and the session goes on."""
        with fake(until_end) as (address, received):
            session = siploc.connect(address)
            for text in ("", " ", "\t", "#", "# find sip:a", "quit", " quit\t", "find sip:a\n", "find sip:a\nquit",
                         "find sip:a\r", "add a.e. A 192.0.2.1\rx", "zone e. 1", "zone e. 0\nfind sip:a",
                         "zone e. 2\na A 192.0.2.1", "zone e. 1048577\na", "zone e.\na", "zone e. 1\na\r",
                         "zone " + "a" * 65_536 + " 1\na", "zone e. " + "0" * 30 + "1"):
                with self.subTest(text=text[:40]), self.assertRaises(siploc.InvalidCommand) as caught:
                    session.batch(["find sip:a", text])
                self.assertEqual((caught.exception.place, pickle.loads(pickle.dumps(caught.exception)).place), (1, 1))
            for call in (lambda: session.find("sip:a seed 1"), lambda: session.find("sip:a\tseed"),
                         lambda: session.find(""), lambda: session.find("sip:a\nquit"),
                         lambda: session.find("sip:a", words=[1], seed=1), lambda: session.deps("sip:a\r"),
                         lambda: session.add("a.e. A 192.0.2.1\ndel a.e. A 192.0.2.1"),
                         lambda: session.remove("a.e. A 192.0.2.1\r"), lambda: session.drop("e. f."),
                         lambda: session.load("e. 0", ""), lambda: session.load("e.\n", ""),
                         lambda: session.load("e.", ["a A 192.0.2.1\nb A 192.0.2.1"]),
                         lambda: session.load("e.", "a A\r192.0.2.1"), lambda: session.hold(("udp", "a b", 1), 1),
                         lambda: session.release(("udp", "", 1)), lambda: session.call("invite x", 1, "sip:a"),
                         lambda: session.find("sip:a", words=[2**32]), lambda: session.find("sip:a", seed=2**64),
                         lambda: session.hold(FIRST, 10**5000), lambda: session.clock(-1),
                         lambda: session.call("invite", 2**64, "sip:a"), lambda: session.got(2**32, 200),
                         lambda: session.got(1, 2**16), lambda: session.got(1, 503, retry=2**32)):
                with self.assertRaises(siploc.InvalidCommand) as caught:
                    call()
                self.assertIsNone(caught.exception.place)
            for call in (lambda: session.clock("1\nquit"), lambda: session.find("sip:a", words=["1 2"]),
                         lambda: session.find(b"sip:a"), lambda: session.find(None), lambda: session.drop(b"e."),
                         lambda: session.load(b"e.", ""), lambda: session.hold(("udp", None, 5060), 1),
                         lambda: session.add(b"a.e. A 192.0.2.1"), lambda: session.remove(None),
                         lambda: session.batch("repair")):
                with self.assertRaises(TypeError):
                    call()
            self.assertTrue(session.is_open)
            session._stream.shutdown(socket.SHUT_WR)
        self.assertEqual(received, [b""])

    def test_what_is_sent(self):
        """The octets of each method, as docs/use/FORMATS.md has the lines."""
        def serve(stream):
            for reply in (b"ok zone 2 0 0 1\n", b"ok drop 1\n", b"ok hold\n", b"ok release\n", b"ok add 1\n",
                          b"ok del 1\n", b"none NoAddress\n", b"none NoAddress\n", b"none NoAddress\n", b"ok deps 0\n",
                          b"ok repair\n", b"ok page 3 0\n", b"ok clock 7\n", b"none NoAddress\n", b"ok got\n",
                          b"ok got\n",
                          b"ok broke\n"):
                received.append(read_lines(stream, 3 if b"zone" in reply else 1))
                stream.sendall(reply)
            return read_lines(stream)

        received = []
        with fake(serve) as (address, last):
            with siploc.connect(address) as session:
                session.load("e.", "a A 192.0.2.1\r\na A 192.0.2.2\n")
                session.drop("e.")
                session.hold(FIRST, 5000)
                session.release(FIRST)
                session.add("a.e. A 192.0.2.1")
                session.remove("a.e. TXT \u00e9\udcff")
                session.find("sip:a")
                session.find("sip:a", words=[2, 0])
                session.find("sip:a", seed=42)
                session.deps("sip:a")
                session.repair()
                self.assertEqual(session.page(), (3, 0))
                session.clock(7)
                session.call("invite", 1, "sip:a", seed=0)
                session.got(1, http.HTTPStatus.OK)
                session.got(2, 503, retry=False)
                session.broke()
        self.assertEqual(received, [
            b"zone e. 2\na A 192.0.2.1\na A 192.0.2.2\n", b"drop e.\n", b"hold tcp 192.0.2.1 5060 5000\n",
            b"release tcp 192.0.2.1 5060\n", b"add a.e. A 192.0.2.1\n", b"del a.e. TXT \xc3\xa9\xff\n", b"find sip:a\n",
            b"find sip:a words 2,0\n", b"find sip:a seed 42\n", b"deps sip:a\n", b"repair\n", b"page\n", b"clock 7\n",
            b"call invite 1 sip:a seed 0\n", b"got 1 200\n", b"got 2 503 retry 0\n", b"broke\n"])
        self.assertEqual(last, [b"quit\n"])

    def test_replies_in_pieces(self):
        """A reply comes one octet at a time."""
        def serve(stream):
            stream.setsockopt(socket.IPPROTO_TCP, socket.TCP_NODELAY, 1)
            read_lines(stream)
            for octet in b"target 1 udp 192.0.2.1 5060\nok find 1\nnone AllHeld\n":
                stream.sendall(bytes([octet]))
                time.sleep(0.001)

        with fake(serve) as (address, _):
            session = siploc.connect(address)
            found, held = session.batch(["find sip:a", "find sip:b"])
            self.assertEqual((found.answer.targets, held.answer.reason), ([("udp", "192.0.2.1", 5060)], "AllHeld"))
            session.close()

    def test_lost_before_and_after(self):
        """A session that the server has closed: a line that is sent later was not done; one that was read may be."""
        with fake(lambda stream: None) as (address, _):
            session = siploc.connect(address)
            wait_for_octets(session)
            with self.assertRaises(siploc.ConnectionLost) as caught:
                session.add("a.e. A 192.0.2.1")
            self.assertIs(type(caught.exception), siploc.ConnectionLost)
            self.assertEqual((caught.exception.may_be_done, caught.exception.sent), (False, 0))
        for serve in (read_lines, lambda stream: stream.recv(1)):
            with fake(serve) as (address, _):
                session = siploc.connect(address)
                with self.assertRaises(siploc.ConnectionLost) as caught:
                    session.add("a.e. A 192.0.2.1")
                self.assertTrue(caught.exception.may_be_done)

    def test_refused_session(self):
        """A server that refuses a session says so before any command, or in place of the first reply."""
        def serve(stream):
            if is_late:
                read_lines(stream)
            stream.sendall(b"err Busy\n")

        for is_late, commands in ((False, 1), (True, 1), (True, 3)):
            with self.subTest(is_late=is_late, commands=commands), fake(serve) as (address, _):
                session = siploc.connect(address)
                if not is_late:
                    wait_for_octets(session)
                with self.assertRaises(siploc.Refused) as caught:
                    session.batch(["add a.e. A 192.0.2.1"] * commands)[0].check()
                self.assertEqual((caught.exception.code, caught.exception.command), ("Busy", "(the session)"))
                self.assertFalse(session.is_open)

    def test_reply_before_its_command(self):
        """A reply to a zone of which lines are still to be sent: what was sent next would be taken for them."""
        def serve(stream):
            stream.recv(1)
            stream.sendall(b"ok zone 1 0 0 1\n")
            done.wait(20)

        done = threading.Event()
        with fake(serve) as (address, _):
            session = siploc.connect(address, timeout=5)
            with self.assertRaises(siploc.BadReply) as caught:
                session.load("e.", ["x" * 60_000] * 1_000)
            done.set()
            self.assertEqual((session.is_open, caught.exception.sent), (False, 1))

    def test_timeouts(self):
        """No reply, a reply that comes too slowly, and a server that takes nothing."""
        done = threading.Event()

        def slow(stream):
            with contextlib.suppress(OSError):
                while not done.wait(0.05):
                    stream.sendall(b"t")

        for serve, commands, sent in ((lambda stream: done.wait(20), ["find sip:a"], 1), (slow, ["find sip:a"], None),
                                      (lambda stream: done.wait(20), ["find sip:" + "a" * 60_000] * 1_000, None)):
            done.clear()
            with fake(serve) as (address, _):
                session = siploc.connect(address, timeout=0.4)
                start = time.monotonic()
                with self.assertRaises((siploc.TimedOut, siploc.BadReply)) as caught:
                    session.batch(commands)
                self.assertLess(time.monotonic() - start, 15)
                done.set()
                self.assertTrue(caught.exception.may_be_done)
                if sent:
                    self.assertIs(type(caught.exception), siploc.TimedOut)
                    self.assertGreaterEqual(time.monotonic() - start, 0.4)
                self.assertLess(caught.exception.sent, 1_000)
                self.assertFalse(session.is_open)

    def test_addresses(self):
        """What is no address, and one that nobody listens at."""
        for address in ("", "127.0.0.1", "localhost", "localhost:0", "localhosts:5099", "192.0.2.1:5099",
                        "[2001:db8::1]:5099", "127.0.0.1:0",
                        "127.0.0.1:65536", "127.0.0.1:x", "::1:5099", "unix:", "unix:" + "x" * 108, "[127.0.0.1]:5099", "[]:5099",
                        "300.0.0.1:1", "[::ffff:127.0.0.1]:5099", "[::1%lo]:5099"):
            with self.subTest(address), self.assertRaises(siploc.InvalidCommand):
                siploc.connect(address)
        for address in (f"127.0.0.1:{free_port()}", f"[::1]:{free_port()}", f"localhost:{free_port()}",
                        "unix:/nonexistent/socket"):
            with self.subTest(address), self.assertRaises(siploc.NotConnected) as caught:
                siploc.connect(address)
            self.assertIn(address, str(caught.exception))

    def test_ports_with_leading_zeros(self):
        """A port is a number, which may have leading zeros."""
        for host in ("127.0.0.1", "localhost"):
            with fake(until_end) as (address, _):
                port = address.split(":")[1]
                siploc.connect(f"{host}:{port:0>12}", 5)._end()
        for port in ("0" * 12, "0" * 12 + "65536", "", "+5099", "5 099", "\u0665099"):
            with self.subTest(port), self.assertRaises(siploc.InvalidCommand):
                siploc.connect(f"127.0.0.1:{port}")

    def test_connection_with_itself(self):
        """Where nobody listens, the system may choose the port itself for the client, which is then its own server."""
        with mock.patch("socket.socket", Bound):
            for address in (f"127.0.0.1:{free_port()}", f"[::1]:{free_port()}"):
                with self.assertRaises(siploc.NotConnected) as caught:
                    siploc.connect(address, 5)
                self.assertIsInstance(caught.exception.__cause__, ConnectionRefusedError)

    def test_full_queue(self):
        """A Unix socket that has as many clients waiting as it takes is waited for, as long as is given."""
        with full_queue() as (address, listener):
            start = time.monotonic()
            with self.assertRaises(siploc.NotConnected):
                siploc.connect(address, 0.3)
            self.assertTrue(0.3 <= time.monotonic() - start < 10)
            threading.Timer(0.3, accept_all, [listener]).start()
            session = siploc.connect(address, 20)
            self.assertTrue(session.is_open)
            session._end()

    def test_threads(self):
        """Threads may share a session: each has the replies to its own commands, also where another one closes it."""
        def serve(stream):
            with contextlib.suppress(OSError):
                for text in stream.makefile():
                    port = text.rpartition(":")[2].strip()
                    found = f"target 1 udp 192.0.2.1 {port}\nok find 1\n"
                    stream.sendall(b"ok quit\n" if text == "quit\n" else found.encode())

        wrong = []

        def ask(session, first):
            try:
                for port in range(first, first + 300):
                    if [it.port for it in session.find(f"sip:192.0.2.1:{port}")] != [port]:
                        wrong.append(port)
            except siploc.NotConnected:
                wrong.append("ended")

        for is_closed in (False, True):
            with fake(serve) as (address, _):
                session = siploc.connect(address)
                threads = [threading.Thread(target=ask, args=(session, 1_000 * number)) for number in range(1, 9)]
                for thread in threads:
                    thread.start()
                if is_closed:
                    session.close()
                for thread in threads:
                    thread.join()
                session.close()
            self.assertEqual({*wrong}, {"ended"} if is_closed else set())

    def test_fork(self):
        """The child of a fork sends nothing in its parent's session, nor ends it."""
        def serve(stream):
            stream.sendall(b"ok repair\n" if read_lines(stream) == b"repair\n" else b"err K1\n")
            return read_lines(stream)

        with fake(serve) as (address, last):
            session = siploc.connect(address)
            child = os.fork()
            if not child:
                status = 1
                try:
                    session.find("sip:a")
                except siploc.NotConnected:
                    status = int(session.is_open)
                finally:
                    session.close()
                    os._exit(status)
            self.assertEqual(os.waitpid(child, 0)[1], 0)
            session.repair()
            with contextlib.suppress(siploc.Error):
                session.close()
        self.assertEqual(last, [b"quit\n"])

    def test_fork_within_a_call(self):
        """The child does not wait for a call that another thread of its parent makes."""
        ends = socket.socketpair()
        with ends[1]:
            session = siploc.Session(ends[0], 30)
            thread = threading.Thread(target=session.repair)
            thread.start()
            self.assertEqual(ends[1].recv(100), b"repair\n")
            child = os.fork()
            if not child:
                status = 1
                try:
                    signal.alarm(10)
                    session.find("sip:a")
                except siploc.NotConnected:
                    session.close()
                    status = 0
                finally:
                    os._exit(status)
            self.assertEqual(os.waitpid(child, 0)[1], 0)
            ends[1].sendall(b"ok repair\n")
            thread.join()
            self.assertTrue(session.is_open)
            session._end()

    def test_errors_of_other_processes(self):
        """An error that was pickled, as by a pool of processes, is the same."""
        for error in (siploc.Refused("Z4", "zone e. 2", line=2), siploc.Refused("O4", "got 1 503", steps=[Ack(1)]),
                      siploc.TimedOut("none", [siploc.Reply("repair", ["ok repair"])], 2),
                      siploc.NotConnected("nobody")):
            copy = pickle.loads(pickle.dumps(error))
            self.assertIs(type(copy), type(error))
            self.assertEqual(str(copy), str(error))
            self.assertEqual([repr(it) for it in copy.__dict__.items()], [repr(it) for it in error.__dict__.items()])

    def test_session_that_is_closed_as_it_sends(self):
        """The handler of a signal closes the session before the rest of a batch is sent."""
        class Stream(socket.socket):
            def send(self, octets, flags=0):
                if sent:
                    session.close()
                sent.append(len(octets))
                return super().send(octets, flags)

        sent, ends = [], socket.socketpair()
        with ends[1]:
            threading.Timer(0.2, ends[1].recv, [1 << 20]).start()
            session = siploc.Session(Stream(fileno=ends[0].detach()), 20)
            with self.assertRaises(siploc.ConnectionLost) as caught:
                session.batch(["find sip:" + "a" * 60_000] * 100)
        self.assertEqual((caught.exception.may_be_done, session.is_open), (True, False))

    def test_send_that_fails(self):
        """A connection that takes no more, as for want of buffers: what is due is read, and then the cause told."""
        for size, replied, sent in ((0, 0, 0), (7, 1, 1), (10, 1, 2), (14, 2, 2)):
            ours, other = socket.socketpair()
            with self.subTest(size=size), other:
                if replied:
                    threading.Timer(0.2, other.sendall, [b"ok repair\n" * replied]).start()
                session = siploc.Session(Failing(ours, size, OSError(errno.ENOBUFS, "no buffers")), 20)
                start = time.monotonic()
                with self.assertRaisesRegex(siploc.ConnectionLost, "no buffers") as caught:
                    session.batch(["repair"] * 3)
                self.assertIs(type(caught.exception), siploc.ConnectionLost)
                self.assertEqual((len(caught.exception.replies), caught.exception.sent), (replied, sent))
                self.assertLess(time.monotonic() - start, 10)

    def test_signal_as_it_sends(self):
        """What a signal's handler raises to bound a call's time is raised as it is, also while octets are sent."""
        ours, other = socket.socketpair()
        with other:
            session = siploc.Session(Failing(ours, 0, TimeoutError("too long")), 1)
            with self.assertRaisesRegex(TimeoutError, "^too long$"):
                session.repair()
            self.assertFalse(session.is_open)

    def test_connection_that_is_given(self):
        """A TCP connection that was there is reset too: of a zone that is cut the server would take a part."""
        ends = []
        with fake(lambda stream: ends.append(end_of(stream))) as (address, _):
            host, port = address.split(":")
            session = siploc.Session(socket.create_connection((host, int(port))), 0.2)
            with self.assertRaises(siploc.TimedOut):
                session.load("e.", ["a A 192.0.2.1"])
        self.assertEqual(ends, ["reset"])

    def test_long_timeouts(self):
        """A time that is longer than the system's calls take."""
        for timeout in (1e7, 1e12, math.inf):
            with fake(lambda stream: [read_lines(stream), stream.sendall(b"ok repair\n")]) as (address, _):
                session = siploc.connect(address, timeout)
                session.repair()
                session._end()

    def test_call_within_a_call(self):
        """What a signal calls while a call is being made is refused, and the call goes on; it may be closed."""
        def serve(stream):
            with contextlib.suppress(OSError):
                for _ in range(2):
                    stream.recv(100)
                    os.kill(os.getpid(), signal.SIGUSR1)
                    time.sleep(0.2)
                    stream.sendall(b"ok repair\n")

        said = []

        def call(*_):
            try:
                said.append(session.find("sip:a"))
            except siploc.InvalidCommand:
                said.append("refused")

        before = signal.signal(signal.SIGUSR1, call)
        try:
            with fake(serve) as (address, _):
                session = siploc.connect(address)
                session.repair()
                self.assertEqual(said, ["refused"])
                signal.signal(signal.SIGUSR1, lambda *_: session.close())
                with self.assertRaises(siploc.SessionBroken):
                    session.repair()
                self.assertFalse(session.is_open)
        finally:
            signal.signal(signal.SIGUSR1, before)

    def test_signal_at_any_line(self):
        """What a signal's handler raises in a call leaves a session that goes on, or has ended."""
        def serve(stream):
            with contextlib.suppress(OSError):
                while stream.recv(100):
                    stream.sendall(b"ok repair\n")

        number, goes_on = 1, True
        while goes_on:
            with self.subTest(line=number), fake(serve) as (address, _), siploc.connect(address, 20) as session:
                goes_on = is_interrupted(session.repair, [siploc.Session._exchange], number)
                number += 1
                if session.is_open:
                    session.repair()
        self.assertGreater(number, 10)

    def test_signal_of_a_closed_connection(self):
        """A program that a closed pipe ends, as others of a shell, is not ended by a closed connection."""
        script = ("import signal, socket, siploc\n"
                  "class Stream(socket.socket):\n"
                  "    def recv(self, size):\n"
                  "        try: return super().recv(size)\n"
                  "        finally: other.close()  # (before anything is sent)\n"
                  "signal.signal(signal.SIGPIPE, signal.SIG_DFL)\n"
                  "ours, other = socket.socketpair()\n"
                  "session = siploc.Session(Stream(fileno=ours.detach()), 10)\n"
                  "try: session.repair()\n"
                  "except siploc.ConnectionLost as fault: print(fault.may_be_done)\n")
        ran = subprocess.run([sys.executable, "-c", script], capture_output=True, text=True, cwd=HERE, timeout=60)
        self.assertEqual((ran.returncode, ran.stdout, ran.stderr), (0, "False\n", ""))

    def test_connection_that_is_given_up(self):
        """What a signal's handler raises while this process connects is raised as it is, and leaves no descriptor."""
        def give_up(*_):
            raise fault

        before = signal.signal(signal.SIGALRM, give_up)
        try:
            for fault in (KeyboardInterrupt("too long"), TimeoutError("too long")):
                with self.subTest(fault=fault), full_queue() as (address, _):
                    open_before = os.listdir("/proc/self/fd")
                    signal.setitimer(signal.ITIMER_REAL, 0.2)
                    try:
                        siploc.connect(address, 20)
                    except BaseException as caught:
                        # (while it is kept, and with it what the call had)
                        self.assertEqual(os.listdir("/proc/self/fd"), open_before)
                        self.assertIs(caught, fault)
                    else:
                        self.fail("it was not raised")
        finally:
            signal.signal(signal.SIGALRM, before)

    def test_call_that_a_signal_ends(self):
        """What a signal's handler raises in a call, as one that bounds its time, is raised as it is."""
        def end(*_):
            raise TimeoutError("too long")

        before = signal.signal(signal.SIGALRM, end)
        ours, other = socket.socketpair()
        try:
            with other:
                session = siploc.Session(ours, 20)
                signal.setitimer(signal.ITIMER_REAL, 0.2)
                with self.assertRaisesRegex(TimeoutError, "too long"):
                    session.repair()
                self.assertFalse(session.is_open)
        finally:
            signal.signal(signal.SIGALRM, before)

    def test_no_descriptor(self):
        """Where this process may open no more it is not connected."""
        with no_descriptors(), self.assertRaises(siploc.NotConnected) as caught:
            siploc.connect("127.0.0.1:5099")
        self.assertIn("open files", str(caught.exception))

    def test_characters_without_octets(self):
        """A lone surrogate that stands for no octet is an error of this module, and nothing is sent."""
        with Server() as server, server.connect() as session:
            for call in (lambda: session.find("sip:\ud800"), lambda: session.add("\ud8ff A 192.0.2.1"),
                         lambda: session.load("e.", "a A 192.0.2.1\n\udfff"), lambda: siploc.connect("unix:/\ud800")):
                with self.assertRaises(siploc.SiplocError):
                    call()
            # One that stands for an octet is sent.
            with self.assertRaises(siploc.Refused) as caught:
                session.find("sip:\udcff\x1b[2J\u00e9@192.0.2.1:5060")
            self.assertEqual(caught.exception.code, "U7")
            # What the error says can be written to any log.
            self.assertTrue(str(caught.exception).endswith(": find sip:\\udcff\\x1b[2J\u00e9@192.0.2.1:5060"))

    def test_calls_of_each_language(self):
        """The clients in Go and C have the calls of this one, by the same names, and no other call of a session."""
        public = (name for name in dir(siploc.Session) if not name.startswith("_"))
        ours = {*public, "connect", "line", "zone"}
        files = (TOP / "clients/go/siploc" / name for name in ("siploc.go", "connection.go", "local.go"))
        go = "".join(path.read_text() for path in files)
        names = re.findall(r"^func (?:\(s \*Session\) )?([A-Z]\w*)\(", go, re.MULTILINE)
        theirs = {re.sub("(?<=[a-z])(?=[A-Z])", "_", name).lower() for name in names}
        self.assertEqual(theirs - ours, {"new", "new_local", "words", "seed", "got_retry", "set_timeout"})
        self.assertLessEqual(ours, theirs)
        header = (TOP / "clients/c/siploc.h").read_text()
        theirs = {*re.findall(r"^[a-z]\w+ \*?(?:char \*)?siploc_(\w+)\(", header, re.MULTILINE)}
        self.assertEqual(theirs - ours, {"new", "set_timeout", "broken", "status_text", "meaning", "invalid_place"})
        self.assertLessEqual(ours, theirs)

    def test_all_codes_are_known(self):
        """Each code that a session may have has a meaning, and no other."""
        known = json.loads((TOP / "clients/lists.json").read_text())["refusals"]["session"]
        self.assertEqual(set(siploc.MEANINGS), set(known))


class Counting(unittest.TextTestResult):
    """Counts a test that failed once, however many of its cases did."""

    def failed_tests(self):
        return {getattr(test, "test_case", test).id() for test, _ in self.failures + self.errors}


if __name__ == "__main__":
    sys.path.insert(0, str(TOP / "tools"))
    import usage
    names = usage.words()
    runner = unittest.TextTestRunner(stream=sys.stdout, resultclass=Counting, verbosity=1)
    module, loader = sys.modules["__main__"], unittest.defaultTestLoader
    result = runner.run(loader.loadTestsFromNames(names, module) if names else loader.loadTestsFromModule(module))
    failed = len(result.failed_tests())
    print(f"{result.testsRun - failed} passed, {failed} failed")
    sys.exit(1 if failed else 0)
