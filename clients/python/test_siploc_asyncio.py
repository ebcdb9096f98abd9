#!/usr/bin/env python3
"""Tests of the client for asyncio, against the program that SIPLOC names and servers that do what none should.

    SIPLOC=PROGRAM clients/python/test_siploc_asyncio.py

The last line is `N passed, M failed`.
"""

import asyncio
import contextlib
import errno
import inspect
import math
import os
import select
import socket
import sys
import threading
import time
import unittest
from unittest import mock

import siploc
import siploc_asyncio
from siploc import Target
from test_siploc import (FIRST, SECOND, TOP, ZONE, Bound, Failing, Server, accept_all, free_port, full_queue,
                         no_descriptors)


@contextlib.asynccontextmanager
async def fake(serve):
    """A server that calls a function with each connection's reader and writer; its address."""
    async def serves(reader, writer):
        with contextlib.suppress(ConnectionError, asyncio.CancelledError):
            await serve(reader, writer)

    server = await asyncio.start_server(serves, "127.0.0.1", 0, limit=1 << 20)
    try:
        yield "127.0.0.1:%d" % server.sockets[0].getsockname()[1]
    finally:
        server.close()


async def connected(server):
    """A session as soon as the program listens."""
    end = time.monotonic() + 60
    while True:
        try:
            return await siploc_asyncio.connect(server.address)
        except siploc.NotConnected:
            if time.monotonic() > end:
                raise
            await asyncio.sleep(0.025)


class Asyncio(unittest.IsolatedAsyncioTestCase):
    async def asyncSetUp(self):
        # (it logs each task that takes a tenth of a second)
        asyncio.get_running_loop().set_debug(False)

    async def test_the_same_calls(self):
        """Each call of the other client, with the same parameters."""
        public = [name for name, _ in inspect.getmembers(siploc.Session, inspect.isfunction) if not name.startswith("_")]
        self.assertGreater(len(public), 12)
        for name in public:
            ours = getattr(siploc_asyncio.Session, name)
            self.assertTrue(inspect.iscoroutinefunction(ours), name)
            self.assertEqual(inspect.signature(ours).parameters,
                             inspect.signature(getattr(siploc.Session, name)).parameters, name)

    async def test_session(self):
        with Server(1, 'transports = ["tcp", "udp"]') as server:
            async with await connected(server) as session:
                self.assertEqual((await session.load("example.com.", ZONE)).records, 7)
                answer = await session.find("sip:bob@example.com", words=[2])
                self.assertEqual(list(answer), [SECOND, FIRST])
                await session.hold(SECOND, 5_000)
                self.assertEqual(list(await session.find("sip:bob@example.com", seed=7)), [FIRST])
                await session.release(SECOND)
                self.assertEqual(await session.clock(5), [])
                self.assertEqual(await session.add("server1.example.com. A 192.0.2.3"), 1)
                self.assertEqual(await session.remove("server1.example.com. A 192.0.2.3"), 1)
                self.assertIn("example.com.", [it.name for it in await session.deps("sip:bob@example.com")])
                opened = await session.call("other", 1, "sip:bob@example.com")
                self.assertEqual(opened.steps[0].attempt, 1)
                self.assertTrue(await session.broke())
                self.assertTrue(await session.got(2, 200))
                await session.repair()
                self.assertEqual((await session.page()).first, 0)
                self.assertGreater(await session.drop("example.com."), 0)
                with self.assertRaises(siploc.Refused) as caught:
                    await session.drop("example.com.")
                self.assertEqual(caught.exception.code, "S2")
                for command in ("quit", "find sip:a\nfind sip:b", "", "find sip:\ud800"):
                    with self.subTest(command), self.assertRaises(siploc.InvalidCommand) as caught:
                        await session.batch(["repair", command])
                    self.assertEqual(caught.exception.place, 1)
                with self.assertRaises(siploc.InvalidCommand) as caught:
                    await session.add("a.e. A 192.0.2.1\n")
                self.assertIsNone(caught.exception.place)
                for call in (lambda: session.add(b"a.e. A 192.0.2.1"), lambda: session.batch("repair")):
                    with self.assertRaises(TypeError):
                        await call()
            self.assertFalse(session.is_open)
            with self.assertRaises(siploc.NotConnected):
                await session.repair()

    async def test_batches_and_tasks(self):
        """A batch of more than the sockets hold, and many tasks that share the session."""
        with Server(1) as server:
            async with await connected(server) as session:
                await session.load("e.", (f"a A 192.0.2.{n}" for n in range(32)))
                replies = await session.batch(["find sip:" + "x" * 400 + "@a.e:5060"] * 5_000)
                self.assertEqual({len(reply.answer) for reply in replies}, {32})

                async def asks(port):
                    return [(await session.find(f"sip:192.0.2.9:{port}")).targets for _ in range(20)]

                found = await asyncio.gather(*(asks(port) for port in range(1, 50)))
                self.assertEqual(found, [[[Target("udp", "192.0.2.9", port)]] * 20 for port in range(1, 50)])
                self.assertEqual(await session.batch([]), [])

    async def test_replies_that_are_none(self):
        async def says(octets, error, may_be_done=True, timeout=20):
            async def serve(reader, writer):
                await reader.readline()
                writer.write(octets)
                if octets != b"":
                    writer.close()
                else:
                    await asyncio.sleep(30)

            async with fake(serve) as address:
                session = await siploc_asyncio.connect(address, timeout)
                start = time.monotonic()
                with self.subTest(octets), self.assertRaises(error) as caught:
                    await session.find("sip:a")
                self.assertIs(type(caught.exception), error)
                self.assertEqual(caught.exception.may_be_done, may_be_done)
                self.assertFalse(session.is_open)
                self.assertLess(time.monotonic() - start, 15)

        await says(b"", siploc.TimedOut, timeout=0.5)
        await says(b"target 1 udp 192.0.2.1 5060\n", siploc.HalfReply)
        await says(b"hello\n", siploc.BadReply)
        await says(b"ok find 1\n", siploc.BadReply)
        await says(b"none NoAddress\nnone NoAddress\n", siploc.BadReply, False)

    async def test_cut_at_each_octet(self):
        """A reply that is cut at any octet is told as half a reply, or as none; where no more comes, the time runs out."""
        octets, cuts = b"target 1 udp 192.0.2.1 5060\nok find 1\n", []

        async def serve(reader, writer):
            await reader.readline()
            at, is_closed = cuts[-1]
            writer.write(octets[:at])
            if is_closed:
                writer.close()
            else:
                await asyncio.sleep(30)

        async with fake(serve) as address:
            for at in range(len(octets)):
                for is_closed in (True, False):
                    cuts.append((at, is_closed))
                    error = siploc.TimedOut if not is_closed else siploc.HalfReply if at else siploc.ConnectionLost
                    session = await siploc_asyncio.connect(address, 10 if is_closed else 0.05)
                    start = time.monotonic()
                    with self.subTest(at=at, is_closed=is_closed), self.assertRaises(error) as caught:
                        await session.find("sip:a")
                    self.assertIs(type(caught.exception), error)
                    self.assertLess(time.monotonic() - start, 5)
                    self.assertFalse(session.is_open)

    async def test_lost_and_refused_before(self):
        served = asyncio.Event()

        async def closes(_, writer):
            writer.close()
            served.set()

        async def refuses(_, writer):
            writer.write(b"err Busy\n")
            served.set()
            await asyncio.sleep(2)

        async with fake(closes) as address:
            session = await siploc_asyncio.connect(address)
            await served.wait()
            await asyncio.sleep(0.2)
            with self.assertRaises(siploc.ConnectionLost):
                await session.repair()
        async with fake(refuses) as address:
            served.clear()
            session = await siploc_asyncio.connect(address)
            await served.wait()
            await asyncio.sleep(0.2)
            with self.assertRaises(siploc.Refused):
                await session.repair()
            self.assertFalse(session.is_open)

        async def refuses_late(reader, writer):
            await reader.readline()
            writer.write(b"err Busy\n")
            writer.close()

        async with fake(refuses_late) as address:
            session = await siploc_asyncio.connect(address)
            with self.assertRaises(siploc.Refused) as caught:
                await session.batch(["repair"] * 3)
            self.assertEqual((caught.exception.command, session.is_open), ("(the session)", False))
        with self.assertRaises(siploc.NotConnected):
            await siploc_asyncio.connect("unix:/nonexistent/socket")
        with self.assertRaises(siploc.InvalidCommand):
            await siploc_asyncio.connect("192.0.2.1:5099")

    async def test_connection_with_itself(self):
        """Where nobody listens, the system may choose the port itself for the client, which is then its own server."""
        with mock.patch("socket.socket", Bound):
            for address in (f"127.0.0.1:{free_port()}", f"[::1]:{free_port()}"):
                with self.assertRaises(siploc.NotConnected):
                    await siploc_asyncio.connect(address, 5)

    async def test_full_queue(self):
        """A Unix socket that has as many clients waiting as it takes is waited for, as long as is given."""
        with full_queue() as (address, listener):
            with self.assertRaisesRegex(siploc.NotConnected, "temporarily"):
                await siploc_asyncio.connect(address, 0.3)
            threading.Timer(0.3, accept_all, [listener]).start()
            session = await siploc_asyncio.connect(address, 20)
            session._end()

    async def test_server_that_reads_slowly(self):
        """A server that takes some octets now and then makes progress."""
        text = ["x" * 399] * 300

        def serve(listener):
            stream, _ = listener.accept()
            with contextlib.suppress(OSError), stream:
                left = sum(len(it) + 1 for it in text)
                while left > 0:
                    left -= len(stream.recv(2_048)) or left
                    time.sleep(0.05)
                stream.sendall(b"ok zone 1 0 0 1\n")
                stream.recv(1)

        with socket.create_server(("127.0.0.1", 0)) as listener:
            listener.setsockopt(socket.SOL_SOCKET, socket.SO_RCVBUF, 4_096)
            thread = threading.Thread(target=serve, args=[listener])
            thread.start()
            session = await siploc_asyncio.connect("127.0.0.1:%d" % listener.getsockname()[1], 1)
            session._stream.setsockopt(socket.SOL_SOCKET, socket.SO_SNDBUF, 4_096)
            try:
                self.assertEqual(await session.load("e.", text), (1, 0, 0, 1))
            finally:
                session._end()
                thread.join()

    async def test_send_that_fails(self):
        """A connection that takes no more, as for want of buffers: what is due is read, and then the cause told."""
        ours, other = socket.socketpair()
        ours.setblocking(False)
        with other:
            threading.Timer(0.2, other.sendall, [b"ok repair\n"]).start()
            session = siploc_asyncio.Session(Failing(ours, 10, OSError(errno.ENOBUFS, "no buffers")), 20)
            start = time.monotonic()
            with self.assertRaisesRegex(siploc.ConnectionLost, "no buffers") as caught:
                await session.batch(["repair"] * 3)
            self.assertEqual((len(caught.exception.replies), caught.exception.sent), (1, 2))
            self.assertLess(time.monotonic() - start, 10)

    async def test_connection_that_is_given(self):
        """A connection that was there, and blocks: no call stops the loop, and over TCP it is reset."""
        ended = asyncio.Event()

        async def serve(reader, writer):
            await reader.readline()
            await asyncio.sleep(0.1)
            writer.write(b"ok repair\n")
            with self.assertRaises(ConnectionResetError):
                await reader.read()
            ended.set()

        async with fake(serve) as address:
            host, port = address.split(":")
            stream = await asyncio.to_thread(socket.create_connection, (host, int(port)))
            stream.settimeout(2)  # (else the loop would stop for good)
            session = siploc_asyncio.Session(stream, 10)
            await session.repair()
            session._end()
            await asyncio.wait_for(ended.wait(), 10)

    async def test_fork(self):
        """The child of a fork sends nothing in its parent's session, nor ends it, nor waits for a call in it."""
        lines = []

        async def serve(reader, writer):
            while text := await reader.readline():
                lines.append(text)
                if text != b"page\n":
                    writer.write(b"ok " + text)

        async def ask_and_close():
            with contextlib.suppress(siploc.NotConnected):
                await asyncio.wait_for(session.repair(), 5)
                return 1
            await asyncio.wait_for(session.close(), 5)
            return int(session.is_open)

        async with fake(serve) as address:
            session = await siploc_asyncio.connect(address)
            for is_within_a_call in (False, True):
                if is_within_a_call:
                    call = asyncio.ensure_future(session.page())
                    await asyncio.sleep(0.1)
                child = os.fork()
                if not child:
                    status = 1
                    try:
                        status = asyncio.run(ask_and_close())
                    finally:
                        os._exit(status)
                # (no thread waits for it: the next fork would be of a process with threads)
                while not (ended := os.waitpid(child, os.WNOHANG))[0]:
                    await asyncio.sleep(0.01)
                self.assertEqual((ended[1], session.is_open), (0, True))
                if not is_within_a_call:
                    await session.repair()
            call.cancel()
            self.assertEqual(lines, [b"repair\n", b"page\n"])

    async def test_no_descriptor(self):
        """Where this process may open no more it is not connected."""
        with no_descriptors(), self.assertRaises(siploc.NotConnected):
            await siploc_asyncio.connect("127.0.0.1:5099")

    async def test_cancelled(self):
        """A call that is cancelled ends the session; one that waits for its turn ends alone."""
        async def takes(reader, _):
            while await reader.read(1_000):
                pass

        async with fake(takes) as address:
            session = await siploc_asyncio.connect(address, 30)
            first = asyncio.ensure_future(session.repair())
            await asyncio.sleep(0.1)
            second = asyncio.ensure_future(session.repair())
            await asyncio.sleep(0.1)
            second.cancel()
            with self.assertRaises(asyncio.CancelledError):
                await second
            self.assertTrue(session.is_open)
            first.cancel()
            with self.assertRaises(asyncio.CancelledError):
                await first
            self.assertFalse(session.is_open)
            await session.close()

    async def test_cancelled_as_the_reply_comes(self):
        """A task that is cancelled before it goes on is cancelled, whatever has come."""
        cancelled = 0
        for turns in range(12):
            ends = socket.socketpair()
            ends[0].setblocking(False)
            session = siploc_asyncio.Session(ends[0], math.inf)
            task = asyncio.ensure_future(session.repair())
            with ends[1]:
                while not select.select([ends[1]], [], [], 0)[0]:
                    await asyncio.sleep(0)
                ends[1].sendall(b"ok repair\n")
                for _ in range(turns):
                    await asyncio.sleep(0)
                if task.cancel():
                    cancelled += 1
                    with self.subTest(turns), self.assertRaises(asyncio.CancelledError):
                        await task
                    self.assertFalse(session.is_open)
                session._end()
        self.assertIn(cancelled, range(1, 12))


def main():
    sys.path.insert(0, str(TOP / "tools"))
    import usage
    usage.words(0)
    result = unittest.TextTestRunner(verbosity=0).run(unittest.defaultTestLoader.loadTestsFromTestCase(Asyncio))
    failed = len(result.failures) + len(result.errors)
    print(f"{result.testsRun - failed} passed, {failed} failed", flush=True)
    return 1 if failed else 0


if __name__ == "__main__":
    sys.exit(main())
