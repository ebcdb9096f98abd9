#!/usr/bin/env python3
"""Tests of sessions in this process over a library in which memory runs out; tests/embedded/run has those over the real
one.

    clients/python/test_siploc_embedded.py [Memory.test_a_command ..]

The last line is `N passed, M failed`.
"""

import ctypes
import os
import signal
import sys
import threading
import unittest

import siploc
import siploc_embedded
from test_siploc import is_interrupted


class Library:
    """A library whose session has a reply to each line, and takes so many octets of each put at most."""

    def __init__(self, most, replies):
        self.most, self.replies, self.waiting, self.closed = list(most), list(replies), b"", 0

    def siploc_embedded_open(self, _settings, _len, handle):
        handle.at = 1
        return 0

    def siploc_embedded_put(self, _handle, octets, size, taken):
        taken.value = min(size, self.most.pop(0)) if self.most else size
        for _ in range(octets[:taken.value].count(b"\n")):
            self.waiting += self.replies.pop(0)
        return 0 if taken.value == size else 4

    def siploc_embedded_take(self, _handle, room, size):
        octets, self.waiting = self.waiting[:size], self.waiting[size:]
        ctypes.memmove(room, octets, len(octets))
        return len(octets)

    def siploc_embedded_close(self, handle):
        handle.at, self.closed = None, self.closed + 1


class Memory(unittest.TestCase):
    def test_a_command(self):
        """Where memory runs out before a command begins, it is refused, and the others are carried out."""
        library = Library([len("repair\n")], [b"ok repair\n", b"ok hold\n"])
        session = siploc_embedded.Session(library, "")
        replies = session.batch(["repair", "find x", "hold x y z"])
        self.assertEqual([it.lines for it in replies], [["ok repair"], ["err Memory"], ["ok hold"]])
        library.most = [0]
        with self.assertRaises(siploc.Refused) as raised:
            session.find("sip:a")
        self.assertEqual(raised.exception.code, "Memory")
        session.close()
        session.close()
        self.assertEqual(library.closed, 1)

    def test_within_a_zone(self):
        """Where it runs out within a zone, the session ends."""
        library = Library([len("repair\nzone a. 2\n")], [b"ok repair\n", b""])
        session = siploc_embedded.Session(library, "")
        with self.assertRaises(siploc.ConnectionLost) as raised:
            session.batch(["repair", "zone a. 2\nx\ny", "repair"])
        self.assertEqual((len(raised.exception.replies), raised.exception.sent), (1, 2))
        self.assertEqual((session.is_open, library.closed), (False, 1))
        with self.assertRaises(siploc.NotConnected):
            session.repair()

    def test_a_long_reply(self):
        """Replies longer than what is taken at once."""
        lines = [b"target %d udp 192.0.2.1 %d\n" % (place, place) for place in range(1, 3_001)]
        session = siploc_embedded.Session(Library([], [b"".join(lines) + b"ok find 3000\n"]), "")
        self.assertEqual(len(session.find("sip:a")), 3_000)

    def test_calls_of_a_signal_s_handler(self):
        """What a signal calls while a call is being made is refused, and the call goes on; it may be closed."""
        library, faults = Library([], [b"ok repair\n", b"ok repair\n", b"ok repair\n"]), []
        session = siploc_embedded.Session(library, "")
        put = library.siploc_embedded_put

        def signalled(*words):
            try:
                handler()
            except siploc.Error as fault:
                faults.append(fault)
            return put(*words)

        session._put, handler = signalled, session.repair
        thread = threading.Thread(target=session.repair, daemon=True)
        thread.start()
        thread.join(10)
        self.assertFalse(thread.is_alive())
        self.assertEqual([type(it) for it in faults], [siploc.InvalidCommand])
        handler = session.close
        session.repair()
        self.assertEqual((session.is_open, library.closed), (False, 1))

    def test_what_a_signal_s_handler_raises(self):
        """At any line of a call it leaves a session that goes on, or has ended."""
        number, goes_on = 1, True
        while goes_on:
            library = Library([], [b"ok repair\n"] * 2)
            session = siploc_embedded.Session(library, "")
            with self.subTest(line=number):
                goes_on = is_interrupted(session.repair, [session._exchange.__func__, session._run.__func__], number)
                number += 1
                if session.is_open:
                    session.repair()
                session.close()
                self.assertEqual(library.closed, 1)
        self.assertGreater(number, 20)

    def test_a_session_that_is_dropped(self):
        library = Library([], [])
        session = siploc_embedded.Session(library, "")
        del session
        self.assertEqual(library.closed, 1)

    def test_the_child_of_a_fork(self):
        """It neither waits for a thread that is not there, nor frees what that has in use."""
        library, is_within, goes_on = Library([], [b"ok repair\n"]), threading.Event(), threading.Event()
        session, put = siploc_embedded.Session(library, ""), library.siploc_embedded_put

        def waits(*words):
            is_within.set()
            goes_on.wait(30)
            return put(*words)

        session._put = waits
        thread = threading.Thread(target=session.repair)
        thread.start()
        is_within.wait(30)
        child = os.fork()
        if child == 0:
            signal.alarm(10)
            try:
                session.repair()
            except siploc.NotConnected:
                was_open = session.is_open
                session.close()
                session._close()
                os._exit(0 if not was_open and library.closed == 0 else 1)
            finally:
                os._exit(2)
        goes_on.set()
        thread.join(30)
        self.assertEqual((os.waitpid(child, 0)[1], session.is_open), (0, True))

    def test_settings_without_octets(self):
        with self.assertRaises(siploc_embedded.BadSettings):
            siploc_embedded.Session(Library([], []), "# \ud800")


if __name__ == "__main__":
    result = unittest.main(exit=False, argv=sys.argv).result
    failed = len(result.failures) + len(result.errors)
    print(f"{result.testsRun - failed} passed, {failed} failed")
    sys.exit(1 if failed else 0)
