"""siploc in this process: sessions with the calls of the module siploc, without a server.

    import siploc_embedded

    with siploc_embedded.open('transports = ["udp"]') as session:
        session.load("example.com.", "server1 A 192.0.2.1")
        for target in session.find("sip:server1.example.com:5070"):
            print(target.transport, target.address, target.port)

A session has the calls and the errors of a `siploc.Session`, and a book of its own, which ends with it. Threads may
share it: their calls are made one after another. The child of a fork can't, and opens its own. The journal is full after
1,048,576 answers, changes and holds (B3): `page` drops it.

It needs the library of clients/c/embedded, and siploc.py.
"""

from __future__ import annotations

import ctypes
import functools
import os
import threading
import weakref
from typing import Callable, List, Sequence

import siploc

__all__ = ["BadSettings", "Session", "open"]

_OK, _SETTINGS = 0, 5
# How many octets of replies are taken at once, and how many of commands are put before.
_ROOM = _PIECE = 1 << 16


class BadSettings(siploc.Error, ValueError):
    """The settings are refused."""


class _Handle(ctypes.Structure):
    """A `siploc_embedded_session`."""

    _fields_ = [("at", ctypes.c_void_p)]


@functools.lru_cache(maxsize=None)
def _library(path: str) -> ctypes.CDLL:
    library = ctypes.CDLL(path)
    handle, octets = ctypes.POINTER(_Handle), [ctypes.c_char_p, ctypes.c_size_t]
    library.siploc_embedded_open.argtypes = [*octets, handle]
    library.siploc_embedded_put.argtypes = [handle, *octets, ctypes.POINTER(ctypes.c_size_t)]
    library.siploc_embedded_take.argtypes = [handle, *octets]
    library.siploc_embedded_take.restype = ctypes.c_size_t
    library.siploc_embedded_close.argtypes = [handle]
    library.siploc_embedded_close.restype = None
    return library


def _free(close: Callable[[_Handle], None], handle: _Handle, process: int) -> None:
    """Closes a session of this process. In the child of a fork it may be within a call of a thread that is not there."""
    if process == os.getpid():
        close(handle)


def open(settings: str = "", *, library: str = "libsiploc_embedded.so") -> Session:
    """A session with these settings, which are those of `siploc run`.

    `library` is the path of the library, or its name where the system's loader finds it. Raises `BadSettings` where the
    settings are refused, `MemoryError` where an allocation fails, and `OSError` where the library is not found.
    """
    return Session(_library(library), settings)


class Session(siploc.BaseSession):
    """A session in this process."""

    def __init__(self, library: ctypes.CDLL, settings: str) -> None:
        """A session of a library that is loaded."""
        handle, refused = _Handle(), BadSettings(f"the settings are refused: {settings[:200]!r}")
        try:
            octets = settings.encode("utf-8", "surrogateescape")
        except UnicodeEncodeError:
            raise refused from None
        status = library.siploc_embedded_open(octets, len(octets), handle)
        if status == _SETTINGS:
            raise refused
        if status != _OK:
            raise MemoryError
        self._put, self._take = library.siploc_embedded_put, library.siploc_embedded_take
        self._handle, self._room, self._turn = handle, ctypes.create_string_buffer(_ROOM), threading.RLock()
        # (the handler of a signal comes in too, where its thread is within a call)
        self._is_busy = self._ends = False
        self._process = os.getpid()
        # Also where the session is dropped.
        self._close = weakref.finalize(self, _free, library.siploc_embedded_close, handle, self._process)
        self._close.atexit = False

    @property
    def is_open(self) -> bool:
        return self._close.alive and not self._ends and self._process == os.getpid()

    def close(self) -> None:
        """Ends the session, and frees what it has; a call that is being made comes to its end before. In the child of a
        fork it does nothing."""
        if self._process != os.getpid():
            return
        with self._turn:
            self._ends = True
            if not self._is_busy:
                self._close()

    def _exchange(self, commands: Sequence[siploc._Command]) -> List[siploc.Reply]:
        """Carries out commands, and reads their replies."""
        # (in the child of a fork a thread may have the turn that is not there)
        if self._process != os.getpid():
            raise siploc.NotConnected("the session is another process's")
        with self._turn:
            if not self.is_open:
                raise siploc.NotConnected("the session has ended")
            if self._is_busy:
                raise siploc.InvalidCommand("the call of a signal's handler within a call")
            come = siploc._Replies(commands)
            try:
                try:
                    self._is_busy = True
                    while len(come.replies) < len(commands):
                        self._run(come)
                finally:
                    self._is_busy = False
            except BaseException:
                # (again: what a signal raises may come before it, up to Python 3.9)
                self._is_busy, self._ends = False, True
                self._close()
                raise
            if self._ends:
                self._close()
        return come.replies

    def _run(self, come: siploc._Replies) -> None:
        """Puts some commands, and takes their replies. One for which memory ran out is refused, as others are for which
        it does later."""
        done = end = len(come.replies)
        size = 0
        while end < len(come.commands) and size < _PIECE:
            size += len(come.commands[end].octets)
            end += 1
        octets = b"".join([command.octets for command in come.commands[done:end]])
        taken = ctypes.c_size_t()
        status = self._put(self._handle, octets, size, taken)
        come.sent += taken.value
        while count := self._take(self._handle, self._room, _ROOM):
            come.feed(ctypes.string_at(self._room, count))
        if status != _OK:
            self._refuse(come)
        elif len(come.replies) != end:
            raise come.lost("the session has ended")

    @staticmethod
    def _refuse(come: siploc._Replies) -> None:
        """Leaves out the next command, unless some of its lines were taken: of a zone."""
        done = len(come.replies)
        if come.sent != sum(len(command.octets) for command in come.commands[:done]):
            raise come.lost("out of memory")
        come.sent += len(come.commands[done].octets)
        come.take("err Memory")
