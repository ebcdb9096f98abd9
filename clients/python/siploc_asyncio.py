"""The client of siploc for asyncio: the calls, values and errors are those of `siploc`.

    import siploc_asyncio

    async with await siploc_asyncio.connect("127.0.0.1:5099") as session:
        for target in await session.find("sip:bob@example.com"):
            print(target.transport, target.address, target.port)

Tasks may share a session: their calls are made one after another. The child of a fork can't, and connects anew. A task
that is cancelled within its call ends the session with it, since the reply that was due would be taken for that of the
next command.
"""

from __future__ import annotations

import asyncio
import errno
import os
import socket
from typing import Iterable, List, Optional, Sequence, Tuple, Union

import siploc
from siploc import Answer, Dependency, Loaded, NotConnected, Opened, Page, Reply, Step, Target, line, zone

__all__ = ["Session", "connect"]


async def connect(address: str, timeout: float = 30.0) -> Session:
    """A session with the server at an address, as `siploc.connect` takes one."""
    fault: Optional[OSError] = None
    for family, place in siploc._places(address):
        try:
            stream = socket.socket(family, socket.SOCK_STREAM)
        except OSError as refused:
            fault = fault or refused
            continue
        stream.setblocking(False)
        try:
            await _connect(stream, place, timeout)
            siploc._check_other(stream, place)
            return Session(stream, timeout)
        except OSError as refused:
            stream.close()
            fault = fault or refused
        except BaseException:
            stream.close()
            raise
    raise NotConnected(f"{address}: {fault}") from fault


async def _connect(stream: socket.socket, place: siploc._Place, timeout: float) -> None:
    """Connects a socket that does not block within a time."""
    loop = asyncio.get_running_loop()
    end = loop.time() + timeout
    # (as many clients wait at a Unix socket as it takes: none waits for that by itself)
    while (code := stream.connect_ex(place)) == errno.EAGAIN and loop.time() < end:
        await asyncio.sleep(siploc._PAUSE)
    if code == errno.EINPROGRESS:
        is_ready = await _is_ready(stream, True, end - loop.time())
        code = stream.getsockopt(socket.SOL_SOCKET, socket.SO_ERROR) if is_ready else errno.ETIMEDOUT
    if code:
        raise OSError(code, os.strerror(code))


async def _is_ready(stream: socket.socket, has_output: bool, seconds: float) -> bool:
    """Waits until octets have come, or, where there is output, can be sent; whether that was within some seconds."""
    loop = asyncio.get_running_loop()
    ready: asyncio.Future[bool] = loop.create_future()

    def end(is_ready: bool) -> None:
        if not ready.done():
            ready.set_result(is_ready)

    timer = loop.call_later(min(seconds, siploc._MAX_WAIT), end, False)
    try:
        loop.add_reader(stream, end, True)
        if has_output:
            loop.add_writer(stream, end, True)
        return await ready
    finally:
        timer.cancel()
        loop.remove_reader(stream)
        loop.remove_writer(stream)


class Session:
    """A connection to a server. `async with` closes it at the end."""

    #: How many seconds a call waits without progress, as of `siploc.Session`.
    timeout: float

    def __init__(self, stream: socket.socket, timeout: float) -> None:
        """A session over a connected socket, as `siploc.Session` is."""
        siploc._prepare(stream)
        self.timeout = timeout
        self._stream: Optional[socket.socket] = stream
        self._process = os.getpid()
        self._turn = asyncio.Lock()

    async def __aenter__(self) -> Session:
        return self

    async def __aexit__(self, *_: object) -> None:
        await self.close()

    @property
    def is_open(self) -> bool:
        """Whether the session has neither ended nor been closed, as far as is known."""
        return self._stream is not None and self._process == os.getpid()

    async def close(self) -> None:
        """Ends the session by `quit`, and closes the connection; a call that is being made comes to its end before.
        Nothing is raised."""
        if self._process != os.getpid():
            self._end()
            return
        async with self._turn:
            if self._stream is not None:
                self.timeout = min(self.timeout, 1.0)
                try:
                    await self._exchange([siploc._Command("quit", b"quit\n", siploc._FORMS["quit"])])
                except siploc.Error:
                    pass
                self._end()

    async def find(self, uri: str, *, words: Optional[Iterable[int]] = None, seed: Optional[int] = None) -> Answer:
        return (await self._ask(line("find", uri, *siploc._draws(words, seed)))).answer

    async def deps(self, uri: str) -> List[Dependency]:
        return (await self._ask(line("deps", uri))).dependencies

    async def load(self, apex: str, text: Union[str, Iterable[str]]) -> Loaded:
        return Loaded(*(await self._ask(zone(apex, text))).counts)

    async def drop(self, apex: str) -> int:
        return (await self._ask(line("drop", apex))).counts[0]

    async def add(self, record: str) -> int:
        return (await self._ask("add " + record)).counts[0]

    async def remove(self, record: str) -> int:
        return (await self._ask("del " + record)).counts[0]

    async def repair(self) -> None:
        await self._ask("repair")

    async def page(self) -> Page:
        return Page(*(await self._ask("page")).counts)

    async def hold(self, target: Union[Target, Tuple[str, str, int]], milliseconds: int) -> None:
        await self._ask(line("hold", *target, siploc._number(milliseconds)))

    async def release(self, target: Union[Target, Tuple[str, str, int]]) -> None:
        await self._ask(line("release", *target))

    async def clock(self, milliseconds: int) -> List[Step]:
        return (await self._ask(line("clock", siploc._number(milliseconds)))).steps

    async def call(self, kind: str, base: int, uri: str, *, words: Optional[Iterable[int]] = None,
                   seed: Optional[int] = None) -> Opened:
        reply = await self._ask(line("call", kind, siploc._number(base), uri, *siploc._draws(words, seed)))
        return Opened(reply.steps, reply.reason)

    async def got(self, attempt: int, code: int, *, retry: Optional[int] = None) -> List[Step]:
        fields = [] if retry is None else ["retry", siploc._number(retry, 32)]
        return (await self._ask(line("got", siploc._number(attempt, 32), siploc._number(code, 16), *fields))).steps

    async def broke(self) -> List[Step]:
        return (await self._ask("broke")).steps

    async def batch(self, commands: Iterable[str]) -> List[Reply]:
        """Sends many commands at once, and returns their replies in order; a refusal is a reply as any other."""
        return await self._take_turn(siploc._all_prepared(commands))

    async def _ask(self, command: str) -> Reply:
        return (await self._take_turn([siploc._prepared(command)]))[0].check()

    async def _take_turn(self, commands: Sequence[siploc._Command]) -> List[Reply]:
        """Sends commands and reads their replies, after the calls of other tasks."""
        # (in the child of a fork a task may have the turn that is not there)
        if self._process != os.getpid():
            raise NotConnected("the session is another process's")
        async with self._turn:
            return await self._exchange(commands)

    def _end(self) -> None:
        if self._stream is not None:
            self._stream.close()
            self._stream = None

    async def _exchange(self, commands: Sequence[siploc._Command]) -> List[Reply]:
        """Sends commands and reads their replies. The session ends where this raises."""
        if self._stream is None:
            raise NotConnected("the session has ended")
        exchange = siploc._Exchange(self._stream, commands)
        try:
            await self._run(exchange)
        except OSError as fault:
            self._end()
            raise exchange.lost(str(fault)) from fault
        except BaseException:
            self._end()
            raise
        return exchange.replies

    async def _run(self, exchange: siploc._Exchange) -> None:
        """Sends all commands, and reads all replies."""
        loop = asyncio.get_running_loop()
        exchange.read_before()
        end = loop.time() + self.timeout
        while exchange.is_due():
            if exchange.write():
                end = loop.time() + self.timeout
            if not await _is_ready(exchange.stream, exchange.has_output(), exchange.wait(end - loop.time())):
                raise exchange.timed_out(self.timeout)
            if exchange.read():
                end = loop.time() + self.timeout
