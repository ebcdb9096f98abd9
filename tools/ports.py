"""Ports of the loopback that nobody has, for programs that have to be told where to listen."""

import contextlib
import random
import socket
import threading

# Below those that the system gives to sockets without one: so none is taken before it is used, and no client that comes
# before the program listens is connected to itself.
FIRST, LAST = 16_384, 32_768
# Ports are taken by blocks, of which a process keeps the last ones.
BLOCK, KEPT = 64, 16


def own_ports():
    """The ports of blocks that no other process has meanwhile: neither its programs nor its clients meet others'. In the
    order of chance, since programs without this module have ports too."""
    chance, locks = random.SystemRandom(), []
    while True:
        taken = 0
        for first in chance.sample(range(FIRST, LAST, BLOCK), (LAST - FIRST) // BLOCK):
            lock = socket.socket(socket.AF_UNIX)
            try:
                lock.bind(f"\0siploc-ports-{first}")
            except OSError:
                lock.close()
                continue
            locks.append(lock)
            if len(locks) > KEPT:
                locks.pop(0).close()
            taken += 1
            yield from chance.sample(range(first, first + BLOCK), BLOCK)
        if not taken:
            return


PORTS, TURN = own_ports(), threading.Lock()


def free_port() -> int:
    """A port of 127.0.0.1 that nobody has, which this process is not given again for a thousand others."""
    while True:
        with TURN:
            port = next(PORTS, None)
        if port is None:
            raise OSError("there is no port")
        with socket.socket(socket.AF_INET, socket.SOCK_STREAM) as probe, contextlib.suppress(OSError):
            probe.bind(("127.0.0.1", port))
            return port
