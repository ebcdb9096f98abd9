#!/usr/bin/env python3
"""Passes connections on to a port of 127.0.0.1.

    clients/tests/relay.py PORT ADDRESS      ADDRESS is `unix:PATH` or `[::1]:PORT`

It prints `ready` when it listens, and ends with its standard input.
"""
import os
import pathlib
import socket
import sys
import threading

sys.path.insert(0, str(pathlib.Path(__file__).resolve().parent.parent.parent / "tools"))
import usage  # noqa: E402


def pump(source, target):
    """Passes on what comes from a socket, and its end."""
    try:
        while octets := source.recv(1 << 16):
            target.sendall(octets)
        target.shutdown(socket.SHUT_WR)
    except OSError:
        # A connection that was reset is one that ends, on both sides.
        for end in (source, target):
            end.close()


def accept(listener, port):
    while True:
        client, _ = listener.accept()
        server = socket.create_connection(("127.0.0.1", port))
        for ends in ((client, server), (server, client)):
            threading.Thread(target=pump, args=ends, daemon=True).start()


def main(port, address):
    if address.startswith("unix:"):
        listener = socket.socket(socket.AF_UNIX)
        listener.bind(address[len("unix:"):])
        listener.listen()
    else:
        listener = socket.create_server(("::1", int(address.rsplit(":", 1)[1])), family=socket.AF_INET6)
    threading.Thread(target=accept, args=(listener, int(port)), daemon=True).start()
    print("ready", flush=True)
    sys.stdin.buffer.read()
    os._exit(0)


if __name__ == "__main__":
    main(*usage.words(2, least=2))
