"""Loads a zone into `siploc serve`, and asks for the targets of a URI. Any language with sockets can do the same."""
import socket

stream = socket.create_connection(("127.0.0.1", 5099)).makefile("rw", newline="\n")


def ask(command):
    stream.write(command + "\n")
    stream.flush()
    reply = []
    for line in stream:
        reply.append(line.rstrip("\n"))
        if line.startswith(("ok", "none", "err")):
            return reply
    raise ConnectionError("the session has ended")


print(ask("zone example.com. 1\nserver1 A 192.0.2.1"))
print(ask("find sip:server1.example.com:5070"))
