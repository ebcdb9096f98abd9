"""Clients: the sessions that they have, and how they are bounded."""

from __future__ import annotations

import concurrent.futures
import contextlib
import errno
import fcntl
import itertools
import os
import pathlib
import random
import re
import resource
import runpy
import select
import signal
import socket
import sys
import termios
import threading
import time
import types
from typing import Any, Iterator

import siploc
from daemon_tests.support import PATIENCE, SEED, TOP, Checks, Client, Daemon, polled, started, stopped, test, until

# Sessions of `siploc` that a daemon must serve as well: by arguments and lines, without those whose reply depends on
# the time, on a full journal, or on what one more session would see, and without those that end within a zone.
def older_sessions() -> Iterator[tuple[str, str, list[str]]]:
    sessions = types.SimpleNamespace(**runpy.run_path(str(TOP / "tests/sessions/run")))
    plain = types.SimpleNamespace(**runpy.run_path(str(TOP / "tools/plain")))
    for path in sorted([*TOP.glob("tests/sessions/**/*.txt"), *TOP.glob("examples/*.txt")]):
        lines = path.read_text(errors="surrogateescape").split("\n")
        for start, end in plain.places(lines):
            words, count = sessions.arguments(lines[start:end])
            rest = lines[start + count:end]
            is_plain = not any(it.startswith(("! ", "?")) for it in rest) and words[-2:-1] != ["<"]
            settings = words[2] if len(words) == 3 else ""
            if is_plain and words[1] == "run" and "journal" not in settings:
                text = "".join(f"{it[2:]}\n" for it in rest if it.startswith(">"))
                replies = [it for it in rest if it and it[0] not in "#>?"]
                if not any(it.startswith("err B3")
                           for it in replies) and len(words) <= 3 and not ends_within_a_zone(text):
                    yield settings, text, replies


def ends_within_a_zone(text: str) -> bool:
    lines = text.split("\n")[:-1]
    while lines:
        found = re.fullmatch(r"[ \t]*zone[ \t]+[^ \t]+[ \t]+(\d+)[ \t\r]*", lines.pop(0))
        count = int(found[1]) if found else 0
        if count > len(lines):
            return True
        lines = lines[count:]
    return False


@test
def serves_the_sessions_of_siploc(checks: Checks, folder: pathlib.Path) -> None:
    found: dict[str, list[tuple[str, list[str]]]] = {}
    for settings, text, replies in older_sessions():
        found.setdefault(settings, []).append((text, replies))
    chance = random.Random(SEED)
    # Each has a daemon of its own, since zones last: a share of them, by chance.
    each = [(settings, text, replies) for settings, all_of in found.items() for text, replies in all_of]
    for place, (settings, text, replies) in enumerate(chance.sample(each, min(len(each), 24))):
        inner = folder / str(place)
        inner.mkdir()
        with started(checks, inner, f'clock = "lines"\n{settings}') as daemon, Client(daemon.address) as client:
            client.stream.sendall(text.encode(errors="surrogateescape"))
            client.stream.shutdown(socket.SHUT_WR)
            octets = b"".join(iter(lambda: client.stream.recv(1 << 16), b"")).decode(errors="surrogateescape")
            checks.equal(octets.splitlines(), replies, (settings, text[:300]))


@test
def a_client_at_find_may_only_ask(checks: Checks, folder: pathlib.Path) -> None:
    target = ["target 1 udp 192.0.2.1 5060", "ok find 1"]
    refused = [
        "zone example.com. 3\na A 192.0.2.1\nquit\ndrop example.com.", "zone example.com. 0",
        "zone other.example. 1\na A 192.0.2.1",
        "zone", "drop example.com.", "add b.example.com. A 192.0.2.2", "del a.example.com. A 192.0.2.1", "del",
        "repair", "page",
        "hold udp 192.0.2.1 5060 1000000", " \thold udp 192.0.2.1 5060 1\r", "hold x", "release udp 192.0.2.9 5060",
        "clock 1000",
    ]
    with started(checks, folder, 'clock = "lines"', find=["127.0.0.1:0", f"unix:{folder}/ask"]) as daemon, \
            Client(daemon.address) as editor:
        checks.equal(editor.ask("zone example.com. 1\na A 192.0.2.1"), ["ok zone 1 0 0 1"], "zone")
        checks.equal(editor.ask("hold udp 192.0.2.9 5060 1000000"), ["ok hold"], "hold")
        before = daemon.tell("zones"), daemon.tell("holds"), daemon.stats()["events"]
        for address in daemon.addresses[1:-1]:
            with Client(address) as client:
                for line in refused:
                    checks.equal(client.ask(line), ["err D3"], (address, line))
                # In one piece, too.
                client.send("".join(f"{line}\nfind sip:a.example.com:5060\n" for line in refused))
                for line in refused:
                    checks.equal((client.reply(), client.reply()), (["err D3"], target), (address, line))
                for line, reply in ("holding", ["err K1"]), ("find", ["err K1"]), ("# hold\n\nfind sip:192.0.2.9:5060",
                                                                                   ["none AllHeld"]):
                    checks.equal(client.ask(line), reply, (address, line))
                checks.equal((client.ask("deps sip:a.example.com:1") or [""])[-1].split(" ")[:2], ["ok", "deps"],
                             "deps")
                checks.equal(client.ask("find " + "x" * 65_600), ["err K2"], "a line that is too long")
                after = daemon.tell("zones"), daemon.tell("holds")
                checks.equal(after, before[:2], "what there is")
        with Client(daemon.addresses[1]) as client:
            # The hold of a call is a part of asking.
            sent = client.ask("call invite 1 sip:a.example.com:5060")
            checks.equal(sent, ["send 1 udp 192.0.2.1 5060 z9hG4bK0000000000000001.1", "ok call"], "call")
            checks.equal((client.ask("broke") or [""])[0], "hold udp 192.0.2.1 5060 30000", "broke")
            checks.equal(daemon.tell("holds")[-1], "ok holds 2", "holds of an editor and a call")
            checks.equal(client.ask("quit"), ["ok quit"], "quit")
            checks.expect(client.is_ended(), "after quit")
        checks.equal(editor.ask("drop example.com."), ["ok drop 1"], "at another address")
        stopped(checks, daemon)


@test
def a_web_page_has_no_session(checks: Checks, folder: pathlib.Path) -> None:
    head = "HTTP/1.1\r\nHost: localhost\r\nContent-Type: text/plain\r\n\r\n"
    body = "zone evil.example. 1\na A 192.0.2.1\nstop\n"
    with started(checks, folder, find=["127.0.0.1:0"], control="127.0.0.1:0") as daemon:
        for address in daemon.addresses:
            for request in f"POST / {head}{body}", f"GET /{head}{body}", f"PUT / {head}{body}", f"OPTIONS * {head}{body}", f"PRI * {head}{body}":
                for places in [0, len(request)], [0, 1, 2, 4, 6, len(request)]:
                    with Client(address) as client, contextlib.suppress(OSError):
                        for begin, end in itertools.pairwise(places):
                            client.send(request[begin:end])
                            time.sleep(0.01 * (len(places) > 2))
                        checks.equal(client.line(), None, (address, request[:8], places))
            with Client(address) as client:
                client.send("\nPOSTING / x\nPOST / HTTP/1.1\n")
                checks.equal((client.reply(), client.reply()), (["err K1"], ["err K1"]),
                             f"{address}: of other first lines")
        checks.equal(daemon.tell("zones"), ["ok zones 0"], "zones")
        stopped(checks, daemon, 0)


@test
def bounds_its_clients(checks: Checks, folder: pathlib.Path) -> None:
    with started(checks, folder, "clients = 3") as daemon:
        first = [Client(daemon.address) for _ in range(3)]
        for client in first:
            checks.equal(client.ask("repair"), ["ok repair"], "one of three")
        with Client(daemon.address) as more:
            checks.equal(more.reply(), ["err Busy"], "one more")
            checks.expect(more.is_ended(), "one more is closed")
        checks.equal(daemon.stats()["clients"], 3, "clients")
        first[0].stream.close()

        def is_served() -> bool:
            with Client(daemon.address) as next_one, contextlib.suppress(OSError):
                return next_one.ask("repair") == ["ok repair"]
            return False

        checks.expect(until(is_served), "one that has left makes a place")
        with contextlib.suppress(siploc.Error), siploc.connect(daemon.address) as session:
            session.repair()
        stopped(checks, daemon, 0)


@test
def bounds_its_descriptors(checks: Checks, folder: pathlib.Path) -> None:
    with started(checks, folder, f'state = "{folder}/state"', limit=64) as daemon:
        clients = []
        for _ in range(150):
            client = Client(daemon.address)
            with contextlib.suppress(OSError):
                client.send("repair\n")
            clients.append(client)
        # (32 are served: so many descriptors are left for what is no client)
        for place, client in enumerate(clients):
            wanted = [["ok repair"]] if place < 32 else [["err Busy"], None]
            checks.expect((got := client.reply()) in wanted, f"number {place} of 150: {got}")
        checks.equal(daemon.stats()["clients"], 32, "clients of 64 descriptors")
        told = until(lambda: [it for it in daemon.log() if " event=lowered " in it])
        checks.equal(told, ["warn event=lowered what=clients from=512 to=32"], "what is told of that")
        checks.equal(clients[1].ask("hold udp 192.0.2.1 5060 1000000"), ["ok hold"], "a change while no place is left")
        for client in clients:
            client.stream.close()
        checks.expect(until(lambda: daemon.stats()["clients"] == 0), f"places of the 150, {daemon.stats()}")
        with Client(daemon.address) as client:
            checks.equal(client.ask("release udp 192.0.2.1 5060"), ["ok release"], "after the 150 have left")
        stopped(checks, daemon)


@test
def counts_the_descriptors_of_its_sockets(checks: Checks, folder: pathlib.Path) -> None:
    listen = [f"unix:{folder}/s{n}" for n in range(8)]
    with started(checks, folder, f'state = "{folder}/state"', listen=listen,
                 limit=80) as daemon, contextlib.ExitStack() as stack:
        clients = [stack.enter_context(Client(listen[n % 8])) for n in range(60)]
        for client in clients:
            with contextlib.suppress(OSError):
                client.send("repair\n")
        replies = [client.reply() for client in clients]
        served = replies.count(["ok repair"])
        # (nine sockets have four each at most, and twenty are left for what is no client)
        checks.equal(served, 80 - 20 - 4 * 9, f"clients of 80 descriptors: {replies}")
        checks.expect(all(it in (["ok repair"], ["err Busy"], None) for it in replies), replies)
        one = clients[replies.index(["ok repair"])]
        checks.equal(one.ask("hold udp 192.0.2.1 5060 1000000"), ["ok hold"], "a change while no place is left")
        controls = [stack.enter_context(Client(daemon.control)) for _ in range(8)]
        for client in controls:
            checks.expect((client.ask("stats") or [""])[-1] == "ok stats", "control lines meanwhile")
        stopped(checks, daemon)


@test
def lowers_its_clients_by_its_addresses(checks: Checks, folder: pathlib.Path) -> None:
    """For others are 32, or 20, three for each address of TCP, four for each Unix socket, and eight with `metrics`."""
    for tcp, unix, metrics, others in [(1, 1, "", 32), (6, 0, "", 20 + 6 * 3 + 4),
                                       (6, 0, "127.0.0.1:0", 20 + 7 * 3 + 4 + 8),
                                       (1, 6, f"unix:{folder}/m", 20 + 3 + 8 * 4 + 8)]:
        listen = ["127.0.0.1:0"] * tcp + [f"unix:{folder}/s{n}" for n in range(unix)]
        settings = f'metrics = "{metrics}"' if metrics else ""
        with started(checks, folder, settings, listen=listen, limit=120) as daemon:
            told = until(lambda: [it for it in daemon.log() if " event=lowered " in it])
            checks.equal(told, [f"warn event=lowered what=clients from=512 to={120 - others}"], (tcp, unix, metrics))
            stopped(checks, daemon, 0)


@test
def waits_while_no_descriptor_is_left(checks: Checks, folder: pathlib.Path) -> None:
    with started(checks, folder, f'state = "{folder}/state"') as daemon, contextlib.ExitStack() as stack:
        open_one = stack.enter_context(Client(daemon.address))
        checks.equal(open_one.ask("repair"), ["ok repair"], "before")
        has = daemon.descriptors()
        with daemon.limited(resource.RLIMIT_NOFILE, next(it for it in itertools.count() if it not in has)):
            # The accept that waits has taken its descriptor before, so the first of them may be served.
            others = [stack.enter_context(Client(daemon.address)) for _ in range(5)]
            for other in others:
                other.send("find sip:192.0.2.1:9\n")
            begin, worked = time.monotonic(), daemon.worked()
            for n in range(20):
                checks.equal(open_one.ask(f"hold udp 192.0.2.2 {n + 1} 1000000"), ["ok hold"], "a change meanwhile")
                checks.equal(open_one.ask(f"find sip:192.0.2.2:{n + 1}"), ["none AllHeld"], "a question meanwhile")
                time.sleep(0.05)
            worked, passed = daemon.worked() - worked, time.monotonic() - begin
            checks.equal([it.has_reply() for it in others[1:]], [False] * 4, "replies while no descriptor is left")
            # An accept is tried each 50 milliseconds, and not without a pause.
            checks.expect(worked < passed / 4, f"{worked:.2f} seconds of work in {passed:.2f}")
        for place, other in enumerate(others):
            checks.equal(other.reply(), ["target 1 udp 192.0.2.1 9", "ok find 1"], f"number {place} that waited")
        checks.equal(daemon.stats()["clients"], 6, "clients")
        # (that of control lines may fail too, where it did not wait yet)
        told = until(lambda: [it for it in daemon.log() if f" what=accept at={daemon.address} " in it])
        cause = f'cause="{os.strerror(errno.EMFILE)} (os error {errno.EMFILE})"'
        checks.equal(told, [f"warn event=failed what=accept at={daemon.address} {cause}"], "what is told of them all")
        checks.expect(not any(" event=lowered " in it for it in daemon.log()), "no lower limit at the start")
        stopped(checks, daemon)


@test
def tells_once_that_no_operator_can_be_accepted(checks: Checks, folder: pathlib.Path) -> None:
    metrics = f"unix:{folder}/metrics"
    with started(checks, folder, f'metrics = "{metrics}"') as daemon, contextlib.ExitStack() as stack:
        cause = f'cause="{os.strerror(errno.EMFILE)} (os error {errno.EMFILE})"'
        lines = [f"warn event=failed what=accept at={address} {cause}" for address in (daemon.control, metrics)]

        def told() -> list[str]:
            # (the accept of clients may fail too, where it did not wait yet)
            return sorted(it for it in daemon.log() if " what=accept at=unix:" in it)
        for times in 1, 2:
            has = daemon.descriptors()
            with daemon.limited(resource.RLIMIT_NOFILE, next(it for it in itertools.count() if it not in has)):
                # (each accept that waits has taken its descriptor before)
                controls, scrapers = ([stack.enter_context(Client(it)) for _ in range(2)]
                                      for it in (daemon.control, metrics))
                checks.expect(until(lambda: len(told()) >= 2 * times), f"{times}: {told()}")
                # (an accept is tried each 50 milliseconds)
                time.sleep(0.3)
            for client in controls:
                checks.equal((client.ask("now") or [""])[-1][:6], "ok now", f"{times}: control lines afterwards")
            for client in scrapers:
                client.send("GET /healthz HTTP/1.1\r\n\r\n")
                checks.equal(client.line(), "HTTP/1.1 200 OK\r", f"{times}: a request afterwards")
        stopped(checks, daemon, 0)
        checks.equal(told(), sorted(2 * lines), "what is told of them all")


@test
def refuses_a_client_for_whom_no_thread_is_to_be_had(checks: Checks, folder: pathlib.Path) -> None:
    target = ["target 1 udp 192.0.2.1 1", "ok find 1"]
    # (with two places: one who is refused must leave none taken)
    with started(checks, folder, "clients = 2") as daemon, Client(daemon.address) as open_one:
        checks.equal(open_one.ask("zone example.com. 1\na A 192.0.2.1"), ["ok zone 1 0 0 1"], "before")
        # (a thread's stack has eight megabytes)
        with daemon.limited(resource.RLIMIT_AS, daemon.mapped() + (1 << 20)):
            for n in range(4):
                with Client(daemon.address) as other:
                    with contextlib.suppress(OSError):
                        other.send("repair\n")
                    checks.equal(other.reply(), None, f"number {n} of those for whom there is no thread")
                checks.equal(open_one.ask(f"add a{n}.example.com. A 192.0.2.1"), ["ok add 1"], "a change meanwhile")
                checks.equal(open_one.ask(f"find sip:a{n}.example.com:1"), target, "a question meanwhile")
        with Client(daemon.address) as other:
            checks.equal(other.ask("find sip:a3.example.com:1"), target, "afterwards")
            checks.equal(daemon.stats()["clients"], 2, "clients")
        stopped(checks, daemon, 1 + 4 * 2 + 1)


@test
def serves_200_at_once(checks: Checks, folder: pathlib.Path) -> None:
    def use(place: int) -> list[tuple[str, Any, list[str]]]:
        wrong = []
        with Client(daemon.address) as client:
            apex, address = f"c{place}.example.", f"10.0.1.{place}"
            for line, wanted in [
                (f"zone {apex} 1\ns A {address}", ["ok zone 1 0 0 1"]),
                *[(f"find sip:s.{apex}:{5000 + n}", [f"target 1 udp {address} {5000 + n}", "ok find 1"])
                  for n in range(4)],
                (f"add t.{apex} A {address}", ["ok add 1"]),
                (f"find sip:t.{apex}:1", [f"target 1 udp {address} 1", "ok find 1"]),
                (f"drop {apex}", ["ok drop 2"]), ("quit", ["ok quit"]),
            ]:
                got = client.ask(line)
                if got != wanted:
                    wrong.append((line, got, wanted))
        return wrong

    with started(checks, folder) as daemon:
        with concurrent.futures.ThreadPoolExecutor(200) as pool:
            wrong = [it for each in pool.map(use, range(200)) for it in each]
        checks.equal(wrong, [], f"replies to 200 clients, {len(wrong)} wrong")
        stopped(checks, daemon, 200 * 8)


@test
def outlives_clients_that_hang_up(checks: Checks, folder: pathlib.Path) -> None:
    unix = f"unix:{folder}/s"
    with started(checks, folder, unix=unix) as daemon:
        for turn in range(30):
            client = Client((daemon.address, unix)[turn % 2])
            client.send(("find sip:192.0", "zone example.com. 5\na A 192", "find sip:192.0.2.1\n" * 500,
                         "x" * 70_000)[turn % 4])
            client.reset() if turn % 3 else client.stream.close()
        with Client(daemon.address) as client:
            checks.equal(client.ask("find sip:192.0.2.1:9"), ["target 1 udp 192.0.2.1 9", "ok find 1"],
                         "after 30 that hung up")
        checks.expect(until(lambda: daemon.stats()["clients"] == 0), "places of those that hung up")
        stopped(checks, daemon)


def never_reading(checks: Checks, daemon: Daemon, address: str, hosts: int = 1) -> Client:
    """A client that has sent questions until no more were taken, and reads no reply: each has 32 targets a host."""
    with Client(address) as client:
        apex, lines = f"many{hosts}.example.", []
        for host in range(hosts):
            lines += [f"_sip._udp SRV {host} 0 5060 h{host}", *(f"h{host} A 10.0.{host}.{n}" for n in range(32))]
        loaded = client.ask("\n".join([f"zone {apex} {len(lines)}", *lines]))
        checks.equal(loaded, [f"ok zone {len(lines)} 0 0 {hosts + 1}"], "a zone of many targets")
        checks.equal(len(client.ask(f"find sip:{apex[:-1]}") or []), 32 * hosts + 1, "lines of a reply")
    slow, questions, place = Client(address, is_slow=True), f"find sip:{apex[:-1]}\n".encode() * 1_000, 0

    def waits() -> bool:
        """Sends on, and returns whether nothing is taken, and no question answered, for two seconds."""
        nonlocal place
        while polled(slow.stream, select.POLLOUT) and not slow.is_hung_up():
            place += slow.stream.send(questions[place:], socket.MSG_DONTWAIT)
            place %= len(questions)
        # (while others are filled it may have been ended)
        return slow.is_hung_up() or stands_still(daemon) and not polled(slow.stream, select.POLLOUT)

    # The system takes some megabytes of replies before a write has to wait.
    checks.expect(until(waits, 6 * PATIENCE), "it is never waited for")
    return slow


def stands_still(daemon: Daemon) -> bool:
    """Whether there is no new event within two seconds."""
    before = daemon.stats()["events"]
    time.sleep(2)
    return daemon.stats()["events"] == before


@test
def outlives_a_client_that_never_reads(checks: Checks, folder: pathlib.Path) -> None:
    with started(checks, folder, "journal = 10000") as daemon, never_reading(checks, daemon, daemon.address):
        with Client(daemon.address) as client:
            for n in range(100):
                checks.equal(client.ask(f"find sip:192.0.2.1:{n + 1}"),
                             [f"target 1 udp 192.0.2.1 {n + 1}", "ok find 1"], n)
        checks.expect(daemon.resident() < 200 << 20, f"{daemon.resident()} octets of memory")
        stopped(checks, daemon)


@test
def closes_a_client_that_takes_no_reply(checks: Checks, folder: pathlib.Path) -> None:
    # Over TCP the system takes more of the replies meanwhile, and the thirty seconds begin anew.
    unix, begin = f"unix:{folder}/s", time.monotonic()
    with started(checks, folder, "journal = 10000", unix=unix) as daemon, never_reading(checks, daemon, unix):
        # (the one that loaded the zone may not have left yet)
        checks.expect(until(lambda: daemon.stats()["clients"] == 1), f"clients, {daemon.stats()}")
        checks.expect(until(lambda: daemon.stats()["clients"] == 0, 30 + PATIENCE), "never closed")
        # It has thirty seconds, from its last question on that was answered.
        checks.expect(time.monotonic() - begin > 30, f"closed after {time.monotonic() - begin:.0f} seconds")
        stopped(checks, daemon)


@test
def gives_up_a_client_that_takes_its_replies_slowly(checks: Checks, folder: pathlib.Path) -> None:
    # None takes anything before all are seen to wait: what one takes is an event, by which the others seem to go on.
    all_wait = threading.Barrier(3, timeout=7 * PATIENCE)

    def use(address: str, hosts: int, octets: int, pause: float, most: int) -> tuple[float, float]:
        """Takes so many octets at a time, with a pause after each: how many seconds after the first question the server
        has ended it, and how many after it was seen to wait."""
        begin = time.monotonic()
        with never_reading(checks, daemon, address, hosts) as slow, contextlib.suppress(OSError):
            all_wait.wait()
            waits = time.monotonic()
            while not slow.is_hung_up() and time.monotonic() < waits + most + PATIENCE and slow.stream.recv(octets):
                until(slow.is_hung_up, pause)
        return time.monotonic() - begin, time.monotonic() - waits

    unix = f"unix:{folder}/s"
    with started(checks, folder, "journal = 10000", unix=unix) as daemon:
        # They have thirty seconds. Over TCP the system takes some megabytes more meanwhile. At a Unix socket it frees
        # some kilobytes at a time: the last client gets none, and so takes nothing.
        with concurrent.futures.ThreadPoolExecutor(3) as pool:
            works = {"over TCP": (75, pool.submit(use, daemon.address, 4, 4_096, 0.2, 75)),
                     "at a Unix socket": (30, pool.submit(use, unix, 5, 4_096, 0.2, 30)),
                     "of a Unix socket's nothing": (30, pool.submit(use, unix, 1, 100, 1, 30))}
        for name, (most, work) in works.items():
            least, seen = work.result()
            checks.expect(least >= 30, f"ended after {least:.1f} seconds {name}")
            checks.expect(seen < most + PATIENCE, f"ended {seen:.1f} seconds after it was seen to wait {name}")
        checks.expect(until(lambda: daemon.stats()["clients"] == 0), f"clients, {daemon.stats()}")
        stopped(checks, daemon)


def is_filled(client: Client) -> bool:
    """Whether there is something to read, and no more of it within half a second. No daemon is asked, which may be
    slow: it gives a client up that waits for long before it reads."""
    def unread() -> int:
        found = fcntl.ioctl(client.stream, termios.FIONREAD, bytes(4))
        return int.from_bytes(found, sys.byteorder)

    before = unread()
    time.sleep(0.5)
    return 0 < before == unread()


@test
def a_process_that_is_stopped_and_goes_on_ends_no_session(checks: Checks, folder: pathlib.Path) -> None:
    # (the replies to one read, of which a Unix socket takes half or so; the rest has thirty seconds)
    unix, questions = f"unix:{folder}/s", 400

    def interrupt(daemon: Daemon) -> None:
        """Stops the process, which interrupts each call that waits with a time limit, and lets it go on."""
        for _ in range(3):
            daemon.process.send_signal(signal.SIGSTOP)
            until(lambda: " T " in pathlib.Path(f"/proc/{daemon.process.pid}/stat").read_text())
            daemon.process.send_signal(signal.SIGCONT)
            time.sleep(0.05)

    with started(checks, folder, "idle = 600", unix=unix) as daemon, contextlib.ExitStack() as stack:
        clients = [stack.enter_context(Client(address)) for address in daemon.addresses[:-1]]
        for client in clients:
            checks.equal(client.ask("repair"), ["ok repair"], "before")
        interrupt(daemon)
        for client, address in zip(clients, daemon.addresses):
            checks.equal(client.ask("repair"), ["ok repair"], f"{address}: a client that waited")
        # One whose replies wait for it: 32 targets each, more than a Unix socket takes.
        text = "".join(f"\na A 192.0.2.{n}" for n in range(32))
        checks.equal(clients[0].ask(f"zone example.com. 32{text}"), ["ok zone 32 0 0 1"], "zone")
        slow = stack.enter_context(Client(unix, is_slow=True))
        slow.send("find sip:a.example.com:1\n" * questions)
        until(lambda: is_filled(slow))
        interrupt(daemon)
        wanted = [*(f"target {n + 1} udp 192.0.2.{n} 1" for n in range(32)), "ok find 32"]
        replies = [slow.reply() for _ in range(questions)]
        checks.expect(replies == [wanted] * questions, f"{sum(it == wanted for it in replies)} of {questions} replies")
        stopped(checks, daemon)


@test
def closes_clients_that_send_nothing(checks: Checks, folder: pathlib.Path) -> None:
    with started(checks, folder,
                 "idle = 10") as daemon, Client(daemon.address) as lively:
        begin = time.monotonic()
        with Client(daemon.address) as silent:
            while not silent.has_reply() and time.monotonic() < begin + 10 + PATIENCE:
                checks.equal(lively.ask("repair"), ["ok repair"], "of one that sends")
                time.sleep(0.5)
            checks.expect(silent.is_ended() and time.monotonic() - begin >= 10, "of one that is silent")
        checks.equal(lively.ask("repair"), ["ok repair"], "of one that sends")
        stopped(checks, daemon, 0)


@test
def a_zone_that_never_ends(checks: Checks, folder: pathlib.Path) -> None:
    with started(checks, folder, "zone_octets = 1000000") as daemon, Client(daemon.address) as client:
        checks.equal(client.ask("zone kept.example. 1\na A 192.0.2.1"), ["ok zone 1 0 0 1"], "before")
        line, count, before = "; " + "x" * 60_000, 500, daemon.resident()
        client.send(f"zone kept.example. {count}\n")
        for _ in range(count - 1):
            client.send(line + "\n")
        checks.expect(daemon.resident() < before + (16 << 20),
                      f"{before} and then {daemon.resident()} octets of memory")
        checks.equal(client.ask(line), ["err K2"], "reply")
        checks.equal(client.ask("zone kept.example. 0"), ["ok zone 0 0 0 1"], "emptied")
        # A limit that is just met, and one octet more, with a line end in the middle of a read and at its end. The
        # ends of lines are not counted.
        for octets, end, reply in (1_000_000, "\n", ["ok zone 0 0 0 1"]), (1_000_001, "\n", ["err K2"]), \
                (1_000_000, "\r\n", ["ok zone 0 0 0 1"]), (1_000_001, "\r\n", ["err K2"]), \
                (1_000_000, "\n", ["ok zone 0 0 0 1"]):
            checks.equal(client.ask("zone kept.example. 1\na A 192.0.2.1"), ["ok zone 1 0 0 1"], "again")
            text = [";" * 50_000] * 20
            text[-1] += ";" * (octets - 1_000_000)
            checks.equal(client.ask("zone kept.example. 20\n" + end.join(text)), reply, f"{octets} octets, {end!r}")
            client.ask("zone kept.example. 0")
        checks.equal(client.ask("zone kept.example. 1\na A 192.0.2.1"), ["ok zone 1 0 0 1"], "at last")
        checks.equal(client.ask("find sip:a.kept.example:1"), ["target 1 udp 192.0.2.1 1", "ok find 1"], "after")
        with Client(daemon.address) as other:
            other.send(f"zone example.com. 1048576\n{line}\n")
            stopped(checks, daemon)
