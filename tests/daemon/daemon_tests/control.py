"""Control lines, and the end."""

from __future__ import annotations

import contextlib
import pathlib
import re
import socket
import subprocess
import time

from daemon_tests.support import PATIENCE, PROGRAM, Checks, Client, started, stopped, test, until


@test
def control_lines(checks: Checks, folder: pathlib.Path) -> None:
    with started(checks, folder) as daemon, Client(daemon.address) as client:
        client.ask("zone example.com. 3\na A 192.0.2.1\nb A 192.0.2.2\nb A 192.0.2.3")
        client.ask("hold udp 192.0.2.1 5060 1000000")
        for question in "a.example.com:1", "b.example.com:1", "192.0.2.1", "none.example.com:1":
            client.ask(f"find sip:{question}")
        stats = daemon.stats()
        for name, value in ("targets", 2), ("NoAddress", 1), ("AllHeld", 1), ("NotAvailable", 0), ("NoTransport",
                                                                                                   0), ("clients", 1):
            checks.equal(stats.get(name), value, f"{name} of {stats}")
        # A load, a hold and four answers; the others are moves of the clock.
        checks.expect(stats["events"] >= 6 and stats["resident"] > 1 << 20, stats)
        checks.expect(re.fullmatch(r"ok now \d+", daemon.tell("now")[-1]), daemon.tell("now"))
        checks.expect(daemon.tell("page")[-1].startswith("ok page"), "page")
        checks.expect(until(lambda: daemon.stats().get("waiting", 0) == 0), "a page that waits")
        for line in "", "stats x", "find sip:a.example.com":
            with Client(daemon.control) as other:
                other.send(line + "\nstats\n")
                replies = [other.reply(), *([other.reply()] if line else [])]
                checks.expect((replies[-1] or [""])[-1] == "ok stats", (line, replies))
                checks.expect(not line or (replies[0] or [""])[-1].startswith("err "), (line, replies))
        for octets in b"\xff", b"now\xff", b"\xc3 now":
            with Client(daemon.control) as other:
                other.stream.sendall(octets + b"\nnow\n")
                checks.equal(other.reply(), ["err K1"], octets)
                checks.expect((other.reply() or [""])[-1].startswith("ok now "), f"after {octets!r}")
        with Client(daemon.control) as other, contextlib.suppress(OSError):
            other.send("x" * 100_000)
            other.reply()
        checks.equal(daemon.tell("stats")[-1:], ["ok stats"], "after a control line that is too long")
        ran = subprocess.run([PROGRAM, "tell", daemon.control, "now"], capture_output=True, text=True, timeout=PATIENCE,
                             check=False)
        checks.expect(ran.returncode == 0 and re.search(r"^ok now \d+$", ran.stdout, re.M),
                      (ran.returncode, ran.stdout, ran.stderr))
        ran = subprocess.run([PROGRAM, "tell", f"unix:{folder}/nobody", "now"], capture_output=True, text=True,
                             timeout=PATIENCE,
                             check=False)
        checks.expect(ran.returncode == 1 and ran.stderr.startswith("siplocd:") and not ran.stdout,
                      (ran.returncode, ran.stderr))
        ran = subprocess.run([PROGRAM, "tell", daemon.control, "stop"], capture_output=True, text=True,
                             timeout=PATIENCE, check=False)
        checks.equal(ran.returncode, 0, (ran.stdout, ran.stderr))
        status, last = daemon.end()
        checks.expect(status == 0 and re.fullmatch(r"closed \d+", last), (status, last, daemon.said()))


@test
def stops_for_who_does_not_wait(checks: Checks, folder: pathlib.Path) -> None:
    for number in range(5):
        inner = folder / str(number)
        inner.mkdir()
        with started(checks, inner) as daemon:
            with Client(daemon.control) as client:
                client.send("stop\n")
            status, last = daemon.end()
            checks.expect(status == 0 and last.startswith("closed "), (status, last, daemon.said()))


@test
def silent_control_connections_keep_no_one_out(checks: Checks, folder: pathlib.Path) -> None:
    with started(checks, folder) as daemon, contextlib.ExitStack() as stack:
        silent = [stack.enter_context(Client(daemon.control)) for _ in range(7)]
        lively = silent.pop(0)
        last = stack.enter_context(Client(daemon.control))
        # (each has its place then: one that is heard before another comes was silent for longer)
        for client in lively, *silent, last:
            checks.equal((client.ask("now") or [""])[-1][:6], "ok now", "one of eight")
        for _ in range(12):
            checks.equal((lively.ask("stats") or [""])[-1], "ok stats", "of one that sends lines")
            more = stack.enter_context(Client(daemon.control))
            checks.equal((more.ask("now") or [""])[-1][:6], "ok now", "one more")
        checks.expect(all(it.is_ended() for it in silent), "those that were silent for longest are ended")
        for _ in range(8):
            stack.enter_context(Client(daemon.control))
        stopped(checks, daemon, 0)


@test
def control_shows_what_there_is(checks: Checks, folder: pathlib.Path) -> None:
    with started(checks, folder, "workers = 0") as daemon, Client(daemon.address) as client:
        client.ask("zone example.com. 3\na A 192.0.2.1\nb A 192.0.2.2\nb A 192.0.2.3")
        client.ask("zone other.example. 0")
        client.ask("hold udp 192.0.2.1 5060 1000000")
        client.ask("find sip:a.example.com:1"), client.ask("find sip:b.example.com:1")
        client.ask("add a.example.com. A 192.0.2.9")
        stats = daemon.stats()
        for name, value in ("kept", 2), ("current", 1), ("queued", 1), ("records", 4), ("held", 1):
            checks.equal(stats.get(name), value, f"{name} of {stats}")
        checks.equal(daemon.tell("zones"), ["zone example.com. 4", "zone other.example. 0", "ok zones 2"], "zones")
        found = re.fullmatch(r"hold udp 192\.0\.2\.1 5060 (\d+)\nok holds 1", "\n".join(daemon.tell("holds")))
        checks.expect(found and 0 < int(found[1]) <= 1000000, found)
        stopped(checks, daemon)


@test
def holds_are_told_with_what_is_left_of_them(checks: Checks, folder: pathlib.Path) -> None:
    with started(checks, folder, 'clock = "lines"') as daemon, Client(daemon.address) as client:
        for line in "clock 100", "hold udp 192.0.2.1 5060 1000", "hold tcp ::1 0 400", "hold udp 192.0.2.1 5060 700":
            checks.expect((client.ask(line) or [""])[-1].startswith("ok "), line)
        checks.equal(daemon.tell("now"), ["ok now 100"], "now")
        client.ask("clock 499")
        both = ["hold udp 192.0.2.1 5060 601", "hold tcp 0:0:0:0:0:0:0:1 0 1", "ok holds 2"]
        checks.equal(daemon.tell("holds"), both, "both")
        client.ask("clock 500")
        checks.equal(daemon.tell("holds"), ["hold udp 192.0.2.1 5060 600", "ok holds 1"], "one that has ended")
        stopped(checks, daemon, 6)


@test
def a_control_connection_sends_65536_octets_in_all(checks: Checks, folder: pathlib.Path) -> None:
    with started(checks, folder, 'clock = "lines"') as daemon:
        for blanks, wanted in (65_532, ["ok now 0"]), (65_533, None), (65_536, None):
            with Client(daemon.control) as client:
                client.send("\n" * blanks + "now\nnow\n")
                checks.equal((client.reply(), client.reply()), (wanted, None), f"after {blanks} octets")
        stopped(checks, daemon, 0)


@test
def carries_out_no_control_line_that_its_client_cuts(checks: Checks, folder: pathlib.Path) -> None:
    with started(checks, folder, 'clock = "lines"') as daemon:
        for line in "stop", "page", "now", "zones":
            with Client(daemon.control) as client:
                client.send(f"now\n{line}")
                client.stream.shutdown(socket.SHUT_WR)
                checks.equal(client.reply(), ["ok now 0"], f"before {line!r}")
                checks.equal((client.reply(), client.rest), (None, b""), f"a reply to {line!r}")
        checks.equal(daemon.tell("now"), ["ok now 0"], "after them")
        stopped(checks, daemon, 0)


@test
def ends_with_its_input(checks: Checks, folder: pathlib.Path) -> None:
    with started(checks, folder, 'stdin = "stop"', has_input=True) as daemon, Client(daemon.address) as client:
        checks.equal(client.ask("find sip:192.0.2.1")[-1:], ["ok find 1"], "find")
        daemon.process.stdin.close()
        checks.equal(daemon.end(), (0, "closed 1"), "the end of its input")
    with started(checks, folder, 'stdin = "stop"', has_input=True) as daemon, Client(daemon.address) as client:
        for octets in b"a line\n", b"\xff\xfe\n", b"\xff" * 10_000:
            daemon.process.stdin.write(octets)
            daemon.process.stdin.flush()
            time.sleep(0.2)
            checks.equal(client.ask("find sip:192.0.2.1")[-1:], ["ok find 1"], f"after {octets[:8]!r}")
        daemon.process.stdin.close()
        checks.equal(daemon.end(), (0, "closed 3"), "the end of its input")
    with started(checks, folder, "", has_input=True) as daemon, Client(daemon.address) as client:
        daemon.process.stdin.close()
        time.sleep(0.2)
        checks.equal(client.ask("find sip:192.0.2.1")[-1:], ["ok find 1"], "find")
        stopped(checks, daemon, 1)


@test
def a_connection_that_asked_for_the_stop_ends_last(checks: Checks, folder: pathlib.Path) -> None:
    """Who kills the daemon once that connection has ended finds its last lines all the same."""
    for _ in range(20):
        with started(checks, folder) as daemon, Client(daemon.control) as client:
            client.send("stop\n")
            while client.stream.recv(4096):
                pass
            daemon.kill()
            daemon.reader.join(PATIENCE)
            checks.equal(daemon.lines[-1:], ["closed 0"], "the last line")
            checks.expect("event=end" in (daemon.log() or [""])[-1], daemon.log()[-1:])


@test
def stops_however_clients_behave(checks: Checks, folder: pathlib.Path) -> None:
    with started(checks, folder) as daemon, contextlib.ExitStack() as stack:
        clients = [stack.enter_context(Client(daemon.address)) for _ in range(12)]
        for place, client in enumerate(clients):
            client.stream.settimeout(0.5)
            with contextlib.suppress(OSError):
                client.send(("", "find sip:192", "zone example.com. 9\na A 192.0.2.1\n",
                             "find sip:192.0.2.1\n" * 30_000)[place % 4])
        stopped(checks, daemon)
