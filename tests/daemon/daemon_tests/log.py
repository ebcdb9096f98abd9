"""The log on standard error: one line an event, which stops and slows no session."""

from __future__ import annotations

import os
import pathlib
import re
import shlex
import subprocess
import time
from typing import Optional

from daemon_tests.metrics import Page
from daemon_tests.support import PATIENCE, PROGRAM, Checks, Client, Daemon, ended_start, started, stopped, test, until
from started import free_ports

ZONE = "zone example.com. 2\n@ A 192.0.2.1\nw A 192.0.2.2\n"


class Line:
    """A line of the log: its level, and its keys with their values."""

    def __init__(self, text: str) -> None:
        self.text = text
        self.priority, self.level, rest = re.fullmatch(r"(<\d>)?(\w+) (.*)", text).groups()  # type: ignore[union-attr]
        self.of = dict(word.split("=", 1) for word in shlex.split(rest))


def lines(daemon: Daemon, event: str) -> list[Line]:
    return [it for it in map(Line, daemon.log()) if it.of.get("event") == event]


def wait_for(checks: Checks, daemon: Daemon, event: str, seconds: float = PATIENCE, **of: str) -> Optional[Line]:
    """Waits for a line of an event with these values."""
    def found() -> Optional[Line]:
        return next((it for it in lines(daemon, event) if of.items() <= it.of.items()), None)
    line = until(found, seconds)
    checks.expect(line, f"no line {event} {of}: {daemon.log()[-20:]}")
    return line


@test
def logs_its_start_and_its_end(checks: Checks, folder: pathlib.Path) -> None:
    settings = 'clients = 512\nidle = 7\nfamilies = "v4"\nheld = "last"\ntransports = ["tls", "tcp"]\nlog = "info"'
    with started(checks, folder, settings) as daemon:
        start = wait_for(checks, daemon, "start")
        if start:
            wanted = {"event": "start", "idle": "7", "held": "last", "transports": "tls,tcp", "control": daemon.control,
                      "listen": "127.0.0.1:0"}
            checks.expect(re.fullmatch(r"\d+\.\d+(\+\w+)*", start.of.pop("version")), start.text)
            checks.equal((start.level, start.of), ("info", wanted), start.text)
        for address, whom in (daemon.address, "clients"), (daemon.control, "control"):
            wait_for(checks, daemon, "ready", **{"at": address, "for": whom})
        with Client(daemon.address) as client:
            client.ask("find sip:192.0.2.1:9")
        stopped(checks, daemon, 1)
        wait_for(checks, daemon, "stopping")
        wait_for(checks, daemon, "end", events="1")
        checks.equal([Line(it).of["event"] for it in (daemon.log()[0], daemon.log()[-1])], ["start", "end"],
                     "the first and the last")
        checks.equal(daemon.said(), "", "messages")


@test
def logs_what_it_is_told_to(checks: Checks, folder: pathlib.Path) -> None:
    levels = ["off", "error", "warn", "info", "debug"]
    for place, verbosity in enumerate(levels):
        own = folder / verbosity
        own.mkdir()
        with started(checks, own, f'log = "{verbosity}"\nclients = 1') as daemon:
            with Client(daemon.address) as client:
                client.ask(ZONE + "add y.example.com. A 192.0.2.3")
                client.reply()
                client.ask("drop example.org.")
                with Client(daemon.address) as other:
                    checks.equal(other.reply(), ["err Busy"], "a second client")
                client.ask("quit")
            stopped(checks, daemon)
            seen = {Line(it).level for it in daemon.log()}
            checks.equal(seen, set(levels[2:place + 1]), f"levels at {verbosity}")
            checks.equal(daemon.said(), "", "messages")


@test
def logs_edits_and_states(checks: Checks, folder: pathlib.Path) -> None:
    with started(checks, folder, f'log = "debug"\nstate = "{folder}/state"') as daemon:
        with Client(daemon.address) as client:
            checks.equal(client.ask(ZONE), ["ok zone 2 0 0 2"], "zone")
            checks.equal(client.ask("add x.example.com. A 192.0.2.3"), ["ok add 1"], "add")
            checks.equal(client.ask("del x.example.com. A 192.0.2.3"), ["ok del 1"], "del")
            checks.equal(client.ask("drop example.com."), ["ok drop 2"], "drop")
            code = (client.ask("drop example.com.") or [""])[0].removeprefix("err ")
            checks.equal(client.ask("zone a\\032b\\\". 0"), ["ok zone 0 0 0 0"], "a name to be quoted")
        for event, level, name, records in (("loaded", "info", "example.com.", "2"),
                                            ("added", "debug", "x.example.com.", "1"),
                                            ("removed", "debug", "x.example.com.", "1"),
                                            ("dropped", "info", "example.com.", "2")):
            line = wait_for(checks, daemon, event, name=name, records=records)
            checks.expect(line and line.level == level and re.fullmatch(r"\d+\.\d{3}", line.of["ms"]),
                          line and line.text)
        failed = wait_for(checks, daemon, "failed", what="dropped", name="example.com.", code=code)
        checks.equal(failed and failed.level, "warn", "a change that failed")
        wait_for(checks, daemon, "loaded", name='a\\032b\\".')
        stopped(checks, daemon)
        written = wait_for(checks, daemon, "written", path=f"{folder}/state")
        checks.equal(written and written.of["octets"], str((folder / "state").stat().st_size), "octets of the state")


@test
def logs_what_a_start_reads(checks: Checks, folder: pathlib.Path) -> None:
    state = str(folder / "state")
    settings = f'state = "{state}"\nclock = "lines"'
    with started(checks, folder, settings) as daemon, Client(daemon.address) as client:
        empty = wait_for(checks, daemon, "empty")
        checks.equal(empty and (empty.level, empty.of), ("warn", {"event": "empty", "path": state}), "no state")
        checks.equal(lines(daemon, "read"), [], "what is read of no state")
        for line in ZONE.rstrip(), "zone example.org. 1\na A 192.0.2.3", "hold udp 192.0.2.9 5060 100000":
            checks.expect((client.ask(line) or [""])[-1].startswith("ok "), line)
        daemon.kill()
    # (each of the three had a reply before the next was sent, so each is a commit)
    for commits in 3, 0:
        with started(checks, folder, settings) as daemon:
            read = wait_for(checks, daemon, "read")
            wanted = {"event": "read", "path": state, "zones": "2", "records": "3", "held": "1", "commits": str(commits)}
            checks.expect(read and re.fullmatch(r"\d+\.\d{3}", read.of.pop("ms")), read and read.text)
            checks.equal(read and (read.level, read.of), ("info", wanted), f"{commits} commits")
            checks.equal(lines(daemon, "empty"), [], f"a state and {commits} commits")
            # (it prints that it is ready before the thread of the log has written it)
            wait_for(checks, daemon, "ready")
            order = [Line(it).of["event"] for it in daemon.log()]
            checks.equal(order[:3], ["start", "read", "ready"], "the first lines")
            stopped(checks, daemon)


@test
def logs_why_a_client_is_closed(checks: Checks, folder: pathlib.Path) -> None:
    def logs(daemon: Daemon, cause: str, level: str) -> None:
        line = wait_for(checks, daemon, "closed", cause=cause)
        checks.equal(line and line.level, level, cause)
        stopped(checks, daemon, 0)

    with started(checks, folder, 'idle = 1\nlog = "debug"') as daemon:
        with Client(daemon.address) as client:
            checks.expect(client.is_ended(), "idle")
        logs(daemon, "idle", "info")
    # (not of that one, which a busy machine may find idle before it has sent anything)
    with started(checks, folder, 'log = "debug"') as daemon:
        with Client(daemon.address) as client:
            client.send("GET / HTTP/1.1\r\n\r\n")
            checks.expect(client.is_ended(), "a request of HTTP")
        logs(daemon, "http", "info")
    with started(checks, folder, 'log = "debug"') as daemon:
        with Client(daemon.address) as client:
            client.ask("quit")
        logs(daemon, "end", "debug")


@test
def tells_equal_lines_as_one(checks: Checks, folder: pathlib.Path) -> None:
    count = 60
    with started(checks, folder, "clients = 1") as daemon:
        with Client(daemon.address) as client:
            client.ask("repair")
            begin = time.monotonic()
            for _ in range(count):
                with Client(daemon.address) as other:
                    checks.equal(other.reply(), ["err Busy"], "a client too many")
            seconds = time.monotonic() - begin

            def told() -> int:
                found = lines(daemon, "refused")
                return sum(int(it.of.get("repeated", "1")) for it in found)
            checks.expect(until(lambda: told() == count), (told(), daemon.log()))
            plain = [it for it in lines(daemon, "refused") if "repeated" not in it.of]
            checks.expect(10 <= len(plain) <= 10 * (seconds + 2), f"{len(plain)} lines in {seconds:.1f} seconds")
        stopped(checks, daemon, 0)


@test
def has_priorities_for_the_journal(checks: Checks, folder: pathlib.Path) -> None:
    environment = {"JOURNAL_STREAM": "8:1234"}
    with started(checks, folder, 'log = "debug"\nclients = 1', environment=environment) as daemon:
        with Client(daemon.address) as client:
            client.ask("repair")
            with Client(daemon.address) as other:
                other.reply()
        until(lambda: lines(daemon, "closed"))
        stopped(checks, daemon, 0)
        found = {(it.priority, it.level) for it in map(Line, daemon.log())}
        checks.equal(found, {("<4>", "warn"), ("<6>", "info"), ("<7>", "debug")}, "priorities")
        checks.equal(daemon.said(), "", "lines without one")
    daemon = Daemon(folder, f'state = "{folder}/none/state"', environment=environment, waits=False)
    status, _ = daemon.end()
    checks.expect(status == 1 and daemon.said().startswith("<3>siplocd: state "), (status, daemon.said()))
    status, said = ended_start(folder, f'state = "{folder}/none/state"\nlog = "off"')
    checks.expect(status == 1 and said.startswith("siplocd: state "), ("a message with no log", status, said))


@test
def a_log_that_no_one_reads_stops_no_session(checks: Checks, folder: pathlib.Path) -> None:
    port, metrics = free_ports(2)
    settings = f'listen = ["127.0.0.1:{port}"]\nmetrics = "127.0.0.1:{metrics}"\nlog = "debug"\ncontrol = "unix:{folder}/c"'
    reader, writer = os.pipe()
    process = subprocess.Popen([PROGRAM, settings], stdout=subprocess.PIPE, stderr=writer, stdin=subprocess.DEVNULL)
    os.close(writer)
    try:
        checks.expect(b"ready" in (process.stdout.readline() if process.stdout else b""), "it begins")
        with Client(f"127.0.0.1:{port}") as client:
            checks.equal(client.ask("zone example.com. 0"), ["ok zone 0 0 0 0"], "zone")
            for begin in range(0, 5_000, 500):
                client.send("".join(f"add n{number}.example.com. A 192.0.2.3\n"
                                    for number in range(begin, begin + 500)))
                replies = [client.reply() for _ in range(500)]
                checks.equal(replies, 500 * [["ok add 1"]], begin)
            page = Page(f"127.0.0.1:{metrics}")
            dropped = page.value("siploc_log_lines_dropped_total")
            checks.expect(dropped > 1_000, f"{dropped} lines were dropped")
        # Once it is read again, the log goes on and says what is missing.
        text = b""
        end = time.monotonic() + PATIENCE
        os.set_blocking(reader, False)
        with Client(f"127.0.0.1:{port}") as client:
            while lines_lost(text) < dropped and time.monotonic() < end:
                try:
                    text += os.read(reader, 1 << 16)
                except BlockingIOError:
                    client.ask(f"drop n{len(text)}.")
                    time.sleep(0.01)
        checks.expect(lines_lost(text) >= dropped, text[-300:])
        # The rest is not read, and it ends all the same.
        begin = time.monotonic()
        subprocess.run([PROGRAM, "tell", f"unix:{folder}/c", "stop"], stdout=subprocess.DEVNULL, timeout=PATIENCE,
                       check=False)
        checks.equal(process.wait(PATIENCE), 0, "its status")
        checks.expect(time.monotonic() - begin < PATIENCE, "it ends in time")
    finally:
        process.kill()
        process.wait()
        os.close(reader)
        if process.stdout:
            process.stdout.close()


def lines_lost(text: bytes) -> int:
    """How many lines a log says to be lost: maybe after a line that was written in part."""
    return sum(int(it) for it in re.findall(rb"warn event=lost lines=(\d+)\n", text))


def lines_told(text: bytes) -> int:
    """How many of the lines about names that begin with `n` are whole in a log, or said to be lost."""
    whole = re.findall(rb"^debug event=added name=n\d+\.example\.com\. .*ms=\d+\.\d{3}$", text, re.M)
    return len(whole) + lines_lost(text)


def read_log(reader: int, client: Client, count: int) -> bytes:
    """Reads a log until it tells of so many lines, for some time at most. Meanwhile edits are refused, which is told."""
    text, end = b"", time.monotonic() + PATIENCE
    while lines_told(text) < count and time.monotonic() < end:
        try:
            text += os.read(reader, 1 << 16)
        except BlockingIOError:
            client.ask("drop none.")
            time.sleep(0.05)
    return text


@test
def counts_what_could_not_be_written(checks: Checks, folder: pathlib.Path) -> None:
    address, count = f"unix:{folder}/lines", 3_000
    reader, writer = os.pipe()
    # A write that would wait fails, as one to a disk that is full does.
    os.set_blocking(writer, False)
    os.set_blocking(reader, False)
    process = subprocess.Popen([PROGRAM, f'listen = ["{address}"]\nlog = "debug"'], stdout=subprocess.PIPE,
                               stderr=writer, stdin=subprocess.DEVNULL)
    os.close(writer)
    try:
        checks.expect(b"ready" in (process.stdout.readline() if process.stdout else b""), "it begins")
        with Client(address) as client:
            client.ask("zone example.com. 0")
            for begin in range(0, count, 250):
                client.send("".join(f"add n{it}.example.com. A 192.0.2.3\n" for it in range(begin, begin + 250)))
                checks.equal([client.reply() for _ in range(250)], 250 * [["ok add 1"]], begin)
            text = read_log(reader, client, count)
        checks.expect(b"event=lost" in text and lines_told(text) >= count, (lines_told(text), text[-300:]))
    finally:
        process.kill()
        process.wait()
        os.close(reader)
        if process.stdout:
            process.stdout.close()
