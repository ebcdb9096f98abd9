"""Metrics for Prometheus, over HTTP."""

from __future__ import annotations

import contextlib
import errno
import pathlib
import re
import socket
import time
from typing import Optional

from daemon_tests.support import PATIENCE, TOP, Checks, Client, Daemon, connect, started, stopped, test, until
from daemon_tests.syncs import Syncs

ZONE = "zone example.com. 2\n@ A 192.0.2.1\nw A 192.0.2.2\n"
SAMPLE = re.compile(r'([a-z_]+)(\{[a-z]+="[^"]*"\})? ([0-9.]+)')


def answer(address: str, request: str) -> tuple[str, dict[str, str], str]:
    """The status line, the fields and the body of the reply to a request."""
    with connect(address) as stream:
        stream.sendall(request.encode())
        octets = b""
        while piece := stream.recv(1 << 16):
            octets += piece
    head, _, body = octets.decode().partition("\r\n\r\n")
    status, *fields = head.split("\r\n")
    return status, {name.lower(): value for name, value in (it.split(": ", 1) for it in fields)}, body


def get(address: str, path: str) -> tuple[str, dict[str, str], str]:
    return answer(address, f"GET {path} HTTP/1.1\r\nHost: {address}\r\n\r\n")


class Page:
    """The metrics at an address, as they are now."""

    def __init__(self, address: str) -> None:
        self.status, self.fields, self.text = get(address, "/metrics")
        self.samples = [SAMPLE.fullmatch(it) for it in self.text.splitlines() if not it.startswith("#")]

    def value(self, name: str, label: str = "") -> float:
        found = [it[3] for it in self.samples if it and it[1] == name and (it[2] or "").strip("{}") == label]
        return float(found[0]) if len(found) == 1 else -1


def metrics_of(daemon: Daemon) -> str:
    """Where its metrics are, as the log has it: of a port that the system chose."""
    def found() -> Optional[str]:
        match = re.search(r"event=ready for=metrics at=(\S+)", "\n".join(daemon.log()))
        return match[1] if match else None
    return until(found) or ""


@test
def shows_its_metrics(checks: Checks, folder: pathlib.Path) -> None:
    with started(checks, folder, 'metrics = "127.0.0.1:0"') as daemon:
        address = metrics_of(daemon)
        with Client(daemon.address) as client:
            for line in (ZONE, "hold tcp 192.0.2.9 5060 3600000", "find sip:w.example.com", "find sip:none.example.com",
                         "find sip:w.example.com;transport=sctp", "find sip:192.0.2.9:5060;transport=tcp"):
                checks.expect(client.ask(line), line)
            # (a batch is counted after its replies)
            until(lambda: Page(address).value("siploc_batch_seconds_count") == 6)
            page, stats = Page(address), daemon.stats()
            checks.equal(page.status, "HTTP/1.1 200 OK", "status")
            checks.equal(page.fields.get("content-type"), "text/plain; version=0.0.4; charset=utf-8", "type")
            checks.equal(page.fields.get("content-length"), str(len(page.text)), "length")
            checks.expect(all(page.samples), page.text)
            for name, of in (("records", "records"), ("held_endpoints", "held"), ("clients", "clients"),
                             ("kept_answers", "kept"), ("current_answers", "current"),
                             ("pages_claimed_total", "pages")):
                checks.equal(page.value(f"siploc_{name}"), stats[of], name)
            for end, of in (("targets", "targets"), ("no_address", "NoAddress"), ("not_available", "NotAvailable"),
                            ("no_transport", "NoTransport"), ("all_held", "AllHeld")):
                checks.equal(page.value("siploc_finds_total", f'end="{end}"'), stats[of], end)
            checks.equal(sum(stats[it] for it in ("targets", "NoAddress", "NotAvailable", "NoTransport", "AllHeld")), 4,
                         "answers")
            checks.equal(page.value("siploc_zones"), 1, "zones")
            checks.equal(page.value("siploc_changes_refused"), 0, "changes refused")
            checks.expect(page.value("siploc_resident_bytes") > 1 << 20, "resident")
            checks.expect(page.value("siploc_events_total") >= 6, "events")
            checks.equal(page.value("siploc_batch_seconds_count"), 6, "batches")
        # Each metric has its help and its type before its samples, once.
        names = re.findall(r"^# TYPE (\w+) (\w+)$", page.text, re.M)
        checks.equal(names, [(name, kind) for name, kind in dict(names).items()], "types")
        checks.equal(re.findall(r"^# HELP (\w+) .+\.$", page.text, re.M), [name for name, _ in names], "helps")
        for name, kind in names:
            checks.expect(name.endswith("_total") == (kind == "counter"), (name, kind))
        counts = [float(it[3]) for it in page.samples if it and it[1] == "siploc_batch_seconds_bucket"]
        bounds = re.findall(r'siploc_batch_seconds_bucket\{le="([^"]+)"\}', page.text)
        checks.expect(counts == sorted(counts) and counts[-1] == 6, counts)
        checks.expect(bounds[-1] == "+Inf" and [*map(float, bounds)] == sorted(map(float, bounds)), bounds)
        checks.expect(page.value("siploc_batch_seconds_sum") > 0, "sum")
        checks.expect(until(lambda: Page(address).value("siploc_clients") == 0), "clients that have left")
        stopped(checks, daemon)


@test
def its_metrics_are_those_of_the_document(checks: Checks, folder: pathlib.Path) -> None:
    text = (TOP / "docs/use/FORMATS.md").read_text().partition("**Metrics.**")[2]
    rows = re.findall(r"^- (Counters|Gauges|A histogram)(.*)$", text, re.M)
    wanted = {name: head.split()[-1].lower().rstrip("s") for head, row in rows
              for name in re.findall(r"`(siploc_\w+)`", row)}
    with started(checks, folder, 'metrics = "127.0.0.1:0"') as daemon:
        page = Page(metrics_of(daemon))
        checks.equal(dict(re.findall(r"^# TYPE (\w+) (\w+)$", page.text, re.M)), wanted, "names and types")
        ends = re.findall(r'^siploc_finds_total\{end="(\w+)"\}', page.text, re.M)
        checks.equal(ends, re.findall(r"`(\w+)`", rows[0][1].partition("(")[2].partition(")")[0]), "ends")
        stopped(checks, daemon, 0)


@test
def shows_when_it_was_started(checks: Checks, folder: pathlib.Path) -> None:
    begin = int(time.time())
    with started(checks, folder, 'metrics = "127.0.0.1:0"') as daemon:
        ready = time.time()
        address = metrics_of(daemon)
        time.sleep(1.1)
        found = Page(address).value("siploc_start_time_seconds")
        checks.expect(begin <= found <= ready, (begin, found, ready))
        stopped(checks, daemon, 0)


@test
def shows_while_changes_are_refused(checks: Checks, folder: pathlib.Path) -> None:
    syncs, settings = Syncs(folder), f'state = "{folder}/state"\non_failure = "read"\nmetrics = "127.0.0.1:0"'
    with started(checks, folder, settings, environment=syncs.environment) as daemon, \
            Client(daemon.address) as client, Client(daemon.address) as other:
        address, line = metrics_of(daemon), "add c.example.com. A 192.0.2.3"

        def refused() -> float:
            return Page(address).value("siploc_changes_refused")
        checks.equal(client.ask("zone example.com. 1\na A 192.0.2.1"), ["ok zone 1 0 0 1"], "zone")
        checks.equal(refused(), 0, "before")
        syncs.fail("sync", errno.ENOSPC)
        checks.equal(client.ask("add b.example.com. A 192.0.2.2"), None, "reply to a change that failed")
        checks.equal((other.ask(line), refused()), (["err D2"], 1), "meanwhile")
        syncs.fail("sync", 0)
        checks.expect(until(lambda: refused() == 0), "for ever")
        checks.expect((other.ask(line) or [""])[-1].startswith("ok "), "a change afterwards")
        stopped(checks, daemon)


@test
def counts_clients_by_cause(checks: Checks, folder: pathlib.Path) -> None:
    with started(checks, folder, 'metrics = "127.0.0.1:0"\nclients = 1\nidle = 10') as daemon:
        address = metrics_of(daemon)
        with Client(daemon.address) as client:
            client.ask("repair")
            with Client(daemon.address) as other:
                checks.equal(other.reply(), ["err Busy"], "a client too many")
            checks.expect(client.is_ended(), "idle")
        checks.expect(until(lambda: Page(address).value("siploc_clients") == 0), "it has left")
        page = Page(address)
        for name, label, wanted in (("accepted", "", 1), ("refused", 'cause="busy"', 1),
                                    ("refused", 'cause="threads"', 0),
                                    ("closed", 'cause="idle"', 1), ("closed", 'cause="slow"', 0)):
            checks.equal(page.value(f"siploc_{name}_clients_total", label), wanted, (name, label))
        stopped(checks, daemon)


@test
def refuses_other_requests(checks: Checks, folder: pathlib.Path) -> None:
    with started(checks, folder, 'metrics = "127.0.0.1:0"') as daemon:
        address = metrics_of(daemon)
        for request, status in [
            ("GET /metrics HTTP/1.1", 200), ("GET /metrics HTTP/1.0", 200), ("GET /metrics?name[]=up HTTP/1.1", 200),
            ("GET /healthz HTTP/1.1", 200), ("GET / HTTP/1.1", 404), ("GET /metrics/ HTTP/1.1", 404),
            ("POST /x HTTP/1.1", 404),
            ("POST /metrics HTTP/1.1", 405), ("HEAD /healthz HTTP/1.1", 405), ("get /metrics HTTP/1.1", 405),
            ("GET /metrics", 400), ("stats", 400), ("GET  /metrics HTTP/1.1", 400), ("GET /metrics HTTP/2.0", 400),
            (f"GET /metrics HTTP/1.1\r\nX: {'x' * 8_192}", 400), ("GET /metrics HTTP/1.1\r\nno field", 400),
            ("GET /metrics HTTP/1.1\r\n" + "\r\n".join(f"x{it}: y" for it in range(65)), 400),
        ]:
            found, fields, body = answer(address, request + "\r\n\r\n")
            checks.expect(re.fullmatch(rf"HTTP/1\.1 {status} [A-Z].*", found), (request[:60], found))
            checks.equal(fields.get("content-length"), str(len(body)), (request[:60], "length"))
            checks.equal(fields.get("connection"), "close", (request[:60], "connection"))
            checks.equal(fields.get("allow"), "GET" if status == 405 else None, (request[:60], "allow"))
        # A head that comes in pieces.
        with connect(address) as stream:
            for piece in "GET /hea", "lthz HTTP/1.1\r\nHo", "st: x\r\n", "\r\n":
                stream.sendall(piece.encode())
                time.sleep(0.05)
            checks.expect(stream.recv(1 << 16).startswith(b"HTTP/1.1 200 OK\r\n"), "a head in pieces")
        # What it cannot listen at.
        with socket.create_server(("127.0.0.1", 0)) as other:
            taken = other.getsockname()[1]
            own = folder / "own"
            own.mkdir()
            second = Daemon(own, f'metrics = "127.0.0.1:{taken}"', waits=False)
            status, _ = second.end()
            checks.expect(status == 1 and f"siplocd: listen 127.0.0.1:{taken}: " in second.said(),
                          (status, second.said()))
        stopped(checks, daemon, 0)


@test
def closes_a_slow_scraper(checks: Checks, folder: pathlib.Path) -> None:
    with started(checks, folder, 'metrics = "127.0.0.1:0"') as daemon:
        address, begin = metrics_of(daemon), time.monotonic()
        with connect(address) as silent, connect(address) as dripping:
            dripping.settimeout(0.2)
            ended = 0.0
            while not ended and time.monotonic() - begin < PATIENCE + 10:
                with contextlib.suppress(TimeoutError):
                    try:
                        dripping.sendall(b"G")
                        ended = 0.0 if dripping.recv(1) else time.monotonic() - begin
                    except ConnectionError:
                        ended = time.monotonic() - begin
            checks.expect(9 < ended < 10 + PATIENCE / 2,
                          f"one that sends an octet now and then ended after {ended:.1f} seconds")
            silent.settimeout(PATIENCE)
            checks.equal(silent.recv(1), b"", "one that sends nothing")
        checks.equal(get(address, "/healthz")[0], "HTTP/1.1 200 OK", "others")
        stopped(checks, daemon, 0)


@test
def has_eight_scrapers_at_most(checks: Checks, folder: pathlib.Path) -> None:
    with started(checks, folder, 'metrics = "127.0.0.1:0"') as daemon:
        address = metrics_of(daemon)
        with contextlib.ExitStack() as stack:
            streams = [stack.enter_context(connect(address)) for _ in range(8)]
            for stream in streams:
                stream.sendall(b"GET")
            with connect(address) as ninth:
                checks.equal(ninth.recv(1), b"", "a ninth")
            with Client(daemon.address) as client:
                checks.equal(client.ask("repair"), ["ok repair"], "a client beside them")
            streams[3].close()

            def is_served() -> bool:
                with contextlib.suppress(ConnectionError, ValueError, IndexError):
                    return get(address, "/healthz")[0] == "HTTP/1.1 200 OK"
                return False
            checks.expect(until(is_served), "one in the place of one that has left")
            # Those that are there do not keep it from its end.
            stopped(checks, daemon, 0)


def asked_once_it_stops(checks: Checks, folder: pathlib.Path) -> list[str]:
    """Asks a daemon whether it is healthy, before it is stopped, and until it ends: the last status lines."""
    seen = []
    with started(checks, folder, 'metrics = "127.0.0.1:0"') as daemon:
        address = metrics_of(daemon)
        checks.equal(get(address, "/healthz")[2], "ok\n", "before")
        with Client(daemon.address, is_slow=True) as client:
            client.ask("zone example.com. 1\n@ A 192.0.2.1")
            # A client that takes no replies is given a second.
            with contextlib.suppress(OSError):
                client.stream.settimeout(1)
                for _ in range(200):
                    client.send("find sip:example.com\n" * 2_000)
            with Client(daemon.control) as control, contextlib.suppress(OSError, ValueError):
                control.send("stop\n")
                end = time.monotonic() + PATIENCE
                while time.monotonic() < end:
                    seen.append(get(address, "/healthz")[0])
        checks.equal(daemon.end()[0], 0, "its status")
    return seen


@test
def is_not_healthy_once_it_stops(checks: Checks, folder: pathlib.Path) -> None:
    # (a busy machine may take the second that there is for it)
    tries, end = [asked_once_it_stops(checks, folder)], time.monotonic() + 2 * PATIENCE
    while "HTTP/1.1 503 Service Unavailable" not in tries[-1] and time.monotonic() < end:
        tries.append(asked_once_it_stops(checks, folder))
    checks.expect("HTTP/1.1 503 Service Unavailable" in tries[-1], [seen[-3:] for seen in tries])
