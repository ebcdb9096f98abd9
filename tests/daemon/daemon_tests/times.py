"""The time: holds that end, and calls."""

from __future__ import annotations

import pathlib
import time

from daemon_tests.support import Checks, Client, started, stopped, test, until


@test
def a_hold_ends_by_itself(checks: Checks, folder: pathlib.Path) -> None:
    with started(checks, folder) as daemon, Client(daemon.address) as client:
        question, target = "find sip:192.0.2.1", ["target 1 udp 192.0.2.1 5060", "ok find 1"]
        checks.equal(client.ask(question), target, "before")
        begin = time.monotonic()
        checks.equal(client.ask("hold udp 192.0.2.1 5060 3000"), ["ok hold"], "hold")
        # (by another client, which types nothing but the question)
        with Client(daemon.address) as other:
            answer = other.ask(question)
            checks.expect(answer == ["none AllHeld"] or time.monotonic() - begin >= 3, f"held: {answer}")
            checks.expect(until(lambda: other.ask(question) == target), "held for ever")
        checks.expect(time.monotonic() - begin >= 3, f"held for {time.monotonic() - begin:.3f} seconds of 3")
        checks.equal(client.ask("clock 1"), ["err D1"], "clock")
        # Without holds and calls the time costs nothing.
        before = daemon.stats()["events"]
        time.sleep(0.5)
        checks.equal(daemon.stats()["events"], before, "events while nothing is held")
        stopped(checks, daemon)


@test
def the_time_moves_while_an_endpoint_is_held(checks: Checks, folder: pathlib.Path) -> None:
    with started(checks, folder) as daemon, Client(daemon.address) as client:
        def seen() -> tuple[list[str], int]:
            return daemon.tell("now"), daemon.stats()["events"]

        # Some milliseconds have passed, and no event was made of them.
        checks.equal(client.ask("hold udp 192.0.2.1 5060 0"), ["ok hold"], "hold of no time")
        before = seen()
        for line in "clock 0", "clock 1", "clock 4000000000", before[0][0][3:].replace("now", "clock"):
            checks.equal(client.ask(line), ["err D1"], line)
        time.sleep(0.3)
        checks.equal(seen(), before, "time and events after clock lines that are refused")
        checks.equal(client.ask("hold udp 192.0.2.1 5060 3600000"), ["ok hold"], "hold")
        held = seen()
        checks.expect(until(lambda: seen()[1] >= held[1] + 3), f"{held} and then {seen()} while an endpoint is held")
        checks.equal(client.ask("clock 4000000000"), ["err D1"], "clock while an endpoint is held")
        checks.expect(int(seen()[0][0].split(" ")[2]) < 3_600_000, f"{seen()} after a clock line")
        checks.equal(client.ask("release udp 192.0.2.1 5060"), ["ok release"], "release")
        after = seen()
        time.sleep(0.5)
        checks.equal(seen(), after, "time and events half a second after the release")
        stopped(checks, daemon, after[1])


@test
def a_call_goes_on_by_the_time_of_the_host(checks: Checks, folder: pathlib.Path) -> None:
    with started(checks, folder) as daemon, Client(daemon.address) as client:
        checks.equal(client.ask("call other 1 sip:192.0.2.1"),
                     ["send 1 udp 192.0.2.1 5060 z9hG4bK0000000000000001.1", "ok call"], "call")
        time.sleep(0.1)
        checks.equal(client.ask("got 1 503 retry 100"),
                     ["hold udp 192.0.2.1 5060 100000", "deliver 500", "exhausted", "ok got"], "503")
        checks.equal(client.ask("find sip:192.0.2.1"), ["none AllHeld"], "held")
        stopped(checks, daemon)


@test
def the_time_is_that_of_lines(checks: Checks, folder: pathlib.Path) -> None:
    with started(checks, folder, 'clock = "lines"') as daemon, Client(daemon.address) as client:
        for line, wanted in [
            ("hold udp 192.0.2.1 5060 500", ["ok hold"]), ("find sip:192.0.2.1", ["none AllHeld"]),
            ("clock 499", ["ok clock 499"]),
            ("find sip:192.0.2.1", ["none AllHeld"]), ("clock 500", ["ok clock 500"]), ("clock 499", ["err O1"]),
            ("find sip:192.0.2.1", ["target 1 udp 192.0.2.1 5060", "ok find 1"]),
        ]:
            checks.equal(client.ask(line), wanted, line)
        time.sleep(0.3)
        stopped(checks, daemon, 6)
