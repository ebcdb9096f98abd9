"""The state and the changes since: what is there after a stop or a kill."""

from __future__ import annotations

import concurrent.futures
import contextlib
import errno
import pathlib
import random
import socket
import time
from typing import Any, Callable, Optional

from commits import HEAD_LEN, bodies_of, body_of, log_of, state_of
from daemon_tests.support import (
    FOR_EVER,
    SEED,
    TOP,
    Checks,
    Client,
    Daemon,
    ended_start,
    started,
    stopped,
    test,
    until,
)
from daemon_tests.syncs import Syncs


@test
def stands_again_after_a_stop(checks: Checks, folder: pathlib.Path) -> None:
    state = f'state = "{folder}/state"'
    zone = 'zone example.com. 5\n@ NAPTR 50 50 "s" "SIP+D2T" "" _sip._tcp\n_sip._tcp SRV 0 1 5060 \\"odd\\".a\n\\"odd\\".a A 192.0.2.1\n' \
           "* A 192.0.2.7\nt TXT x"
    asked = ["find sip:example.com words 1", "find sip:no.example.com:1", "find sip:t.example.com:1",
             "deps sip:x.t.example.com:1",
             "find sip:other.example:9"]
    with started(checks, folder, state) as daemon, Client(daemon.address) as client:
        checks.equal(client.ask(zone), ["ok zone 5 0 0 4"], "zone")
        checks.equal(client.ask("zone other.example. 1\n@ A 192.0.2.8"), ["ok zone 1 0 0 1"], "zone")
        checks.equal(client.ask("zone gone.example. 1\n@ A 192.0.2.8"), ["ok zone 1 0 0 1"], "zone")
        checks.equal(client.ask("zone empty.example. 0"), ["ok zone 0 0 0 0"], "zone")
        checks.equal(client.ask("drop gone.example."), ["ok drop 1"], "drop")
        checks.equal(client.ask("hold tcp 192.0.2.1 5060 3600000"), ["ok hold"], "hold")
        begin = time.monotonic()
        checks.equal(client.ask("hold tcp 192.0.2.2 5060 1500"), ["ok hold"], "hold")
        answers = [client.ask(line) for line in asked]
        stopped(checks, daemon)
    with started(checks, folder, state) as daemon, Client(daemon.address) as client:
        checks.equal([client.ask(line) for line in asked], answers, "after a start")
        checks.equal(client.ask("drop gone.example."), ["err S2"], "a zone that was unloaded")
        checks.equal(client.ask("add a.empty.example. A 192.0.2.1"), ["ok add 1"], "a zone without records")
        held = ["none AllHeld"]
        checks.equal(client.ask("find sip:192.0.2.1;transport=tcp"), held, "a hold")
        checks.expect(until(lambda: client.ask("find sip:192.0.2.2;transport=tcp") != held), "a hold whose rest ends")
        checks.expect(time.monotonic() - begin >= 1.4,
                      f"a hold of 1.5 seconds ended after {time.monotonic() - begin:.2f}")
        stopped(checks, daemon)


@test
def a_link_to_a_state_is_that_state(checks: Checks, folder: pathlib.Path) -> None:
    state, link, other = folder / "state", folder / "link", folder / "other"
    other.mkdir()
    (other / "state").symlink_to("../state")
    with started(checks, folder, f'state = "{state}"') as daemon, Client(daemon.address) as client:
        checks.equal(client.ask("zone example.com. 1\na A 192.0.2.1"), ["ok zone 1 0 0 1"], "zone")
        stopped(checks, daemon)
    link.symlink_to(other / "state")
    with started(checks, folder, f'state = "{link}"') as daemon, Client(daemon.address) as client:
        checks.equal(daemon.tell("zones"), ["zone example.com. 1", "ok zones 1"], "by a link")
        checks.equal(client.ask("add b.example.com. A 192.0.2.2"), ["ok add 1"], "add")
        for path in state, link, other / "state":
            status, said = ended_start(folder, f'state = "{path}"')
            checks.expect(status == 1 and str(path) in said, ("a state that another has", path, status, said))
        stopped(checks, daemon)
    checks.expect(link.is_symlink() and not state.is_symlink() and (other / "state").is_symlink(),
                  "links that are links")
    checks.equal(sorted(it.name for it in other.iterdir()), ["state"], "files beside a link")
    with started(checks, folder, f'state = "{state}"') as daemon:
        checks.equal(daemon.tell("zones"), ["zone example.com. 2", "ok zones 1"], "by its own name")
        stopped(checks, daemon)
    (folder / "nowhere").symlink_to(folder / "none/state")
    status, said = ended_start(folder, f'state = "{folder}/nowhere"')
    checks.expect(status == 1 and f"{folder}/nowhere" in said, ("a link to nothing", status, said))


@test
def carries_out_no_line_that_a_stop_cuts(checks: Checks, folder: pathlib.Path) -> None:
    state = f'state = "{folder}/state"'
    with started(checks, folder, state) as daemon, Client(daemon.address) as client, Client(daemon.address) as other:
        checks.equal(client.ask("zone example.com. 1\na A 192.0.2.1"), ["ok zone 1 0 0 1"], "zone")
        client.send("add b.example.com. A 192.0.2.2")
        other.send("zone example.com. 2\nc A 192.0.2.3\n")
        time.sleep(0.2)
        stopped(checks, daemon)
    with started(checks, folder, state) as daemon, Client(daemon.address) as client:
        for host, reply in ("a", ["target 1 udp 192.0.2.1 1",
                                  "ok find 1"]), ("b", ["none NoAddress"]), ("c", ["none NoAddress"]):
            checks.equal(client.ask(f"find sip:{host}.example.com:1"), reply, host)
        stopped(checks, daemon)


@test
def carries_out_no_line_that_its_client_cuts(checks: Checks, folder: pathlib.Path) -> None:
    state, unix = f'state = "{folder}/state"', f"unix:{folder}/s"
    cut = ["zone example.com. 3\na A 192.0.2.1\nb A 192.0.2.2", "zone example.com. 2\na A 192.0.2.1\n",
           "zone example.com. 1",
           "add c.kept.example. A 192.0.2.2", "hold udp 192.0.2.1 5060 1000000", "drop kept.example.",
           "zone kept.example. 0"]
    with started(checks, folder, state, unix=unix) as daemon, Client(daemon.address) as asking:
        checks.equal(asking.ask("zone kept.example. 1\na A 192.0.2.1"), ["ok zone 1 0 0 1"], "zone")
        for address in daemon.addresses[:-1]:
            for text in cut:
                with Client(address) as client:
                    client.send(f"find sip:192.0.2.9:1\n{text}")
                    client.stream.shutdown(socket.SHUT_WR)
                    checks.equal(client.reply(), ["target 1 udp 192.0.2.9 1", "ok find 1"], f"before {text!r}")
                    checks.equal(client.reply(), None, f"a reply to {text!r}")
        checks.equal(daemon.tell("zones"), ["zone kept.example. 1", "ok zones 1"], "zones")
        checks.equal(daemon.tell("holds"), ["ok holds 0"], "holds")
        stopped(checks, daemon)
    with started(checks, folder, state) as daemon:
        checks.equal(daemon.tell("zones"), ["zone kept.example. 1", "ok zones 1"], "zones of the state")
        stopped(checks, daemon)


class Steps:
    """Edits of one client, which make the file of changes long: a zone of long names, one more record in each turn of
    three, another zone, and a hold."""

    # (a name of 240 octets, of which most are printed as four)
    apex = ".".join(["\\001" * 63] * 3 + ["\\001" * 40]) + "."

    def __init__(self, checks: Checks) -> None:
        self.checks = checks
        # How many had their replies, and which replies were wrong.
        self.done, self.wrong = 0, []

    def make(self, client: Client) -> bool:
        """Makes the next one: whether it has its reply."""
        kind, turn = self.done % 3, self.done // 3 + 1
        count, place = 64 + turn, f"{turn // 250}.{turn % 250}"
        records = "".join(f"\nt{n} SRV 0 0 1 t" for n in range(count))
        line, wanted = [
            (f"zone {self.apex} {count}{records}", f"ok zone {count} 0 0 "),
            (f"zone other.example. 1\na A 10.1.{place}", "ok zone 1 0 0 1"),
            (f"hold udp 10.2.{place} 5060 {FOR_EVER}", "ok hold"),
        ][kind]
        reply = client.ask(line)
        if reply is not None and not (len(reply) == 1 and reply[0].startswith(wanted)):
            self.wrong.append(f"{line[-100:]}: {reply}")
        self.done += reply is not None
        return reply is not None

    def wanted(self, done: int) -> tuple[list[str], list[str], list[str]]:
        """The zones, an answer and the held addresses after so many."""
        loads, others, holds = (done + 2) // 3, (done + 1) // 3, done // 3
        zones = [f"zone {self.apex} {64 + loads}"] * (loads > 0) + ["zone other.example. 1"] * (others > 0)
        answer = [f"target 1 udp 10.1.{others // 250}.{others % 250} 1", "ok find 1"] if others else ["none NoAddress"]
        return zones, answer, [f"10.2.{n // 250}.{n % 250}" for n in range(1, holds + 1)]

    def see(self, daemon: Daemon) -> None:
        """Checks that there is what was replied to; of the one that was sent last it may be either."""
        with Client(daemon.address) as client:
            answer = client.ask("find sip:a.other.example:1") or []
        seen = daemon.tell("zones")[:-1], answer, [it.split(" ")[2] for it in daemon.tell("holds")[:-1]]
        self.done += seen != self.wanted(self.done)
        self.checks.equal(self.wrong[:3], [], f"{len(self.wrong)} wrong replies")
        self.checks.equal(seen, self.wanted(self.done), f"what there is after {self.done - 1} steps, or {self.done}")


@test
def writes_a_state_at_a_page(checks: Checks, folder: pathlib.Path) -> None:
    state, log, steps = folder / "state", folder / "state.log", Steps(checks)
    # (moves of the host's clock would fill pages, too)
    settings = f'state = "{state}"\njournal = 400\nclock = "lines"'
    questions, answer = "find sip:192.0.2.1\n" * 50, ["target 1 udp 192.0.2.1 5060", "ok find 1"]

    def ask_on(daemon: Daemon) -> int:
        """Asks questions, which fill pages, until the daemon is killed: how many had their replies."""
        count = 0
        with contextlib.suppress(OSError), Client(daemon.address) as client:
            while daemon.process.poll() is None:
                client.send(questions)
                for _ in range(50):
                    reply = client.reply()
                    if reply is None:
                        return count
                    if reply != answer:
                        steps.wrong.append(f"{reply}, and not {answer}")
                    count += 1
                time.sleep(0.01)
        return count

    def is_written() -> bool:
        return body_of(state.read_bytes()) != b"# page 0\n"

    def kill_at(daemon: Daemon, is_so: Callable[[], bool], seconds: float) -> None:
        try:
            until(is_so)
            time.sleep(seconds)
        finally:
            daemon.kill()

    with started(checks, folder, settings) as daemon, Client(daemon.address) as client:
        while log.stat().st_size < 900_000 and steps.make(client):
            pass
        time.sleep(0.2)
        checks.equal(state.read_bytes(), state_of(b"# page 0\n"), "a state while the log is short")
        for _ in range(8):
            client.send(questions)
            checks.equal([client.reply() for _ in range(50)], [answer] * 50, "questions")
        checks.expect(until(lambda: daemon.stats()["pages"] >= 1), "a page")
        checks.equal(state.read_bytes(), state_of(b"# page 0\n"), "a state after a page, while the log is short")
        # (once the log has a megabyte the page is turned at once: no more is made before the state is written)
        while not is_written() and log.stat().st_size < 4 << 20 and steps.make(client):
            until(is_written, 1 if log.stat().st_size > 1 << 20 else 0)
        checks.expect(until(lambda: body_of(state.read_bytes()).startswith(b"# page 1\n")), "no state at a page")
        checks.expect(until(lambda: log.stat().st_size < 1 << 20),
                      f"{log.stat().st_size} octets of a log after a state")
        octets = log.read_bytes()
        checks.equal(octets, log_of(state.read_bytes(), bodies_of(octets)), "the changes after it alone")
        checks.expect(steps.make(client) and log.stat().st_size > HEAD_LEN, "a change after a state")
        daemon.kill()
    chance, asked = random.Random(SEED), 0
    for turn in range(6):
        with started(checks, folder, settings) as daemon:
            if not daemon.is_ready():
                return
            steps.see(daemon)
            # Killed about when a state is written, or just after it was, or soon.
            written = state.stat().st_ino
            is_so, most = [(lambda: log.stat().st_size > 1 << 20, 0.2), (lambda: state.stat().st_ino != written, 0.02),
                           (lambda: True, 0.5)][turn % 3]
            with concurrent.futures.ThreadPoolExecutor(2) as pool:
                asking = pool.submit(ask_on, daemon)
                killing = pool.submit(kill_at, daemon, is_so, most * chance.random())
                with contextlib.suppress(OSError), Client(daemon.address) as client:
                    while steps.make(client):
                        pass
                killing.result()
                asked += asking.result()
    with started(checks, folder, settings) as daemon:
        steps.see(daemon)
        checks.expect(int(body_of(state.read_bytes()).split()[2]) > 2, f"{state.read_bytes()[:20]!r} after six kills")
        checks.expect(asked > 0, "no question while states were written")
        stopped(checks, daemon)


@test
def a_change_is_synced_before_its_reply(checks: Checks, folder: pathlib.Path) -> None:
    syncs, log = Syncs(folder), folder / "state.log"
    question, target = "find sip:a.example.com:1", ["target 1 udp 192.0.2.1 1", "ok find 1"]
    with started(checks, folder, f'state = "{folder}/state"', environment=syncs.environment) as daemon, \
            contextlib.ExitStack() as stack:
        editor, later, earlier, asking = (stack.enter_context(Client(daemon.address)) for _ in range(4))
        checks.equal(asking.ask("repair"), ["ok repair"], "before")
        checks.equal(editor.ask("zone example.com. 1\na A 192.0.2.1"), ["ok zone 1 0 0 1"], "zone")
        checks.equal(earlier.ask("add b.example.com. A 192.0.2.2"), ["ok add 1"], "add")
        begun = syncs.begun()
        syncs.wait(True)
        editor.send("add c.example.com. A 192.0.2.3\n")
        checks.expect(until(lambda: syncs.begun() > begun), "no sync")
        checks.expect(log.read_bytes().endswith(b"\nadd c.example.com. A 192.0.2.3\n"), log.read_bytes())
        later.send("hold tcp 192.0.2.9 5060 1000000\n")
        # Neither who has changed nothing waits for it, nor whose change is synced, and no new one.
        for client, name in (asking, "who changed nothing"), (earlier, "whose change was synced"), (asking, "again"):
            checks.equal(client.ask(question), target, name)
        with Client(daemon.address) as new:
            checks.equal(new.ask(question), target, "who came meanwhile")
        checks.expect(daemon.stats()["clients"] >= 4, "control lines meanwhile")
        time.sleep(0.5)
        checks.equal((editor.has_reply(), later.has_reply()), (False, False), "replies before the sync")
        syncs.wait(False)
        checks.equal(editor.reply(), ["ok add 1"], "after the sync")
        checks.equal(later.reply(), ["ok hold"], "after the next sync")
        # Once for all changes of a batch, and not at all where there is none.
        begun = syncs.begun()
        asking.send(f"{question}\n" * 20)
        checks.equal([asking.reply() for _ in range(20)], [target] * 20, "questions")
        checks.equal(syncs.begun(), begun, "syncs of 20 questions")
        editor.send("".join(f"add d{n}.example.com. A 192.0.2.4\n" for n in range(20)))
        checks.equal([editor.reply() for _ in range(20)], [["ok add 1"]] * 20, "changes")
        checks.expect(1 <= syncs.begun() - begun <= 5, f"{syncs.begun() - begun} syncs of a batch of 20 changes")
        stopped(checks, daemon)


@test
def ends_where_a_change_is_not_written(checks: Checks, folder: pathlib.Path) -> None:
    for name in "sync", "write":
        inner = folder / name
        inner.mkdir()
        syncs, settings = Syncs(inner), f'state = "{inner}/state"'
        with started(checks, inner, settings, environment=syncs.environment) as daemon, \
                Client(daemon.address) as client, Client(daemon.address) as other:
            checks.equal(client.ask("zone example.com. 1\na A 192.0.2.1"), ["ok zone 1 0 0 1"], "zone")
            checks.equal(other.ask("add b.example.com. A 192.0.2.2"), ["ok add 1"], "add")
            syncs.fail(name, errno.ENOSPC)
            checks.equal(client.ask("add c.example.com. A 192.0.2.3"), None, f"reply to a change whose {name} failed")
            status, last = daemon.end()
            checks.equal((status, daemon.said()), (1, "siplocd: state: no storage space\n"), f"a {name} that failed")
            checks.expect(last.startswith("ready "), f"{last!r} at the end")
            checks.expect(other.is_ended(), "another client")
        with started(checks, inner, settings) as daemon, Client(daemon.address) as client:
            for host, place in ("a", 1), ("b", 2):
                reply = client.ask(f"find sip:{host}.example.com:1")
                checks.equal(reply, [f"target 1 udp 192.0.2.{place} 1", "ok find 1"], f"{host} after a failed {name}")
            checks.equal(client.ask("add d.example.com. A 192.0.2.4"), ["ok add 1"], "add")
            stopped(checks, daemon)


@test
def reports_no_change_as_kept_after_a_trim_that_failed(checks: Checks, folder: pathlib.Path) -> None:
    # (more than a megabyte, so that a page is turned after it, and a state written)
    text = "x" * 255
    zone = "zone example.com. 1401\na A 192.0.2.1" + "".join(f'\nn{n} NAPTR 1 1 "{text}" "{text}" "{text}" .'
                                                             for n in range(1_400))
    for name, error in ("folder", errno.EIO), ("open", errno.EMFILE):
        inner = folder / name
        inner.mkdir()
        syncs, settings = Syncs(inner), f'state = "{inner}/state"'
        with started(checks, inner, settings, environment=syncs.environment) as daemon, \
                Client(daemon.address) as client, Client(daemon.address) as other:
            checks.equal(other.ask("repair"), ["ok repair"], "before")
            # The folder is synced before and after the state is moved there, and then after the changes were.
            syncs.watch_folder(3, error if name == "folder" else 0)
            checks.equal(client.ask(zone), ["ok zone 1401 0 0 1401"], "zone")
            checks.expect(until(syncs.has_begun), f"{name}: no trim")
            client.send("add late.example.com. A 192.0.2.3\n")
            other.send("hold udp 192.0.2.9 5060 1000000\n")
            time.sleep(0.3)
            checks.equal((client.has_reply(), other.has_reply()), (False, False),
                         f"{name}: replies while the trim is made")
            if name == "open":
                syncs.fail(name, error)
            syncs.go_on()
            checks.equal((client.reply(), other.reply()), (None, None), f"{name}: replies after a trim that failed")
            status, _ = daemon.end()
            checks.expect(status == 1 and daemon.said().startswith("siplocd: state: "), (name, status, daemon.said()))
        with started(checks, inner, settings) as daemon, Client(daemon.address) as client:
            reply = client.ask("find sip:a.example.com:1")
            checks.equal(reply, ["target 1 udp 192.0.2.1 1", "ok find 1"], f"{name}: after another start")
            checks.equal(client.ask("add late.example.com. A 192.0.2.4")[-1:], ["ok add 1"], f"{name}: a change")
            stopped(checks, daemon)


@test
def a_state_takes_its_place_after_the_name_of_its_log_is_kept(checks: Checks, folder: pathlib.Path) -> None:
    text = "x" * 255
    zone = "zone example.com. 1401\na A 192.0.2.1" + "".join(f'\nn{n} NAPTR 1 1 "{text}" "{text}" "{text}" .'
                                                             for n in range(1_400))
    syncs, state = Syncs(folder), folder / "state"
    with started(checks, folder, f'state = "{state}"', environment=syncs.environment) as daemon, \
            Client(daemon.address) as client:
        before = state.read_bytes()
        syncs.watch_folder(1, 0)
        checks.equal(client.ask(zone), ["ok zone 1401 0 0 1401"], "zone")
        checks.expect(until(syncs.has_begun), "no state is written")
        there = (folder / "state.new").exists(), (folder / "state.log.new").exists()
        checks.equal((there, state.read_bytes() == before), ((True, True), True), "while the folder is synced")
        syncs.go_on()
        checks.expect(until(lambda: state.read_bytes() != before), "no state took its place")
        stopped(checks, daemon)


@test
def starts_where_no_space_is_left(checks: Checks, folder: pathlib.Path) -> None:
    syncs, log, settings = Syncs(folder), folder / "state.log", f'state = "{folder}/state"'
    with started(checks, folder, settings) as daemon, Client(daemon.address) as client:
        checks.equal(client.ask("zone example.com. 1\na A 192.0.2.1"), ["ok zone 1 0 0 1"], "zone")
        daemon.kill()
    octets, place = log.read_bytes(), log.stat().st_ino
    for torn in b"", b"add b.example.com. A 192.0", b"zone example.com. 2\nc A 192.0.2.3\n":
        log.write_bytes(octets + torn)
        syncs.fail("write", errno.ENOSPC)
        with started(checks, folder, settings,
                     environment=syncs.environment) as daemon, Client(daemon.address) as client:
            checks.equal(client.ask("find sip:a.example.com:1"), ["target 1 udp 192.0.2.1 1", "ok find 1"], torn)
            checks.equal((log.read_bytes(), log.stat().st_ino), (octets, place), "the changes, where they were")
            syncs.fail("write", 0)
            checks.equal(client.ask("add b.example.com. A 192.0.2.2"), ["ok add 1"],
                         "a change where there is space again")
            daemon.kill()
        wanted = [*bodies_of(octets), b"add b.example.com. A 192.0.2.2\n"]
        checks.equal(log.read_bytes(), log_of((folder / "state").read_bytes(), wanted),
                     "a change after those before it")


# The addresses of each host of a zone by their last octets, in the order of addition: None where it is not loaded.
Hosts = Optional[dict[int, tuple[int, ...]]]


class Edits:
    """Edits by chance of one client, and what its zone and its holds are after each."""

    def __init__(self, place: int, chance: random.Random) -> None:
        self.place, self.chance, self.apex = place, chance, f"k{place}.example."
        self.hosts: Hosts = None
        self.held: frozenset[int] = frozenset()

    def next(self) -> tuple[str, str, Any]:
        """A line, its reply, and what there is after it."""
        kind = self.chance.random()
        if self.hosts is None or kind < 0.02:
            return self.load()
        if kind < 0.03:
            return f"drop {self.apex}", f"ok drop {len(self.hosts)}", (None, self.held)
        if kind < 0.1:
            last = self.chance.randrange(4)
            target = f"udp 10.{self.place}.1.{last} 5060"
            if last in self.held:
                return f"release {target}", "ok release", (self.hosts, self.held - {last})
            return f"hold {target} {FOR_EVER}", "ok hold", (self.hosts, self.held | {last})
        host, last = self.chance.randrange(6), self.chance.randrange(4)
        text, before = f"h{host}.{self.apex} A 10.{self.place}.0.{last}", self.hosts.get(host, ())
        is_there = last in before
        after = tuple(it for it in before if it != last) if is_there else (*before, last)
        hosts = {host: it for host, it in {**self.hosts, host: after}.items() if it}
        return f"{('add', 'del')[is_there]} {text}", f"ok {('add', 'del')[is_there]} 1", (hosts, self.held)

    def load(self) -> tuple[str, str, Any]:
        """A zone of some lines: all of them are there after it, or none."""
        hosts: dict[int, tuple[int, ...]] = {}
        for _ in range(self.chance.randrange(1, 9)):
            host, last = self.chance.randrange(6), self.chance.randrange(4)
            if last not in hosts.get(host, ()):
                hosts[host] = (*hosts.get(host, ()), last)
        text = [f"\nh{host} A 10.{self.place}.0.{last}" for host, each in hosts.items() for last in each]
        before = self.hosts or {}
        changed = sum(before.get(host) != hosts.get(host) for host in {*before, *hosts})
        return f"zone {self.apex} {len(text)}{''.join(text)}", f"ok zone {len(text)} 0 0 {changed}", (hosts, self.held)

    def seen(self, client: Client) -> Any:
        """What there is, by questions. A zone that is not loaded is told from an empty one by an edit that is
        refused."""
        lines = [f"find sip:h{host}.{self.apex[:-1]}:1" for host in range(6)] + [f"find sip:10.{self.place}.1.{n}"
                                                                                 for n in range(4)]
        client.send("".join(f"{line}\n" for line in lines) + f"del none.{self.apex} A 192.0.2.1\n")
        replies = [client.reply() or [] for _ in range(11)]
        hosts = {host: tuple(int(line.split(" ")[3].split(".")[3]) for line in replies[host][:-1]) for host in range(6)}
        held = frozenset(n for n in range(4) if replies[6 + n] == ["none AllHeld"])
        return (None if replies[10] == ["err S2"] else {host: it for host, it in hosts.items() if it}), held


@test
def keeps_each_change_that_was_replied_to(checks: Checks, folder: pathlib.Path) -> None:
    chance = random.Random(SEED)
    edits = [Edits(place, random.Random(SEED * 1_000 + place)) for place in range(2)]
    settings = f'state = "{folder}/state"\njournal = 400\nworkers = 0'
    wrong: list[str] = []
    replied = 0
    seen_replies = [0]

    def use(own: Edits, daemon: Daemon, states: list[Any], count: int) -> int:
        """Sends edits until the daemon is killed. `states` ends as what there may be, from the last reply on."""
        done = 0
        with contextlib.suppress(OSError), Client(daemon.address) as client:
            while count > 0:
                batch = []
                for _ in range(min(count, own.chance.choice([1, 1, 1, 2, 5, 20, 60]))):
                    line, reply, after = own.next()
                    own.hosts, own.held = after
                    states.append(after)
                    batch.append((line, reply))
                count -= len(batch)
                client.send("".join(f"{line}\n" for line, _ in batch))
                for line, reply in batch:
                    got = client.reply()
                    if got is None:
                        return done
                    if got != [reply]:
                        wrong.append(f"{line}: {got}, and not {reply}")
                    done += 1
                    seen_replies[0] += 1
                    states.pop(0)
        return done

    states: list[list[Any]] = [[(None, frozenset())] for _ in edits]
    for turn in range(51):
        with started(checks, folder, settings) as daemon:
            if not daemon.is_ready():
                return
            for own, may_be in zip(edits, states):
                with Client(daemon.address) as client:
                    seen = own.seen(client)
                if seen not in may_be:
                    wrong.append(f"after {turn} kills {seen}, and not one of {may_be[:2]} .. {may_be[-1]}")
                own.hosts, own.held = seen
                may_be[:] = [seen]
            if turn < 50:
                with concurrent.futures.ThreadPoolExecutor(2) as pool:
                    works = [pool.submit(use, own, daemon, may_be, 500) for own, may_be in zip(edits, states)]
                    enough = seen_replies[0] + chance.choice([0, 1, 10, 50, 100])
                    until(lambda: seen_replies[0] >= enough)
                    time.sleep(chance.random() * chance.choice([0.001, 0.01, 0.1]))
                    daemon.kill()
                    replied += sum(work.result() for work in works)
            else:
                stopped(checks, daemon)
        if len(wrong) > 2:
            break
    checks.equal(wrong[:3], [], f"{len(wrong)} wrong")
    checks.expect(replied >= 1_000, f"only {replied} changes had a reply")
