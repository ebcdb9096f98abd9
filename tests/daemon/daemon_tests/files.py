"""The files of a state: what a start reads of them, and what it refuses."""

from __future__ import annotations

import pathlib
import random
import subprocess
from typing import Optional

import snapshots
from commits import HEAD_LEN, LINE_LEN, bodies_of, body_of, log_of, state_of
from daemon_tests.support import (
    PATIENCE,
    PROGRAM,
    SEED,
    Checks,
    Client,
    ended_start,
    started,
    stopped,
    test,
    until,
)


@test
def reads_its_log(checks: Checks, folder: pathlib.Path) -> None:
    state, log = f'state = "{folder}/state"', folder / "state.log"
    with started(checks, folder, state) as daemon, Client(daemon.address) as client:
        client.ask("zone example.com. 1\na A 192.0.2.1")
        client.ask("add b.example.com. A 192.0.2.2")
        daemon.kill()
    whole, octets = (folder / "state").read_bytes(), log.read_bytes()
    checks.equal(octets, log_of(whole, bodies_of(octets)), "the octets of a log")
    checks.expect(octets.endswith(b"\n"), octets[-100:])
    # (the next commit, which is cut, or of which a part is missing, or something else)
    commit = log_of(whole, [*bodies_of(octets), b"add c.example.com. A 192.0.2.3\n"])[len(octets):]
    for torn in commit[:-1], commit[:100], b"\t", commit[:190] + bytes(20), bytes(4096), b"nonsense\n\xff":
        log.write_bytes(octets + torn)
        with started(checks, folder, state) as daemon, Client(daemon.address) as client:
            checks.equal(client.ask("find sip:b.example.com:1"), ["target 1 udp 192.0.2.2 1", "ok find 1"],
                         ("torn", torn))
            checks.equal(client.ask("find sip:c.example.com:1"), ["none NoAddress"], ("torn", torn))
            # (it is told by a thread of its own)
            until(daemon.said)
            daemon.kill()
        checks.equal(daemon.said(), f"siplocd: state {folder}/state.log: a write did not end at octet {len(octets)}\n",
                     ("torn", torn))
        checks.equal((log.read_bytes(), (folder / "state.log.torn").read_bytes()), (octets, torn),
                     "what is left, and what is kept")
    # A checkpoint whose state was not written, since the daemon was killed then: the changes after it follow those before it.
    more = [b"clock 5000\nhold tcp 192.0.2.9 5060 1000000\n", b"# page 1\nclock 6000\n",
            b"add e.example.com. A 192.0.2.5\n"]
    log.write_bytes(log_of(whole, [*bodies_of(octets), *more]))
    with started(checks, folder, state) as daemon, Client(daemon.address) as client:
        checks.equal(client.ask("find sip:e.example.com:1"), ["target 1 udp 192.0.2.5 1", "ok find 1"], "after a mark")
        checks.equal(client.ask("find sip:192.0.2.9;transport=tcp"), ["none AllHeld"], "a hold before a mark")
        checks.expect(int(daemon.tell("now")[0].split(" ")[2]) >= 6000, daemon.tell("now"))
        stopped(checks, daemon)
    with started(checks, folder, state) as daemon, Client(daemon.address) as client:
        checks.equal(client.ask("find sip:e.example.com:1"), ["target 1 udp 192.0.2.5 1", "ok find 1"], "after a stop")
        checks.equal(client.ask("find sip:192.0.2.9;transport=tcp"), ["none AllHeld"], "a hold after a stop")
        checks.expect(int(daemon.tell("now")[0].split(" ")[2]) >= 6000, daemon.tell("now"))
        checks.equal(ended_start(folder, state), (1, f"siplocd: state {folder}/state: another siplocd has it\n"),
                     "a state that another has")
        stopped(checks, daemon)


@test
def refuses_a_state_that_was_changed(checks: Checks, folder: pathlib.Path) -> None:
    state, log, settings = folder / "state", folder / "state.log", f'state = "{folder}/state"'
    with started(checks, folder, settings) as daemon, Client(daemon.address) as client:
        client.ask("zone example.com. 2\na A 192.0.2.1\nb A 192.0.2.2")
        stopped(checks, daemon)
    with started(checks, folder, settings) as daemon, Client(daemon.address) as client:
        client.ask("zone b.example. 2\na A 192.0.2.1\nb A 192.0.2.2")
        client.ask("hold udp 192.0.2.1 5060 100000")
        client.ask("add c.b.example. A 192.0.2.3")
        daemon.kill()
    octets = state.read_bytes(), log.read_bytes()
    checks.equal(octets[0], state_of(body_of(octets[0])), "the octets of a state")
    checks.equal(len(bodies_of(octets[1])), 3, "commits")
    places, place = places_of(octets[1]), random.Random(SEED).randrange

    def flipped(text: bytes, at: int) -> bytes:
        return text[:at] + bytes([text[at] ^ 1 << place(8)]) + text[at + 1:]

    def refused(files: tuple[Optional[bytes], Optional[bytes]], what: str, name: str) -> None:
        for path, text in zip((state, log), files):
            path.unlink(missing_ok=True)
            if text is not None:
                path.write_bytes(text)
        status, said = ended_start(folder, settings)
        checks.equal((status, said), (1, f"siplocd: state {folder}/{what}\n"), name)
        checks.equal(tuple(it.read_bytes() if it.exists() else None for it in (state, log)), files,
                     f"{name}: the files")

    for at in range(16, len(octets[0]), 41):
        refused((flipped(octets[0], at), octets[1]), "state: not as it was written", f"a state that is changed at {at}")
    for at in range(places[0], places[-1], 41):
        begin = max(it for it in places if it <= at)
        refused((octets[0], flipped(octets[1], at)), f"state.log: octet {begin}: not as it was written",
                f"a log that is changed at {at}")
    refused((flipped(octets[0], 3), octets[1]), "state: line 1: not a state", "the first line of a state")
    refused((octets[0], flipped(octets[1], place(HEAD_LEN))), "state.log: line 1: not a log", "the head of a log")
    lines = octets[0].splitlines(keepends=True)
    refused((b"".join(lines[:-1]), octets[1]), "state: not as it was written", "a state that is cut at a line's end")
    refused((b"".join(lines[:3]), octets[1]), "state: not as it was written", "a state that is cut further")
    refused((b"", octets[1]), "state: line 1: not a state", "an empty state")
    refused((octets[0], None), "state.log: not of this state", "no log")
    refused((octets[0], b""), "state.log: line 1: not a log", "an empty log")
    refused((None, octets[1]), "state.log: not of this state", "no state")
    other = state_of(body_of(octets[0]).replace(b"192.0.2.1", b"192.0.2.8"))
    refused((other, octets[1]), "state.log: not of this state", "another state")
    commits = [octets[1][begin:end] for begin, end in zip(places, [*places[1:], len(octets[1])])]
    for order in (1, 0, 2), (0, 2), (0, 0, 1, 2), (2,):
        text = octets[1][:HEAD_LEN] + b"".join(commits[it] for it in order)
        refused((octets[0], text), f"state.log: octet {places[order[0] == 0]}: not as it was written", f"commits {order}")
    # What the files have as they were written, and no daemon would have.
    refused((state_of(b"# page 0\nzone example.com. 1\na.example.com. A 192.0.2\n"), octets[1]),
            "state: line 3: refused", "a zone with a faulty record")
    refused((octets[0], log_of(octets[0], [*bodies_of(octets[1]), b"drop example.net.\n"])),
            "state.log: commit 4: refused", "a change of a zone that is not there")
    state.write_bytes(octets[0])
    log.write_bytes(octets[1])
    with started(checks, folder, settings) as daemon, Client(daemon.address) as client:
        checks.equal(daemon.tell("zones"), ["zone example.com. 2", "zone b.example. 3", "ok zones 2"], "as it was")
        stopped(checks, daemon)


def places_of(log: bytes) -> list[int]:
    """Where the commits of a log begin."""
    places, place = [], HEAD_LEN
    for body in bodies_of(log):
        places.append(place)
        place += LINE_LEN + len(body)
    return places


@test
def refuses_a_state_of_more_than_its_settings_allow(checks: Checks, folder: pathlib.Path) -> None:
    """Its files stay as they are, and are right: the settings are not."""
    state, log = folder / "state", folder / "state.log"
    state.write_bytes(state_of(b"# page 3\nclock 5000\nzone example.com. 2\na.example.com. A 192.0.2.1\n"
                               b"b.example.com. A 192.0.2.2\nhold udp 192.0.2.8 5060 60000\n"
                               b"hold udp 192.0.2.9 5060 60000\n"))
    log.write_bytes(log_of(state.read_bytes(), [b"add c.example.com. A 192.0.2.3\n"]))
    before, settings = (state.read_bytes(), log.read_bytes()), f'state = "{state}"\nclock = "lines"\n'
    for more, said in ("records = 2", f"{log}: commit 1"), ("records = 1", f"{state}: line 4"), \
            ("holds = 1", f"{state}: line 8"):
        checks.equal(ended_start(folder, settings + more), (1, f"siplocd: state {said}: refused\n"), more)
        checks.equal((state.read_bytes(), log.read_bytes()), before, f"the files after {more}")
    ran = subprocess.run([PROGRAM, "check-state", str(state)], capture_output=True, text=True, timeout=PATIENCE,
                         check=False)
    checks.equal((ran.returncode, ran.stderr), (0, ""), "a check")
    with started(checks, folder, f"{settings}records = 3\nholds = 2") as daemon:
        seen = daemon.stats()
        checks.equal((seen["records"], seen["held"]), (3, 2), "with settings that allow it")
        stopped(checks, daemon)


@test
def finishes_what_a_kill_left_of_a_state(checks: Checks, folder: pathlib.Path) -> None:
    state, log, new, settings = folder / "state", folder / "state.log", folder / "state.log.new", f'state = "{folder}/state"'
    old = state_of(b"# page 0\nzone old.example. 1\na.old.example. A 192.0.2.1\n")
    now = state_of(b"# page 1\nzone example.com. 1\na.example.com. A 192.0.2.1\n")
    for name, before in ("the log before it", log_of(old, [b"drop old.example.\n"])), ("no log", None), \
            ("a log of the first format", b"# page 0\ndrop old.example.\n# page 1\n"):
        state.write_bytes(now)
        log.unlink(missing_ok=True)
        if before is not None:
            log.write_bytes(before)
        new.write_bytes(log_of(now, [b"add b.example.com. A 192.0.2.2\n"]))
        with started(checks, folder, settings) as daemon:
            checks.equal(daemon.tell("zones"), ["zone example.com. 2", "ok zones 1"], name)
            daemon.kill()
        checks.equal(log.read_bytes(), log_of(now, [b"add b.example.com. A 192.0.2.2\n"]), f"{name}: the log")
        checks.expect(not new.exists(), f"{name}: the new one is still there")


@test
def reads_the_first_format_once(checks: Checks, folder: pathlib.Path) -> None:
    state, log, settings = folder / "state", folder / "state.log", f'state = "{folder}/state"'
    lines = b"# page 3\nclock 5000\nzone example.com. 1\na.example.com. A 192.0.2.1\n"
    changes = b"# page 2\ndrop none.example.\n# page 3\nadd b.example.com. A 192.0.2.2\nadd c.example.com. A 192.0"
    for name, before, zones in ("both", (lines, changes), 2), ("no state",
                                                               (None, changes.replace(b"# page 2", b"# page 0").replace(
            b"drop none.example.", b"zone example.com. 0")), 1), ("no log", (lines, None), 1):
        for path, text in zip((state, log), before):
            path.unlink(missing_ok=True)
            if text is not None:
                path.write_bytes(text)
        for _ in range(2):
            with started(checks, folder, settings) as daemon:
                checks.equal(daemon.tell("zones"), [f"zone example.com. {zones}", "ok zones 1"], name)
                daemon.kill()
            octets = state.read_bytes()
            checks.equal((octets, log.read_bytes()), (state_of(body_of(octets)), log_of(octets, [])),
                         f"{name}: the files after it")
    for what, files in ("state: line 3: refused", (lines.replace(b"192.0.2.1", b"192.0.2"), changes)), \
            ("state.log: line 2: refused", (lines.replace(b"page 3", b"page 2"), changes)), \
            ("state.log: not of this state", (lines.replace(b"page 3", b"page 4"), changes)):
        state.write_bytes(files[0])
        log.write_bytes(files[1])
        checks.equal(ended_start(folder, settings), (1, f"siplocd: state {folder}/{what}\n"), what)
        checks.equal((state.read_bytes(), log.read_bytes()), files, f"{what}: the files")


@test
def is_read_for_a_snapshot_while_it_runs(checks: Checks, folder: pathlib.Path) -> None:
    state, log, settings = folder / "state", folder / "state.log", f'state = "{folder}/state"'

    def changes() -> list[bytes]:
        return [it for it in snapshots.state_lines(state) if not it.startswith((b"#", b"clock "))]

    with started(checks, folder, settings) as daemon, Client(daemon.address) as client:
        client.ask("zone example.com. 1\na A 192.0.2.1")
        checks.equal(changes(), [b"zone example.com. 1", b"a.example.com. A 192.0.2.1"], "changes of a log")
        stopped(checks, daemon)
    with started(checks, folder, settings) as daemon, Client(daemon.address) as client:
        client.ask("add b.example.com. A 192.0.2.2")
        wanted = [b"zone example.com. 1", b"a.example.com. A 192.0.2.1", b"add b.example.com. A 192.0.2.2"]
        checks.equal(changes(), wanted, "changes of a state and its log")
        daemon.kill()
    octets = log.read_bytes()
    for torn in octets[HEAD_LEN:-1], b"\tcommit ", b"nonsense\n":
        log.write_bytes(octets + torn)
        checks.equal(changes(), wanted, ("torn", torn))
