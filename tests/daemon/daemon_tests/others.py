"""The files of a daemon that others move, remove or change while it runs, and starts that do not go on: what was
replied to is kept, no other's file is taken, and the cause is told once."""

from __future__ import annotations

import errno
import os
import pathlib
import subprocess
from typing import Callable

from commits import bodies_of, log_of, state_of
from daemon_tests.clients import is_filled
from daemon_tests.failures import LONG_ZONE, REFUSED, Faults, target
from daemon_tests.faults import Scene, left_by_machine
from daemon_tests.support import PATIENCE, PROGRAM, Checks, Client, Daemon, ended_start, started, stopped, test, until
from daemon_tests.syncs import Syncs

FIND = "find sip:192.0.2.1:1"
STATE = b"# page 0\nzone example.com. 1\na.example.com. A 192.0.2.1\n"


def replayed(archive: pathlib.Path) -> tuple[int, str]:
    ran = subprocess.run([PROGRAM, "replay", str(archive)], capture_output=True, text=True, timeout=PATIENCE,
                         check=False)
    return ran.returncode, ran.stdout + ran.stderr


def pages_in(archive: pathlib.Path) -> list[str]:
    return sorted(it.name for it in archive.iterdir())


def is_told_once(said: str, begin: str) -> bool:
    return said.startswith(begin) and said.count("\n") == 1


@test
def archives_into_no_other_folder(checks: Checks, folder: pathlib.Path) -> None:
    """A disk that is mounted over an archive, or unmounted, while the daemon runs."""
    for on_failure in "end", "read":
        archive, away = folder / f"archive-{on_failure}", folder / f"away-{on_failure}"
        archive.mkdir()
        settings = f'archive = "{archive}"\non_failure = "{on_failure}"\nclock = "lines"'
        with started(checks, folder, settings) as daemon, Client(daemon.address) as client:
            client.ask(FIND)
            daemon.tell("page")
            checks.expect(until(lambda: pages_in(archive) == ["000001-0000000000000000"]), pages_in(archive))
            archive.rename(away)
            archive.mkdir()
            # (that of an earlier run, whose number this one's is too)
            (archive / "000001-0000000000000001").write_text("an older page")
            client.ask(FIND)
            daemon.tell("page")
            if on_failure == "end":
                status, _ = daemon.end()
                checks.expect(status == 1 and is_told_once(daemon.said(), "siplocd: archive: another folder"),
                              (status, daemon.said()))
            else:
                checks.expect(until(lambda: daemon.said().endswith(": pages wait\n")), daemon.said())
                checks.equal(client.ask(FIND), ["target 1 udp 192.0.2.1 1", "ok find 1"], "a question meanwhile")
            checks.equal([(it.name, it.read_text()) for it in archive.iterdir()],
                         [("000001-0000000000000001", "an older page")], f"the other folder: {on_failure}")
            if on_failure == "read":
                archive.rename(folder / "other")
                away.rename(archive)
                checks.expect(until(lambda: daemon.said().endswith("siplocd: archive: written again\n")), daemon.said())
                stopped(checks, daemon, 3)
                checks.equal(replayed(archive), (0, "run 000001 3\nreplayed 3\n"), "replay")


@test
def takes_the_place_of_no_page(checks: Checks, folder: pathlib.Path) -> None:
    archive = folder / "archive"
    archive.mkdir()
    other = archive / "000001-0000000000000000"
    settings = f'archive = "{archive}"\non_failure = "read"\nclock = "lines"'
    with started(checks, folder, settings) as daemon, Client(daemon.address) as client:
        for make in lambda: other.write_text("a page of somebody else"), lambda: other.symlink_to("nowhere"):
            make()
            client.ask(FIND)
            daemon.tell("page")
            checks.expect(until(lambda: daemon.said().endswith(": pages wait\n")), daemon.said())
            checks.expect(other.is_symlink() or other.read_text() == "a page of somebody else", "it is another one")
            # (when it is tried again there is `new` for a moment)
            checks.expect(until(lambda: pages_in(archive)[-1:] == [other.name]), (pages_in(archive), "what is there"))
            other.rename(folder / "kept")
            checks.expect(until(lambda: daemon.said().endswith("siplocd: archive: written again\n")), daemon.said())
            other = archive / "000001-0000000000000001"
        stopped(checks, daemon, 2)
    checks.equal(replayed(archive), (0, "run 000001 2\nreplayed 2\n"), "replay")


@test
def says_that_no_run_is_left(checks: Checks, folder: pathlib.Path) -> None:
    archive = folder / "archive"
    archive.mkdir()
    (archive / "999999-0000000000000000").write_text("the last run")
    said = f"siplocd: archive {archive}: no number is left for a run\n"
    checks.equal(ended_start(folder, f'archive = "{archive}"'), (1, said), "after run 999999")
    checks.equal(pages_in(archive), ["999999-0000000000000000"], "its pages")


@test
def a_start_that_is_refused_leaves_no_page(checks: Checks, folder: pathlib.Path) -> None:
    archive, state, log = folder / "archive", folder / "state", folder / "state.log"
    archive.mkdir()
    state.write_bytes(state_of(STATE))
    adds = [f"add n{number}.example.com. A 192.0.2.1\n".encode() for number in range(300)]
    whole = log_of(state.read_bytes(), [b"".join(adds), b"add b.example.com. A 192.0.2.2\n", b"drop example.com.\n"])
    # (pages of fewer events than there are changes)
    settings = f'archive = "{archive}"\nstate = "{state}"\njournal = 60\nclock = "lines"\n'
    log.write_bytes(whole)
    with started(checks, folder, settings) as daemon:
        stopped(checks, daemon)
    before = pages_in(archive)
    checks.expect(len(before) > 3, before)
    (archive / "of an operator").write_text("a note")
    state.write_bytes(state_of(STATE))
    damaged = whole.replace(b"add b.", b"add c.")
    refused = log_of(state.read_bytes(), [b"".join(adds), b"add b.example.com. A 192.0.2\n"])
    for name, octets, more in ("damage", damaged, ""), ("a change that is refused", refused, ""), \
            ("more records than are allowed", whole, "records = 200"):
        log.write_bytes(octets)
        status, said = ended_start(folder, settings + more)
        checks.expect(status == 1 and is_told_once(said, f"siplocd: state {log}: "), (name, status, said))
        checks.equal(pages_in(archive), [*before, "of an operator"], f"the archive after {name}")
    # What a kill may leave: the pages of a run that is whole up to there.
    (archive / "of an operator").unlink()
    log.write_bytes(whole)
    with started(checks, folder, settings) as daemon:
        stopped(checks, daemon)
    checks.equal(replayed(archive)[0], 0, replayed(archive))


def change_log(log: pathlib.Path, how: str) -> None:
    """What somebody does to a log while the daemon runs."""
    if how == "removed":
        log.unlink()
    elif how == "emptied":
        os.truncate(log, 0)
    elif how == "replaced":
        log.with_suffix(".other").write_bytes(b"something else")
        log.with_suffix(".other").replace(log)
    else:
        with log.open("ab") as file:
            file.write(b"something else")


@test
def keeps_what_was_replied_to_where_its_log_is_changed(checks: Checks, folder: pathlib.Path) -> None:
    for how in "removed", "emptied", "replaced", "written to":
        for on_failure in "end", "read":
            inner = folder / f"{how}-{on_failure}"
            inner.mkdir()
            settings = f'state = "{inner}/state"\non_failure = "{on_failure}"'
            name = f"{how}, {on_failure}"
            with started(checks, inner, settings) as daemon, Client(daemon.address) as client, \
                    Client(daemon.address) as other:
                checks.equal(client.ask("zone example.com. 1\na A 192.0.2.1"), ["ok zone 1 0 0 1"], name)
                change_log(inner / "state.log", how)
                checks.equal(client.ask("add b.example.com. A 192.0.2.2"), None, f"{name}: a reply")
                if on_failure == "end":
                    status, _ = daemon.end()
                elif how == "written to":
                    # (the log is read, but for what is no commit, and written anew)
                    checks.expect(until(lambda: other.ask("add c.example.com. A 192.0.2.3") != REFUSED), name)
                    status, _, _ = daemon.stop()
                    checks.equal(status, 0, f"{name}: {daemon.said()!r}")
                else:
                    checks.equal(other.ask("add c.example.com. A 192.0.2.3"), REFUSED, name)
                    checks.equal(other.ask("find sip:a.example.com:1"), target(1), f"{name}: a question meanwhile")
                    checks.expect(until(lambda: daemon.said().endswith("changes are refused\n")), daemon.said())
                    status, _, _ = daemon.stop()
                if (on_failure, how) != ("read", "written to"):
                    checks.equal(status, 1, f"{name}: {daemon.said()!r}")
                    checks.expect(daemon.said().startswith("siplocd: state: "), daemon.said())
                    checks.equal(daemon.said().count("\n"), 1 + (on_failure == "read"), f"{name}: {daemon.said()!r}")
            with started(checks, inner, settings) as daemon, Client(daemon.address) as client:
                checks.equal(client.ask("find sip:a.example.com:1"), target(1), f"{name}: at the next start")
                checks.equal(client.ask("add d.example.com. A 192.0.2.4"), ["ok add 1"], f"{name}: a change")
                stopped(checks, daemon)


@test
def keeps_what_was_replied_to_where_its_log_is_removed_while_a_page_waits(checks: Checks, folder: pathlib.Path) -> None:
    """The state of a page that waits for its claim can't be written then: that of the last one has all."""
    settings, unix, log = f'state = "{folder}/state"', f"unix:{folder}/s", folder / "state.log"
    with started(checks, folder, settings, unix=unix) as daemon, Client(daemon.address) as client, \
            Client(unix, is_slow=True) as slow:
        text = "".join(f"\na A 192.0.2.{n + 1}" for n in range(32))
        checks.equal(client.ask(f"zone example.net. 32{text}"), ["ok zone 32 0 0 1"], "a zone")
        # (while its replies wait for it its receipts are its own)
        slow.send("find sip:a.example.net:1\n" * 400)
        until(lambda: is_filled(slow))
        # More than a log may have: a page is turned, with the next checkpoint.
        checks.equal(client.ask(LONG_ZONE), ["ok zone 1401 0 0 1401"], "a long zone")
        checks.expect(until(lambda: b"\n# page " in log.read_bytes()), "no checkpoint")
        checks.equal(client.ask("add b.example.com. A 192.0.2.2"), ["ok add 1"], "a change")
        log.unlink()
        slow.stream.close()
        checks.equal(daemon.end()[0], 1, daemon.said())
        checks.expect(is_told_once(daemon.said(), "siplocd: state: "), daemon.said())
    with started(checks, folder, settings) as daemon, Client(daemon.address) as client:
        for name, number in ("a.example.com", 1), ("b.example.com", 2):
            checks.equal(client.ask(f"find sip:{name}:1"), target(number), name)
        stopped(checks, daemon)


@test
def writes_on_in_a_log_that_was_moved(checks: Checks, folder: pathlib.Path) -> None:
    """As logrotate moves one. A stop has all; after a kill the log is to be moved back."""
    settings, log, away = f'state = "{folder}/state"', folder / "state.log", folder / "state.log.1"
    for number, is_killed in (2, False), (3, True):
        with started(checks, folder, settings) as daemon, Client(daemon.address) as client:
            checks.expect("ok zone 1 " in str(client.ask("zone example.com. 1\na A 192.0.2.1")), "zone")
            log.rename(away)
            checks.equal(client.ask(f"add b.example.com. A 192.0.2.{number}"), ["ok add 1"], "a change")
            daemon.kill() if is_killed else stopped(checks, daemon)
        if is_killed:
            checks.equal(ended_start(folder, settings), (1, f"siplocd: state {log}: not of this state\n"), "no log")
            away.rename(log)
        with started(checks, folder, settings) as daemon, Client(daemon.address) as client:
            checks.equal(client.ask("find sip:b.example.com:1"), target(number), f"killed: {is_killed}")
            stopped(checks, daemon)


@test
def cuts_off_a_change_that_could_not_be_synced(checks: Checks, folder: pathlib.Path) -> None:
    """The system has the octets, and may never write them: what comes after them would be lost with them."""
    for name in "sync", "write":
        inner = folder / name
        inner.mkdir()
        syncs, log = Syncs(inner), inner / "state.log"
        with started(checks, inner, f'state = "{inner}/state"', environment=syncs.environment) as daemon, \
                Client(daemon.address) as client:
            checks.equal(client.ask("zone example.com. 1\na A 192.0.2.1"), ["ok zone 1 0 0 1"], "zone")
            before = log.read_bytes()
            syncs.fail(name, errno.EIO)
            checks.equal(client.ask("add b.example.com. A 192.0.2.2"), None, f"{name}: a reply")
            checks.equal(daemon.end()[0], 1, name)
            checks.equal(log.read_bytes(), before, f"the log after a {name} that failed")
            checks.equal(sorted(it.name for it in inner.glob("state*")), ["state", "state.lock", "state.log"],
                         f"its files after a {name} that failed")


@test
def a_start_syncs_the_name_of_its_log(checks: Checks, folder: pathlib.Path) -> None:
    """The daemon is killed when a log that was written anew has its place, and the folder is not synced; the next one
    goes on with it; and then the machine ends."""
    state = state_of(STATE)
    scene = Scene("named", {"state": state, "state.log": log_of(state, [])}, [])
    place, synced = folder / "place", folder / "synced"
    scene.put(place, synced)
    faults, settings = Faults(folder), f'state = "{place}/state"\non_failure = "read"\nclock = "lines"\nworkers = 0'
    for fault in f"write state.log 1 {errno.EIO} rename state.log 1 after", "none none 1 0":
        environment = {**faults.environment(fault), "FAULT_FOLDER": f"{place}/", "FAULT_SYNCED": f"{synced}/"}
        daemon = Daemon(folder, settings, listen=[f"unix:{folder}/lines"], environment=environment)
        try:
            with Client(daemon.address) as client:
                if fault.startswith("write"):
                    checks.equal(client.ask("add b.example.com. A 192.0.2.2"), None, "a change that is not written")
                    checks.equal(daemon.end()[0], -9, "its end")
                    checks.equal(len(bodies_of((place / "state.log").read_bytes())), 1, "commits")
                else:
                    checks.equal(client.ask("add c.example.com. A 192.0.2.3"), ["ok add 1"], "a change after it")
        finally:
            daemon.kill()
    left = left_by_machine(place, synced, False)
    with started(checks, folder, f'state = "{left}/state"', listen=[f"unix:{folder}/lines"]) as daemon, \
            Client(daemon.address) as client:
        checks.equal(client.ask("find sip:c.example.com:1"), target(3), "what was replied to")


@test
def leaves_its_files_where_its_folder_is_another_one(checks: Checks, folder: pathlib.Path) -> None:
    def replace(inner: pathlib.Path) -> None:
        inner.rename(folder / "away")
        inner.mkdir()

    def restore(inner: pathlib.Path) -> None:
        checks.equal([*inner.iterdir()], [], "the other folder")
        inner.rmdir()
        (folder / "away").rename(inner)

    def lock_anew(inner: pathlib.Path) -> None:
        (inner / "state.lock").unlink()
        (inner / "state.lock").touch()

    cases: list[tuple[str, Callable[[pathlib.Path], None], Callable[[pathlib.Path], object]]] = [
        ("folder", replace, restore), ("lock", lock_anew, lambda _: None)]
    for name, make, undo in cases:
        inner = folder / name
        inner.mkdir()
        settings = f'state = "{inner}/state"\nclock = "lines"'
        with started(checks, folder, settings) as daemon, Client(daemon.address) as client:
            checks.equal(client.ask("zone example.com. 1\na A 192.0.2.1"), ["ok zone 1 0 0 1"], "zone")
            make(inner)
            # (a state is written after it)
            reply = client.ask(LONG_ZONE.replace("example.com.", "example.net."))
            # (where the machine is busy the daemon may have ended before its reply)
            checks.expect(reply in (["ok zone 1401 0 0 1401"], None), f"{name}: {reply}")
            status, _ = daemon.end()
            checks.expect(status == 1 and is_told_once(daemon.said(), "siplocd: state: "), (status, daemon.said()))
        undo(inner)
        with started(checks, folder, settings) as daemon, Client(daemon.address) as client:
            for apex in "example.com", "example.net":
                checks.equal(client.ask(f"find sip:a.{apex}:1"), target(1), f"{name}: {apex}")
            stopped(checks, daemon)


@test
def starts_on_a_disk_that_can_not_be_written(checks: Checks, folder: pathlib.Path) -> None:
    state, faults = state_of(STATE), Faults(folder)
    log = log_of(state, [b"add b.example.com. A 192.0.2.2\n"])
    refusing = "siplocd: state: read-only filesystem or storage medium: changes are refused\n"
    again = "siplocd: state: written again, changes are accepted\n"
    for name, files, said in ("whole", {"state.log": log}, ""), \
            ("torn", {"state.log": log + b"torn"}, f"a write did not end at octet {len(log)}\n"), \
            ("moved", {"state.log": log_of(state_of(b"# page 0\n"), []), "state.log.new": log}, ""):
        inner = folder / name
        (inner / "archive").mkdir(parents=True)
        for path, octets in {"state": state, "state.lock": b"", **files}.items():
            (inner / path).write_bytes(octets)
        before = {it.name: it.read_bytes() for it in inner.glob("state*")}
        settings = f'state = "{inner}/state"\narchive = "{inner}/archive"\nclock = "lines"\non_failure = '
        environment = {**faults.environment("open state.lock 1 read-only"), "FAULT_FOLDER": f"{inner}/"}
        ended = Daemon(inner, f'{settings}"end"', listen=[f"unix:{inner}/lines"], waits=False,
                       environment={**environment, "FAULT": "open archive/new 1 read-only"})
        status, _ = ended.end()
        checks.expect(status == 1 and is_told_once(ended.said(), f"siplocd: archive {inner}/archive/new: Read-only"),
                      (status, ended.said()))
        with started(checks, inner, f'{settings}"read"', listen=[f"unix:{inner}/lines"],
                     environment=environment) as daemon, Client(daemon.address) as client:
            for host, number in ("a", 1), ("b", 2):
                checks.equal(client.ask(f"find sip:{host}.example.com:1"), target(number), f"{name}: {host}")
            checks.equal(client.ask("add c.example.com. A 192.0.2.3"), REFUSED, f"{name}: a change")
            daemon.tell("page")
            for text in ": pages wait\n", refusing, said:
                checks.expect(until(lambda it=text: it in daemon.said()), (text, daemon.said()))
            status, why = ended_start(folder, f'state = "{inner}/state"\non_failure = "read"')
            checks.expect(status == 1 and "another siplocd has it" in why, ("a state that another has", why))
            checks.equal({it.name: it.read_bytes() for it in inner.glob("state*")}, before, f"{name}: its files")
            (inner / "emptied").touch()
            checks.expect(until(lambda: client.ask("add c.example.com. A 192.0.2.3") != REFUSED), f"{name}: for ever")
            checks.expect(until(lambda: again in daemon.said()), daemon.said())
            checks.equal(daemon.said().count(refusing), 1, daemon.said())
            daemon.kill()
        with started(checks, inner, f'{settings}"end"', listen=[f"unix:{inner}/lines"]) as daemon, \
                Client(daemon.address) as client:
            for host, number in ("a", 1), ("b", 2), ("c", 3):
                checks.equal(client.ask(f"find sip:{host}.example.com:1"), target(number), f"{name}: {host} after it")
            stopped(checks, daemon)
    # Without its lock it can't be told whether another daemon has the files.
    (inner / "state.lock").unlink()
    (inner / "emptied").unlink()
    ended = Daemon(inner, f'{settings}"read"', listen=[f"unix:{inner}/lines"], waits=False, environment=environment)
    checks.expect(ended.end()[0] == 1 and is_told_once(ended.said(), f"siplocd: state {inner}/state: "), ended.said())
