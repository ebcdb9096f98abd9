"""Changes that can't be written: what a daemon does then that goes on, and how much a log and a page may have."""

from __future__ import annotations

import contextlib
import errno
import os
import pathlib
import resource
import subprocess
import time

from commits import log_of, state_of
from daemon_tests.support import PATIENCE, PROGRAM, TOP, Checks, Client, Daemon, started, stopped, test, until
from daemon_tests.syncs import Syncs

REFUSED = ["err D2"]
TOLD = "siplocd: state: {}: changes are refused\nsiplocd: state: written again, changes are accepted\n"
# (more than a megabyte, so that a state is written)
LONG = "x" * 255
LONG_ZONE = "zone example.com. 1401\na A 192.0.2.1" + "".join(f'\nn{n} NAPTR 1 1 "{LONG}" "{LONG}" "{LONG}" .'
                                                              for n in range(1_400))


class Faults:
    """What a preloaded library (tests/daemon/faults.c) does to the operations of a daemon on the files of a folder."""

    def __init__(self, folder: pathlib.Path) -> None:
        self.folder, self.library = folder, folder / "faults.so"
        subprocess.run(["cc", "-O2", "-shared", "-fPIC", "-o", self.library, TOP / "tests/daemon/faults.c"], check=True)

    def environment(self, fault: str) -> dict[str, str]:
        """The environment of a daemon that meets a fault."""
        return {"LD_PRELOAD": str(self.library), "FAULT_FOLDER": f"{self.folder}/",
                "FAULT_LOG": f"{self.folder}/trace", "FAULT": fault}


def target(number: int) -> list[str]:
    return [f"target 1 udp 192.0.2.{number} 1", "ok find 1"]


def accepts(client: Client, line: str) -> bool:
    """Whether a change is accepted within some time, and refused until then."""
    return bool(until(lambda: client.ask(line) != REFUSED))


@test
def answers_while_no_change_can_be_written(checks: Checks, folder: pathlib.Path) -> None:
    for name, error, text in ("sync", errno.ENOSPC, "no storage space"), ("write", errno.ENOSPC, "no storage space"), \
            ("write", errno.EIO, "uncategorized error"):
        inner = folder / f"{name}-{error}"
        inner.mkdir()
        syncs, settings = Syncs(inner), f'state = "{inner}/state"\non_failure = "read"'
        with started(checks, inner, settings, environment=syncs.environment) as daemon, \
                Client(daemon.address) as client, Client(daemon.address) as other:
            checks.equal(client.ask("zone example.com. 1\na A 192.0.2.1"), ["ok zone 1 0 0 1"], "zone")
            syncs.fail(name, error)
            checks.equal(client.ask("add b.example.com. A 192.0.2.2"), None, f"{name}: reply to a change that failed")
            for line in "add c.example.com. A 192.0.2.3", "drop example.com.", "zone example.net. 1\na A 192.0.2.4", \
                    "hold udp 192.0.2.1 1 60000", "release udp 192.0.2.1 1":
                checks.equal(other.ask(line), REFUSED, f"{name}: {line}")
            checks.equal(other.ask("find sip:a.example.com:1"), target(1), f"{name}: a question meanwhile")
            checks.expect(until(lambda: text in daemon.said()), f"{name}: {daemon.said()!r}")
            syncs.fail(name, 0)
            checks.expect(accepts(other, "add c.example.com. A 192.0.2.3"), f"{name}: refused for ever")
            checks.expect(until(lambda: daemon.said() == TOLD.format(text)), f"{name}: {daemon.said()!r}")
            daemon.kill()
        with started(checks, inner, settings) as daemon, Client(daemon.address) as client:
            # (that of b was not replied to, and was made)
            for host, number in ("a", 1), ("b", 2), ("c", 3):
                checks.equal(client.ask(f"find sip:{host}.example.com:1"), target(number),
                             f"{host} after a failed {name}")
            checks.equal(client.ask("find sip:a.example.net:1"), ["none NoAddress"], "a zone that was refused")
            stopped(checks, daemon)


@test
def goes_on_after_a_trim_that_failed(checks: Checks, folder: pathlib.Path) -> None:
    for place, error in (1, errno.EIO), (2, errno.EIO), (3, errno.EIO), (4, errno.EIO), (0, errno.EMFILE):
        inner = folder / f"{place}"
        inner.mkdir()
        syncs, log, settings = Syncs(inner), inner / "state.log", f'state = "{inner}/state"\non_failure = "read"'
        with started(checks, inner, settings,
                     environment=syncs.environment) as daemon, Client(daemon.address) as client:
            if place:
                syncs.watch_folder(place, error)
                syncs.go_on()
            else:
                syncs.fail("open", error)
            checks.equal(client.ask(LONG_ZONE), ["ok zone 1401 0 0 1401"], "zone")
            # (of the fourth there may be none: then the trim is made)
            checks.expect(until(lambda: "refused" in daemon.said() or place == 4 and log.stat().st_size < 1_000),
                          f"{place}: {daemon.said()!r}")
            syncs.fail("open", 0)
            checks.expect(accepts(client, "add b.example.com. A 192.0.2.2"), f"{place}: refused for ever")
            daemon.kill()
        with started(checks, inner, settings) as daemon, Client(daemon.address) as client:
            for host, number in ("a", 1), ("b", 2):
                checks.equal(client.ask(f"find sip:{host}.example.com:1"), target(number), f"{host} after step {place}")
            stopped(checks, daemon)


@test
def a_log_is_as_long_as_its_state(checks: Checks, folder: pathlib.Path) -> None:
    log = folder / "state.log"
    with started(checks, folder, f'state = "{folder}/state"') as daemon, Client(daemon.address) as client:
        for _ in range(6):
            checks.expect((client.ask(LONG_ZONE) or [""])[-1].startswith("ok zone 1401 "), "a zone")
        # (the log has what came after the last state, of which there may be one more while it is written)
        checks.expect(until(lambda: daemon.stats()["waiting"] == 0), daemon.stats())
        checks.expect(until(lambda: log.stat().st_size < 3 * len(LONG_ZONE)), f"{log.stat().st_size} octets")
        # (the page that is being claimed waits no more, and is not counted yet)
        checks.expect(until(lambda: daemon.stats()["pages"] >= 3), daemon.stats())
        stopped(checks, daemon)


@test
def a_page_has_so_many_octets(checks: Checks, folder: pathlib.Path) -> None:
    with started(checks, folder, "page_octets = 1000000") as daemon, Client(daemon.address) as client:
        records = "".join(f"\na A 192.0.2.{number}" for number in range(1, 33))
        checks.equal(client.ask(f"zone example.com. 32{records}"), ["ok zone 32 0 0 1"], "zone")
        # Of each answer its targets count, 64 octets each: some 2,300 octets.
        client.send("find sip:a.example.com:1\n" * 1_500)
        checks.equal({(client.reply() or [""])[-1] for _ in range(1_500)}, {"ok find 32"}, "find")
        checks.expect(until(lambda: daemon.stats()["pages"] >= 3), daemon.stats())
        stopped(checks, daemon)
    for value in "0", "-1", "1099511627777", '"1"':
        daemon = Daemon(folder, f"page_octets = {value}", waits=False)
        checks.equal((daemon.end()[0], daemon.said()), (1, "siplocd: settings G3 page_octets\n"), value)


@test
def checks_a_state(checks: Checks, folder: pathlib.Path) -> None:
    def checked() -> tuple[int, str, str]:
        ran = subprocess.run([PROGRAM, "check-state", str(state)], capture_output=True, text=True, timeout=PATIENCE,
                             check=False)
        return ran.returncode, ran.stdout, ran.stderr

    def files() -> dict[str, tuple[bytes, int]]:
        return {path.name: (path.read_bytes(), path.stat().st_mtime_ns) for path in folder.iterdir() if path.is_file()}

    state, log = folder / "state", folder / "state.log"
    checks.equal(checked(), (1, "", f"siplocd: state {state}: entity not found\n"), "no state")
    text = state_of(b"# page 3\nclock 5000\nzone example.com. 2\na.example.com. A 192.0.2.1\nb.example.com. A 192.0.2.2\n"
                    b"hold udp 192.0.2.9 5060 60000\n")
    whole = log_of(text, [b"add c.example.com. A 192.0.2.3\n", b"zone example.net. 0\n"])
    state.write_bytes(text)
    log.write_bytes(whole)
    counts = "format 2\nzones 2\nrecords 3\nheld 1\ncommits 2\nok state\n"
    before = files()
    checks.equal(checked(), (0, counts, ""), "a state and its log")
    checks.equal(files(), before, "the files that were checked")
    log.write_bytes(whole + b"torn")
    before = files()
    checks.equal(checked(), (0, counts, f"siplocd: state {log}: a write did not end at octet {len(whole)}\n"),
                 "a torn tail")
    checks.equal(files(), before, "the files with a torn tail")
    (folder / "state.log.new").write_bytes(whole)
    log.write_bytes(log_of(state_of(b"# page 2\n"), []))
    before = files()
    checks.equal(checked(), (0, counts, ""), "a log that a kill kept from its place")
    checks.equal(files(), before, "the files that a kill left")
    (folder / "state.log.new").unlink()
    checks.equal(checked(), (1, "", f"siplocd: state {log}: not of this state\n"), "another log")
    log.write_bytes(whole.replace(b"add c.", b"add d."))
    checks.equal((checked()[0], checked()[1]), (1, ""), "a damaged log")
    state.write_bytes(text.replace(b"192.0.2.1", b"192.0.2.7"))
    checks.equal(checked(), (1, "", f"siplocd: state {state}: not as it was written\n"), "a damaged state")
    state.write_bytes(b"# page 3\nzone example.com. 1\na.example.com. A 192.0.2.1\n")
    log.write_bytes(b"# page 3\nadd b.example.com. A 192.0.2.2\n")
    before = files()
    checks.equal(checked(), (0, counts.replace("format 2\nzones 2\nrecords 3\nheld 1\ncommits 2",
                                               "format 1\nzones 1\nrecords 2\nheld 0\n"
                                               "commits 0"), ""), "the first format")
    checks.equal(files(), before, "files of the first format")


@test
def claims_its_pages_while_it_starts(checks: Checks, folder: pathlib.Path) -> None:
    # Pages of 200 events, each with all records: without claims they would take several times the records.
    state, lines = folder / "state", [f"n{number} A 192.0.2.{number % 250}" for number in range(10_000)]
    body = f"# page 0\nzone example.com. {len(lines)}\n" + "".join(line.replace(" ", ".example.com. ", 1) + "\n"
                                                                   for line in lines)
    state.write_bytes(state_of(body.encode()))
    adds = [f"add m{number}.example.com. A 192.0.2.1\n".encode() for number in range(4_000)]
    sizes = []
    for journal in 1_000_000, 200:
        (folder / "state.log").write_bytes(log_of(state.read_bytes(), [b"".join(adds)]))
        begin = time.monotonic()
        with started(checks, folder, f'state = "{state}"\njournal = {journal}') as daemon:
            checks.equal(daemon.tell("zones"), ["zone example.com. 14000", "ok zones 1"],
                         f"after {time.monotonic() - begin:.1f} seconds")
            sizes.append(daemon.peak())
            daemon.kill()
    checks.expect(sizes[1] < 2 * sizes[0], f"{sizes[1]} octets at most, and {sizes[0]} where no page is turned")


@test
def pages_wait_until_they_are_archived(checks: Checks, folder: pathlib.Path) -> None:
    archive, syncs = folder / "archive", Syncs(folder)
    archive.mkdir()
    settings = f'archive = "{archive}"\non_failure = "read"\nclock = "lines"'
    with started(checks, folder, settings, environment=syncs.environment) as daemon, Client(daemon.address) as client:
        checks.equal(client.ask("zone example.com. 1\na A 192.0.2.1"), ["ok zone 1 0 0 1"], "zone")
        syncs.fail("write", errno.ENOSPC)
        for number in range(4):
            daemon.tell("page")
            checks.equal(client.ask("find sip:a.example.com:1"), target(1), f"a question after page {number}")
        checks.expect(until(lambda: daemon.said() == "siplocd: archive: No space left on device (os error 28): pages wait\n"), daemon.said())
        checks.equal(list(archive.glob("*page*")), [], "pages")
        syncs.fail("write", 0)
        checks.expect(until(lambda: daemon.said().endswith("siplocd: archive: written again\n")), daemon.said())
        checks.expect(until(lambda: daemon.stats()["waiting"] == 0), daemon.stats())
        stopped(checks, daemon, 5)
    ran = subprocess.run([PROGRAM, "replay", str(archive)], capture_output=True, text=True, timeout=PATIENCE,
                         check=False)
    checks.equal((ran.returncode, ran.stdout, ran.stderr), (0, "run 000001 5\nreplayed 5\n", ""), "replay")
    # So many pages may wait, and no more.
    with started(checks, folder, settings, environment=syncs.environment) as daemon, Client(daemon.address) as client:
        syncs.fail("write", errno.ENOSPC)
        for _ in range(40):
            if client.ask("find sip:a.example.com:1") is None:
                break
            # (it may end between the two)
            with contextlib.suppress(OSError):
                daemon.tell("page")
        checks.equal(daemon.end()[0], 1, "its status")
        checks.expect(daemon.said().endswith("siplocd: archive: No space left on device (os error 28)\n"),
                      daemon.said())
    syncs.fail("write", 0)


@test
def leaves_no_part_of_a_page(checks: Checks, folder: pathlib.Path) -> None:
    """What can't be written whole, or moved to its place, has no space; and nothing else is removed."""
    library = folder / "faults.so"
    subprocess.run(["cc", "-O2", "-shared", "-fPIC", "-o", library, TOP / "tests/daemon/faults.c"], check=True)
    first, second = "000001-0000000000000000", "000002-0000000000000000"
    for place, (operation, action) in enumerate((
            ("write archive/new", "full"), ("write archive/new", errno.EIO), ("fsync archive/new", errno.EIO),
            ("rename archive/page", errno.EIO), ("open archive/new", errno.EACCES), ("fsync archive", errno.EIO))):
        inner = folder / f"{place}"
        archive = inner / "archive"
        archive.mkdir(parents=True)
        settings = f'archive = "{archive}"\non_failure = '
        with started(checks, inner, f'{settings}"end"') as daemon, Client(daemon.address) as client:
            client.ask("find sip:192.0.2.1:1")
            stopped(checks, daemon, 1)
        (archive / "news").write_text("of an operator")
        whole = (archive / first).read_bytes()
        # (the first opening of a page is that of the start)
        count = 2 if operation.startswith("open") else 1
        environment = {"LD_PRELOAD": str(library), "FAULT_FOLDER": f"{inner}/", "FAULT_LOG": f"{folder}/trace-{place}",
                       "FAULT": f"{operation} {count} {action}"}
        with started(checks, inner, f'{settings}"end"', environment=environment) as daemon, \
                Client(daemon.address) as client:
            client.ask("find sip:192.0.2.1:1")
            status, _, _ = daemon.stop()
            checks.expect(status == 1 and daemon.said().startswith("siplocd: archive: ")
                          and daemon.said().count("\n") == 1, (operation, action, status, daemon.said()))
        left = [first, *[second] * (operation == "fsync archive"), "news"]
        checks.equal(sorted(it.name for it in archive.iterdir()), left, f"what is there after {operation} {action}")
        checks.equal((archive / first).read_bytes(), whole, f"the page before it, after {operation} {action}")
    # Where the page waits the disk has the space that it had.
    inner = folder / "waits"
    archive = inner / "archive"
    archive.mkdir(parents=True)
    environment |= {"FAULT_FOLDER": f"{inner}/", "FAULT": "write archive/new 1 full"}
    settings = f'archive = "{archive}"\non_failure = "read"\nclock = "lines"'
    with started(checks, inner, settings, environment=environment) as daemon, Client(daemon.address) as client:
        checks.equal(client.ask("find sip:192.0.2.1:1")[-1:], ["ok find 1"], "find")
        daemon.tell("page")
        checks.expect(until(lambda: daemon.said().endswith(": pages wait\n")), daemon.said())
        checks.expect(until(lambda: not [*archive.iterdir()]), [*archive.iterdir()])
        (inner / "emptied").touch()
        checks.expect(until(lambda: daemon.said().endswith("siplocd: archive: written again\n")), daemon.said())
        stopped(checks, daemon, 1)
    checks.equal([it.name for it in archive.iterdir()], [first], "the page that waited")


@test
def names_the_file_of_a_state_that_is_not_opened(checks: Checks, folder: pathlib.Path) -> None:
    state, faults = folder / "state", Faults(folder)
    with started(checks, folder, f'state = "{state}"') as daemon:
        stopped(checks, daemon)
    # (the log is opened to be read, and then to be appended to)
    for fault, name in ("state 1", "state"), ("state.log 1", "state.log"), ("state.log 2", "state.log"):
        environment = faults.environment(f"open {fault} {errno.EACCES}")
        daemon = Daemon(folder, f'state = "{state}"', environment=environment, waits=False)
        status, _ = daemon.end()
        denied = f"{os.strerror(errno.EACCES)} (os error {errno.EACCES})"
        checks.equal((status, daemon.said()), (1, f"siplocd: state {folder}/{name}: {denied}\n"), fault)


@test
def says_why_an_archive_is_not_locked(checks: Checks, folder: pathlib.Path) -> None:
    library, archive = folder / "faults.so", folder / "archive"
    subprocess.run(["cc", "-O2", "-shared", "-fPIC", "-o", library, TOP / "tests/daemon/faults.c"], check=True)
    archive.mkdir()
    for error, text in ((errno.EWOULDBLOCK, "another siplocd has it"), (errno.ENOLCK, "os error 37"),
                        (errno.EIO, "os error 5")):
        environment = {"LD_PRELOAD": str(library), "FAULT_FOLDER": f"{folder}/", "FAULT_LOG": f"{folder}/trace",
                       "FAULT": f"flock archive 1 {error}"}
        daemon = Daemon(folder, f'archive = "{archive}"', environment=environment, waits=False)
        status, _ = daemon.end()
        checks.expect(status == 1 and daemon.said().startswith(f"siplocd: archive {archive}: ")
                      and text in daemon.said() and daemon.said().count("\n") == 1, (error, status, daemon.said()))


@test
def pages_of_a_start_wait_until_they_are_archived(checks: Checks, folder: pathlib.Path) -> None:
    # The disk is full from the first page on, until there is a file `emptied`. Each page has some fifty events.
    full = "siplocd: archive: No space left on device (os error 28)"
    for changes, on_failure, goes_on in (350, "read", True), (900, "read", False), (120, "end", False):
        inner = folder / f"{changes}-{on_failure}"
        archive, state = inner / "archive", inner / "state"
        archive.mkdir(parents=True)
        state.write_bytes(state_of(b"# page 0\nzone example.com. 1\na.example.com. A 192.0.2.1\n"))
        adds = [f"add n{number}.example.com. A 192.0.2.1\n".encode() for number in range(changes)]
        (inner / "state.log").write_bytes(log_of(state.read_bytes(), [b"".join(adds)]))
        environment = Faults(inner).environment("write archive/new 1 full")
        settings = f'archive = "{archive}"\nstate = "{state}"\njournal = 60\nclock = "lines"\n' \
            f'on_failure = "{on_failure}"'
        daemon = Daemon(inner, settings, listen=[f"unix:{inner}/lines"], environment=environment)
        try:
            if not goes_on:
                checks.equal((daemon.end()[0], daemon.said().splitlines()[-1:]), (1, [full]), (changes, on_failure))
                continue
            checks.expect(daemon.is_ready(), f"{changes}: {daemon.lines}, {daemon.process.poll()}, {daemon.said()!r}")
            with Client(daemon.address) as client:
                checks.equal(client.ask("find sip:a.example.com:1"), target(1), f"{changes}: a question meanwhile")
            checks.expect(until(lambda: daemon.said() == f"{full}: pages wait\n"), (changes, daemon.said()))
            (inner / "emptied").touch()
            checks.expect(until(lambda: daemon.said().endswith("siplocd: archive: written again\n")), daemon.said())
            stopped(checks, daemon, changes + 2)
        finally:
            daemon.kill()
        ran = subprocess.run([PROGRAM, "replay", str(archive)], capture_output=True, text=True, timeout=PATIENCE,
                             check=False)
        checks.equal((ran.returncode, ran.stdout, ran.stderr),
                     (0, f"run 000001 {changes + 2}\nreplayed {changes + 2}\n", ""), f"{changes}: replay")


@test
def leaves_no_part_of_a_file_that_could_not_be_written(checks: Checks, folder: pathlib.Path) -> None:
    # The first ones are of the start, the second ones of a trim. A disk that is full is so until there is `emptied`.
    refused, goes_on = "changes are refused\n", "the log goes on\n"
    trims = ("write state.new 2 full", goes_on), (f"fsync state.new 2 {errno.EIO}", goes_on), \
        ("write state.log.new 2 full", refused), (f"rename state 2 {errno.EIO}", refused)
    for place, (fault, said) in enumerate(trims):
        inner = folder / f"{place}"
        inner.mkdir()
        settings = f'state = "{inner}/state"\non_failure = "read"\nclock = "lines"'
        (inner / "state.old").write_text("of somebody else")
        with started(checks, inner, settings, listen=[f"unix:{inner}/lines"],
                     environment=Faults(inner).environment(fault)) as daemon, Client(daemon.address) as client:
            checks.equal(client.ask(LONG_ZONE), ["ok zone 1401 0 0 1401"], fault)
            checks.expect(until(lambda: said in daemon.said()), f"{fault}: {daemon.said()!r}")
            checks.expect(until(lambda: not (inner / "state.new").exists()), f"{fault}: state.new is left")
            if "full" in fault:
                checks.expect(until(lambda: not (inner / "state.log.new").exists()), f"{fault}: state.log.new is left")
            (inner / "emptied").touch()
            if said == goes_on:
                checks.equal(client.ask("add b.example.com. A 192.0.2.2"), ["ok add 1"], f"{fault}: a change after it")
                # Once the log is as long again a state is written.
                more = LONG_ZONE.replace("example.com.", "example.net.")
                checks.equal(client.ask(more), ["ok zone 1401 0 0 1401"], f"{fault}: a zone after it")
                checks.expect(until(lambda: (inner / "state.log").stat().st_size < 1_000), f"{fault}: a long log")
            else:
                checks.expect(accepts(client, "add b.example.com. A 192.0.2.2"), f"{fault}: refused for ever")
            daemon.kill()
        checks.equal((inner / "state.old").read_text(), "of somebody else", fault)
        with started(checks, inner, settings, listen=[f"unix:{inner}/lines"]) as daemon, \
                Client(daemon.address) as client:
            for host, number in ("a", 1), ("b", 2):
                checks.equal(client.ask(f"find sip:{host}.example.com:1"), target(number), f"{host} after {fault}")
            stopped(checks, daemon)


@test
def a_start_that_fails_leaves_no_part_of_a_file(checks: Checks, folder: pathlib.Path) -> None:
    old = b"# page 0\nzone example.com. 1\na.example.com. A 192.0.2.1\n"
    settings, listen, faults = f'state = "{folder}/state"', [f"unix:{folder}/lines"], Faults(folder)
    # The files of the first format are written in the second.
    (folder / "state").write_bytes(old)
    (folder / "state.log").write_bytes(b"# page 0\n")
    for fault in f"write state.new 1 {errno.ENOSPC}", f"fsync state.new 1 {errno.EIO}", \
            f"write state.log.new 1 {errno.ENOSPC}", f"fsync . 1 {errno.EIO}", f"rename state 1 {errno.EIO}":
        daemon = Daemon(folder, settings, listen=listen, waits=False, environment=faults.environment(fault))
        status, _ = daemon.end()
        checks.expect(status == 1 and daemon.said().startswith("siplocd: state "), (fault, status, daemon.said()))
        left = {it.name for it in folder.iterdir() if it.name.startswith("state")}
        # (a system may have moved what it says it has not: then the new log is the state's)
        stays = {"state.log.new"} if fault.startswith("rename") else set()
        checks.equal(left, {"state", "state.log", "state.lock"} | stays, f"after {fault}")
    with started(checks, folder, settings, listen=listen) as daemon:
        checks.equal(daemon.tell("zones"), ["zone example.com. 1", "ok zones 1"], "a start after them")
        stopped(checks, daemon)


@test
def keeps_no_part_of_a_torn_tail(checks: Checks, folder: pathlib.Path) -> None:
    state, log, torn = folder / "state", folder / "state.log", folder / "state.log.torn"
    state.write_bytes(state_of(b"# page 0\nzone example.com. 1\na.example.com. A 192.0.2.1\n"))
    whole = log_of(state.read_bytes(), [b"add b.example.com. A 192.0.2.2\n"])
    for fault, wanted in (f"write state.log.torn 1 {errno.ENOSPC}", None), (f"open state.log.torn 1 {errno.EACCES}",
                                                                          b"an earlier one"), ("none none 1 0", b"torn"):
        log.write_bytes(whole + b"torn")
        torn.write_bytes(b"an earlier one")
        with started(checks, folder, f'state = "{state}"', listen=[f"unix:{folder}/lines"],
                     environment=Faults(folder).environment(fault)) as daemon:
            checks.equal(log.read_bytes(), whole, f"the log after {fault}")
            checks.equal(torn.read_bytes() if torn.exists() else None, wanted, f"the tail after {fault}")
            daemon.kill()


@test
def says_where_no_thread_can_be_made(checks: Checks, folder: pathlib.Path) -> None:
    # Those of the input, of the log and of the workers are the first three; without them it goes on.
    for count, on_failure in (4, "end"), (5, "end"), (6, "end"), (7, "end"), (6, "read"), (8, "read"):
        inner = folder / f"{count}-{on_failure}"
        inner.mkdir()
        environment = Faults(inner).environment(f"thread new {count} {errno.EAGAIN}")
        settings = f'workers = 0\non_failure = "{on_failure}"'
        daemon = Daemon(inner, settings, listen=[f"unix:{inner}/lines"], environment=environment, waits=False)
        status, last = daemon.end()
        checks.equal((status, daemon.said()), (1, "siplocd: no thread can be made\n"), f"thread {count}, {last!r}")
        checks.expect(not last.startswith("closed"), f"{last!r} for want of thread {count}")


def end_within(folder: pathlib.Path, words: list[str], megabytes: int) -> str:
    """The last line that a run prints with so much memory; where dev/try compiled the program, whose checks take
    terabytes of addresses, with no allocation of more."""
    is_trial = subprocess.run([PROGRAM, "--version"], capture_output=True, check=True).stdout.endswith(b"+trial\n")
    limits = 2 * (megabytes << 20,)
    checks = f"allocator_may_return_null=1:max_allocation_size_mb={megabytes}"
    ran = subprocess.run([PROGRAM, *words], cwd=folder, stdin=subprocess.DEVNULL, capture_output=True, text=True,
                         check=False, env={**os.environ, "ASAN_OPTIONS": checks},
                         preexec_fn=None if is_trial else lambda: resource.setrlimit(resource.RLIMIT_DATA, limits))
    lines = [it for it in (ran.stdout + ran.stderr).split("\n") if it and not it.startswith("==")]
    return (lines or [f"status {ran.returncode}"])[-1].rpartition(": ")[2]


@test
def tells_want_of_memory_as_that(checks: Checks, folder: pathlib.Path) -> None:
    """Where memory does not suffice for a state or an archive, no change and no event is said to be refused."""
    (folder / "archive").mkdir()
    with started(checks, folder, f'state = "{folder}/state"\narchive = "{folder}/archive"') as daemon, \
            Client(daemon.address) as client:
        names = (f"n{it} A 192.0.2.1" for it in range(40_000))
        checks.equal(client.ask("\n".join(["zone example.com. 40000", *names])), ["ok zone 40000 0 0 40000"], "zone")
        stopped(checks, daemon)
    for words, whole in (["check-state", "state"], "ok state"), (["replay", "archive"], "replayed 1"):
        checks.equal({end_within(folder, words, it) for it in range(2, 66, 4)}, {"out of memory", whole}, words[0])
