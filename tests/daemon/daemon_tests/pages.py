"""Pages and the archive."""

from __future__ import annotations

import concurrent.futures
import hashlib
import pathlib
import random
import subprocess
import time
from typing import Any, Iterator

from daemon_tests.support import (
    ENDS,
    PATIENCE,
    PROGRAM,
    SEED,
    Checks,
    Client,
    Daemon,
    closed,
    ended_start,
    started,
    stopped,
    test,
    until,
)
from daemon_tests.syncs import Syncs


def use_pages(checks: Checks, daemon: Daemon, lines: int) -> int:
    """Eight clients of so many lines each, one of them in fifty an edit: how many events there are."""
    def use(place: int) -> list[str]:
        with Client(daemon.address) as client:
            wrong = []
            for begin in range(0, lines, 50):
                edit = begin // 50 % 2
                client.send(f"{('add', 'del')[edit]} c{place}.example.com. A 192.0.2.1\n"
                            + "".join(f"find sip:192.0.2.1:{1 + (begin + n) % 50}\n" for n in range(49)))
                replies = [client.reply() for _ in range(50)]
                wrong += [str(it) for it in replies if not it or it[-1] not in ("ok add 1", "ok del 1", "ok find 1")]
            client.ask("quit")
            return wrong

    with Client(daemon.address) as client:
        client.ask("zone example.com. 1\n@ TXT x")
    with concurrent.futures.ThreadPoolExecutor(8) as pool:
        wrong = [it for each in pool.map(use, range(8)) for it in each]
    checks.equal(wrong[:3], [], f"{len(wrong)} wrong replies")
    return 8 * lines + 1


@test
def the_journal_rolls(checks: Checks, folder: pathlib.Path) -> None:
    with started(checks, folder, "journal = 1000") as daemon:
        events = use_pages(checks, daemon, 3_000)
        # Each but the last one is claimed, within a moment.
        checks.expect(until(lambda: daemon.stats()["waiting"] == 0), daemon.stats())
        # (the one that is being claimed waits no more, and is not counted yet)
        checks.expect(until(lambda: daemon.stats()["pages"] >= events // 1000), daemon.stats())
        checks.equal(daemon.stats()["events"], events, "events")
        stopped(checks, daemon, events)


@test
def the_archive_is_replayed(checks: Checks, folder: pathlib.Path) -> None:
    archive = folder / "archive"
    archive.mkdir()
    with started(checks, folder, f'journal = 100\narchive = "{archive}"') as daemon:
        events = use_pages(checks, daemon, 100)
        stopped(checks, daemon, events)
    checks.equal(replay(archive), (0, replayed(events)), "replay")
    damage(checks, archive)


@test
def sessions_wait_for_pages_that_wait(checks: Checks, folder: pathlib.Path) -> None:
    """While a page can't be archived, eight clients send all that they are answered: that makes few pages, not all
    memory."""
    archive, syncs = folder / "archive", Syncs(folder)
    archive.mkdir()
    with started(checks, folder, f'journal = 100\narchive = "{archive}"', environment=syncs.environment) as daemon:
        syncs.wait(True)
        ends = time.monotonic() + 3

        def use(_: int) -> int:
            with Client(daemon.address) as client:
                count = 0
                # (on a busy machine a client may come later)
                while not count or time.monotonic() < ends:
                    client.send("find sip:192.0.2.1:1\n" * 50)
                    count += sum(client.reply() is not None for _ in range(50))
                return count

        with concurrent.futures.ThreadPoolExecutor(8) as pool:
            counts = [*pool.map(use, range(8))]
        waiting = daemon.stats()["waiting"]
        checks.expect(min(counts) >= 50, ("lines of each client", counts))
        checks.expect(waiting <= 100, (waiting, "pages wait"))
        syncs.wait(False)
        checks.expect(until(lambda: daemon.stats()["waiting"] == 0), daemon.stats())
        stopped(checks, daemon, sum(counts))


def replayed(*events: int, first: int = 1) -> str:
    """What a replay prints of runs with so many events, from a number on."""
    return "".join(f"run {run:06} {it}\n" for run, it in enumerate(events, first)) + f"replayed {sum(events)}\n"


def digested(octets: bytes) -> bytes:
    """A page with the digest of what is before its last line."""
    body = octets[:octets.rindex(b"sha256 ")]
    return body + b"sha256 " + hashlib.sha256(body).hexdigest().encode() + b"\n"


def replay(archive: pathlib.Path) -> tuple[int, str]:
    ran = subprocess.run([PROGRAM, "replay", str(archive)], capture_output=True, text=True, timeout=PATIENCE,
                         check=False)
    return ran.returncode, ran.stdout + ran.stderr


def events_of(page: bytes) -> Iterator[tuple[int, int, int]]:
    """The events of a page: the number of each, and the places where its lines begin and end, with its reply's."""
    head, _, rest = page.partition(b"\n\n")
    number, place = int(head.split()[2]), len(head) + 2
    lines = iter(rest.splitlines(keepends=True)[:-1])
    for line in lines:
        words, begin = line.split(), place
        place += len(line)
        if words[0] == b"zone":
            place += sum(len(next(lines)) for _ in range(int(words[2])))
        while words[0] == b"find" and line.split()[0] not in ENDS:
            line = next(lines)
            place += len(line)
        yield number, begin, place
        number += 1


def events_in(archive: pathlib.Path) -> int:
    """How many events the pages in an archive say that they have."""
    return sum(int(page.read_bytes().split()[3]) for page in archive.iterdir())


def damage(checks: Checks, archive: pathlib.Path) -> None:
    """Changes an octet of an event, of a digest and so on, takes a page away: a replay has to say what and where."""
    def refused(cause: str, of: pathlib.Path, octets: bytes) -> None:
        kept = of.read_bytes()
        of.write_bytes(octets)
        checks.equal(replay(archive), (1, f"siplocd: replay {of}: {cause}\n"), f"{of.name} of {len(pages)} pages")
        of.write_bytes(kept)

    pages = sorted(archive.iterdir())
    middle, after = pages[len(pages) // 2:][:2]
    chance = random.Random(SEED)
    events = [(page, *it) for page in pages for it in events_of(page.read_bytes())]
    checks.equal([it[1] for it in events], list(range(events_in(archive))), "the numbers of all events")
    # An address of a question, of its answer, and of a record that is removed: a digit is another one.
    for kind, is_last, of in (b"find", False, [middle]), (b"find", True, [middle]), (b"del", True, pages):
        page, number, begin, end = chance.choice([it for it in events if it[0] in of
                                                  and it[0].read_bytes()[it[2]:].startswith(kind + b" ")])
        octets = page.read_bytes()
        event = octets[begin:end]
        place = begin + (event.rindex if is_last else event.index)(b"192.0.2.1") + len("192.0.2.")
        changed = octets[:place] + b"3" + octets[place + 1:]
        refused("not as it was written", page, changed)
        refused(f"event {number}", page, digested(changed))
    octets = middle.read_bytes()
    refused("not as it was written", middle, octets[:-2] + (b"1" if octets[-2:] == b"0\n" else b"0") + b"\n")
    refused("not as it was written", middle, octets + b"x")
    for length in 0, len(octets) // 2, len(octets) - 1:
        refused("not a whole page", middle, octets[:length])
    refused("of another client", middle, digested(octets.replace(b'families = "v4"', b'families = "v6"', 1)))
    refused("misnamed", middle, after.read_bytes())
    other = middle.with_name(middle.name[:-1])
    middle.rename(other)
    checks.equal(replay(archive), (1, f"siplocd: replay {other}: misnamed\n"), "a name of another form")
    other.unlink()
    checks.equal(replay(archive), (1, f"siplocd: replay {after}: a page before it is missing\n"), "a page less")
    middle.write_bytes(octets)
    checks.equal(replay(archive)[0], 0, "as it was")


@test
def runs_of_an_archive_are_counted_on(checks: Checks, folder: pathlib.Path) -> None:
    archive, other = folder / "archive", folder / "other"
    archive.mkdir(), other.mkdir()
    settings = f'archive = "{archive}"'

    def run(count: int) -> tuple[int, list[pathlib.Path]]:
        """A daemon that is used and stopped: the number of its run, and its pages."""
        before = {*archive.iterdir()}
        with started(checks, folder, settings) as daemon, Client(daemon.address) as client:
            for n in range(count):
                checks.equal(client.ask(f"find sip:192.0.2.1:{n + 1}")[-1:], ["ok find 1"], "find")
                checks.equal(client.ask("zone example.com. 0"), ["ok zone 0 0 0 0"], "zone")
                checks.equal(client.ask("page"), [f"ok page {2 * n} 2"], "page")
            status, said = ended_start(other, settings)
            checks.expect(status == 1 and said.startswith(f"siplocd: archive {archive}: ") and said.count("\n") == 1,
                          ("an archive that another has", status, said))
            checks.equal(client.ask("find sip:192.0.2.1")[-1:], ["ok find 1"], "after another start")
            stopped(checks, daemon, 2 * count + 1)
        pages = sorted({*archive.iterdir()} - before)
        run = pages[0].name[:6]
        checks.equal([it.name for it in pages], [f"{run}-{2 * n:016}" for n in range(count + 1)], "pages of a run")
        return int(run), pages

    status, said = ended_start(other, f'archive = "{folder}/none"')
    checks.expect(status == 1 and said.startswith(f"siplocd: archive {folder}/none: ") and said.count("\n") == 1,
                  ("an archive that is not there", status, said))
    first, pages = run(2)
    second, _ = run(3)
    checks.equal(replay(archive), (0, replayed(5, 7)), "two runs")
    for page in pages:
        page.unlink()
    # What was being written when a daemon was killed is no page.
    (archive / "new").write_bytes(b"siplocd page 0 1\n")
    third, _ = run(1)
    checks.expect(first < second < third, f"runs {first}, {second}, {third}")
    checks.equal(replay(archive), (0, replayed(7, 3, first=2)), "the later two of three runs")


@test
def replays_what_goes_on_from_a_state(checks: Checks, folder: pathlib.Path) -> None:
    archive, asked = folder / "archive", ["find sip:a.example.com:1", "find sip:b.example.com:1", "find sip:192.0.2.9"]
    archive.mkdir()
    settings = f'archive = "{archive}"\nstate = "{folder}/state"'

    def use(client: Client, *turns: tuple[str, str]) -> list[Any]:
        for line, reply in turns:
            checks.equal(client.ask(line), [reply], line)
        return [client.ask(it) for it in asked]

    with started(checks, folder, settings) as daemon, Client(daemon.address) as client:
        answers = use(client, ("zone example.com. 2\na A 192.0.2.1\n@ TXT x", "ok zone 2 0 0 1"),
                      ("add b.example.com. A 192.0.2.2", "ok add 1"), ("hold udp 192.0.2.9 5060 3600000", "ok hold"))
        checks.equal(answers[1:], [["target 1 udp 192.0.2.2 1", "ok find 1"], ["none AllHeld"]], "answers")
        events = closed(checks, daemon)
    # After the state of a stop: this run is killed, and what follows its last page is in no page.
    with started(checks, folder, settings) as daemon, Client(daemon.address) as client:
        checks.equal(use(client), answers, "after a stop")
        use(client, ("add b.example.com. A 192.0.2.3", "ok add 1"))
        checks.equal(client.ask("page")[0].split(" ")[:3], ["ok", "page", "0"], "page")
        client.ask("repair")
        # (a page that is claimed is not in its file yet)
        checks.expect(until(lambda: len([it for it in archive.iterdir() if it.name != "new"]) == 2), "no page yet")
        checks.expect(until(lambda: (daemon.stats()["pages"], daemon.stats()["waiting"]) == (1, 0)), daemon.stats())
        answers = use(client, ("release udp 192.0.2.9 5060", "ok release"), ("hold udp 192.0.2.2 1 3600000", "ok hold"))
        daemon.kill()
    events_before = events_in(archive)
    with started(checks, folder, settings) as daemon, Client(daemon.address) as client:
        checks.equal(use(client), answers, "after a kill")
        last = closed(checks, daemon)
    pages = sorted(archive.iterdir())
    checks.equal(len({it.name[:6] for it in pages}), 3, f"runs of {pages}")
    # A run begins with nothing, so its first events are those that restore the state.
    for page in pages[1:]:
        octets = page.read_bytes()
        kinds = [octets[begin:].split(b" ", 1)[0].decode() for _, begin, _ in events_of(octets)]
        checks.equal(kinds[:3], ["clock", "zone", "hold"], f"{kinds} in {page.name}")
    checks.equal([events_before > events, events_in(archive)], [True, events_before + last], "events of all runs")
    checks.equal(replay(archive), (0, replayed(events, events_before - events, last)), "replay")
