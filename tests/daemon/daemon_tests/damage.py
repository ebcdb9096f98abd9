"""Damage of a state and of its log: octets that are changed, and files that are cut. A start goes on from what there
was, or is refused at the place, or tells what a last write left that did not end, and keeps that."""

from __future__ import annotations

import concurrent.futures
import os
import pathlib
import random
import re
import select
import subprocess
from typing import Any, Callable, Iterator, NamedTuple, Optional, Sequence

from commits import HEAD_LEN, LINE_LEN, STATE_LINE, bodies_of, body_of, log_of, state_of
from daemon_tests.support import PATIENCE, PROGRAM, SEED, Checks, Client, polled, started, test

# How much damage the test tries, and in how many folders at once.
FEW, AT_ONCE = int(os.environ.get("DAMAGES", "600")), 4
# The zones and a hold of the state, and the changes of its log: in each case what is asked, and the answer.
ZONE = '''zone e. 4
@ NAPTR 50 50 "s" "SIP+D2T" "" _sip._tcp
_sip._tcp SRV 0 1 5060 a
a A 192.0.2.1
b AAAA 2001:db8::1'''
STATE = [(ZONE, "find sip:e", ["target 1 tcp 192.0.2.1 5060", "ok find 1"]),
         ("hold udp 192.0.2.9 5060 1000000", "find sip:192.0.2.9", ["none AllHeld"])]
CHANGES = [("add c.e. A 192.0.2.3", "find sip:c.e:1", ["target 1 udp 192.0.2.3 1", "ok find 1"]),
           ("zone d.example. 1\nd A 192.0.2.4", "find sip:d.d.example:1", ["target 1 udp 192.0.2.4 1", "ok find 1"])]


class Damage(NamedTuple):
    """A file that is damaged, the place, and the octet that is there then; None where the file is cut there."""
    file: str
    place: int
    octet: Optional[int]

    def __str__(self) -> str:
        return f"{self.file} {'cut' if self.octet is None else f'with {self.octet:#04x}'} at {self.place}"


class Outcome(NamedTuple):
    """What a start has to do: what it says after the name of the state; how many commits it makes, None where it is
    refused; and what it keeps as torn."""
    said: str
    commits: Optional[int]
    torn: bytes

    def line(self, state: pathlib.Path) -> str:
        return f"siplocd: state {state}{self.said}\n" if self.said else ""


class Files:
    """A state, and its log with two commits."""

    def __init__(self, checks: Checks, folder: pathlib.Path) -> None:
        for changes in STATE, CHANGES:
            settings = f'state = "{folder}/state"\nclock = "lines"'
            with started(checks, folder, settings) as daemon, Client(daemon.address) as client:
                for lines, _, _ in changes:
                    checks.expect((client.ask(lines) or [""])[0].startswith("ok "), lines)
                if changes == STATE:
                    daemon.stop()
        self.octets = {"state": (folder / "state").read_bytes(), "log": (folder / "state.log").read_bytes()}
        state, bodies = self.octets["state"], bodies_of(self.octets["log"])
        files = state_of(body_of(state)), log_of(state, bodies)
        checks.equal(tuple(self.octets.values()), files, "the octets of the files")
        checks.equal(len(bodies), len(CHANGES), "commits")
        # Where the commits begin.
        self.places = [HEAD_LEN, HEAD_LEN + LINE_LEN + len(bodies[0])]

    def damages(self, bits: int) -> Iterator[Damage]:
        """Each octet with so many of its bits changed in turn, by chance, and each cut."""
        chance = random.Random(SEED)
        for file, octets in self.octets.items():
            for place, octet in enumerate(octets):
                yield Damage(file, place, None)
                yield from (Damage(file, place, octet ^ 1 << bit) for bit in chance.sample(range(8), bits))

    def damaged(self, damage: Damage) -> dict[str, bytes]:
        """The files."""
        octets = self.octets[damage.file]
        end = b"" if damage.octet is None else bytes([damage.octet]) + octets[damage.place + 1:]
        return {**self.octets, damage.file: octets[:damage.place] + end}

    def outcome(self, damage: Damage) -> Outcome:
        """What a start has to do, as docs/use/OPERATING.md says."""
        if damage.file == "state":
            return Outcome(": line 1: not a state" if damage.place < len(STATE_LINE) else ": not as it was written", None,
                           b"")
        if damage.place < HEAD_LEN:
            return Outcome(".log: line 1: not a log", None, b"")
        commits = int(damage.place >= self.places[1])
        begin = self.places[commits]
        if commits == 0 and damage.octet is not None:
            # (the next commit is there, which was written after this one was synced)
            return Outcome(f".log: octet {begin}: not as it was written", None, b"")
        torn = self.damaged(damage)["log"][begin:]
        # Of a log that is cut between two commits nobody can know that there were more.
        return Outcome(f".log: a write did not end at octet {begin}" if torn else "", commits, torn)

    def try_in(self, folder: pathlib.Path, damage: Damage) -> str:
        """Starts a daemon over damaged files in a folder. Returns what is wrong, if anything is."""
        files, outcome, state = self.damaged(damage), self.outcome(damage), folder / "state"
        put(folder, files)
        answers, said = started_once(state, [question for _, question, _ in [*STATE, *CHANGES]], bool(outcome.said))
        wanted = (
            None if outcome.commits is None else [
                answer if place < len(STATE) + outcome.commits else ["none NoAddress"]
                for place, (_, _, answer) in enumerate([*STATE, *CHANGES])],
            outcome.line(state),
            {**files, "log": files["log"][:len(files["log"]) - len(outcome.torn)]}, outcome.torn)
        seen = answers, said, *left_in(folder)
        return "" if seen == wanted else f"{damage}: {seen}, and not {wanted}"

    def check_in(self, folder: pathlib.Path, damage: Damage) -> str:
        """Has damaged files checked in a folder, which changes nothing. Returns what is wrong, if anything is."""
        files, outcome, state = self.damaged(damage), self.outcome(damage), folder / "state"
        put(folder, files)
        ran = subprocess.run([PROGRAM, "check-state", str(state)], capture_output=True, text=True, timeout=PATIENCE,
                             check=False)
        commits = re.findall(r"^commits (\d+)$", ran.stdout, re.M)
        seen = ran.returncode, commits, ran.stderr, *left_in(folder)
        wanted = (1, []) if outcome.commits is None else (0, [str(outcome.commits)])
        wanted = *wanted, outcome.line(state), files, b""
        return "" if seen == wanted else f"{damage}: {seen}, and not {wanted}"


def put(folder: pathlib.Path, files: dict[str, bytes]) -> None:
    (folder / "state").write_bytes(files["state"])
    (folder / "state.log").write_bytes(files["log"])
    (folder / "state.log.torn").unlink(missing_ok=True)


def left_in(folder: pathlib.Path) -> tuple[dict[str, bytes], bytes]:
    """The files, and what is kept as torn."""
    torn = folder / "state.log.torn"
    left = {"state": (folder / "state").read_bytes(), "log": (folder / "state.log").read_bytes()}
    return left, torn.read_bytes() if torn.exists() else b""


def started_once(state: pathlib.Path, asked: Sequence[str], says: bool) -> tuple[Optional[list[Any]], str]:
    """The answers of a daemon that is started over a state and killed then, None where it is refused; what it says.
    Where it has to say something it is not killed before that."""
    settings = f'listen = ["unix:{state.parent}/lines"]\nstate = "{state}"\nclock = "lines"\nlog = "off"\nworkers = 0'
    answers, first = None, b""
    with subprocess.Popen([PROGRAM, settings], stdin=subprocess.DEVNULL, stdout=subprocess.PIPE,
                          stderr=subprocess.PIPE) as process:
        try:
            line = process.stdout.readline().decode() if polled(process.stdout, select.POLLIN, PATIENCE) else "nothing"
            if line.startswith("ready "):
                with Client(line.split()[1]) as client:
                    client.send("".join(f"{question}\n" for question in asked))
                    answers = [client.reply() for _ in asked]
                if says and polled(process.stderr, select.POLLIN, PATIENCE):
                    first = process.stderr.readline()
            is_refused = not line and process.wait(PATIENCE) == 1
        finally:
            process.kill()
        said = (first + process.stderr.read()).decode(errors="replace")
    return answers, said if answers or is_refused else f"{said} (after {line!r}, status {process.returncode})"


def tried(way: Callable[[pathlib.Path, Damage], str], folder: pathlib.Path, damages: Sequence[Damage]) -> Iterator[str]:
    """Tries damages in a way, some at a time. Returns what is wrong with each, if anything is."""
    def share(place: int) -> list[str]:
        inner = folder / f"damaged-{place}"
        inner.mkdir()
        return [way(inner, it) for it in damages[place::AT_ONCE]]

    with concurrent.futures.ThreadPoolExecutor(AT_ONCE) as pool:
        for wrong in pool.map(share, range(AT_ONCE)):
            yield from wrong


def some(files: Files, count: int) -> list[Damage]:
    """So many damages: about the places at which something begins or ends, and at others by chance."""
    every, edges = [*files.damages(1)], {*files.places, len(STATE_LINE), *(len(it) for it in files.octets.values())}
    first = [it for it in every if {it.place, it.place + 1, it.place - 1} & edges]
    return [*first, *random.Random(SEED).sample([it for it in every if it not in first], max(0, count - len(first)))]


@test
def starts_on_no_damaged_file_in_silence(checks: Checks, folder: pathlib.Path) -> None:
    files = Files(checks, folder)
    for wrong in tried(files.try_in, folder, some(files, FEW)):
        checks.expect(not wrong, wrong)


@test
def a_check_of_damaged_files_says_what_a_start_does(checks: Checks, folder: pathlib.Path) -> None:
    files = Files(checks, folder)
    for wrong in tried(files.check_in, folder, some(files, FEW // 4)):
        checks.expect(not wrong, wrong)
