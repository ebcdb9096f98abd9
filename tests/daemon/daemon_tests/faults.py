"""Each operation of the daemon on its files and sockets in turn fails, or is the last one of the process: what was
replied to is there at the next start, and nothing is there by halves."""

from __future__ import annotations

import collections
import concurrent.futures
import contextlib
import copy
import errno
import os
import pathlib
import random
import re
import shutil
import subprocess
import tempfile
import threading
import time
from typing import Any, Iterator, NamedTuple, Optional, Sequence

from commits import bodies_of, body_of, log_of, state_of
from daemon_tests.states import Edits
from daemon_tests.support import PATIENCE, PROGRAM, SEED, TOP, Checks, Client, Daemon, test

# What becomes of an operation of a kind, as tests/daemon/faults.c has it: the end of the process, or an error.
ENDS = ["before", "half", "after"]
ERRORS = [str(it) for it in (errno.EIO, errno.ENOSPC, errno.EMFILE, errno.EINTR)]
ACTIONS = {
    "write": [*ENDS, *ERRORS, "short", "full", "read-only"],
    "accept": ["before", "after", *(str(it) for it in (errno.EINTR, errno.EMFILE, errno.ECONNABORTED))],
    "recv": ["before", "after", str(errno.EINTR)],
    "send": ["before", "after", str(errno.EINTR)],
}
# Few events a page, so that pages turn; and no moves of the host's clock among them.
SETTINGS = 'journal = 60\nclock = "lines"\nworkers = 0\n'
# The scenes of a daemon that ends where a change can't be written, and those with a whole load.
ENDING = "nothing", "torn", "moved", "first format"
WHOLE = "torn", "goes on"
# How a daemon says why it ended.
SAID = re.compile(r"(siplocd: [^\n]+\n)+")
# How many faults the test has, of so many operations of each kind and name at most, and how many are tried at once.
FEW, MOST, AT_ONCE = int(os.environ.get("FAULTS", "60")), 3, 4
# How often a zone is loaded that makes the log long: where few faults are tried, of a slow program, never.
LOADS = 8 if FEW >= 30 else 0


class Fault(NamedTuple):
    """Which operation, the so manieth of its kind and name in a scene, and what becomes of it."""
    scene: str
    kind: str
    name: str
    count: int
    action: str

    def __str__(self) -> str:
        action = errno.errorcode.get(int(self.action), "none") if self.action.isdigit() else self.action
        return f"{self.scene}: {self.kind} {self.name} {self.count}: {action}"


class Run(NamedTuple):
    """What a daemon with faults did: its operations, how many it met of those that have the faults, and what is
    wrong."""
    operations: list[str]
    met: int
    wrong: list[str]


class Loads:
    """The edits of a client that loads a zone of long names again and again, which makes the log long. There is one
    record more each time, up to 200."""

    # (a name of 240 octets, of which most are printed as four)
    apex = ".".join(["\\001" * 63] * 3 + ["\\001" * 40]) + "."
    hosts: Optional[int] = None
    held: frozenset[int] = frozenset()

    def next(self) -> tuple[str, str, Any]:
        """A line, its reply, and what there is after it."""
        count = 151 if self.hosts in (None, 200) else self.hosts + 1
        text = "".join(f"\nt{n} SRV 0 0 1 t" for n in range(count))
        return f"zone {self.apex} {count}{text}", f"ok zone {count} 0 0 ", (count, self.held)


class Scene:
    """What is in the folder of a state when a daemon starts there, and what its clients have made of it."""

    def __init__(self, name: str, files: dict[str, bytes], edits: Sequence[Edits], settings: str = "") -> None:
        self.name, self.files, self.edits, self.settings = name, files, copy.deepcopy(edits), settings

    def put(self, folder: pathlib.Path, synced: pathlib.Path) -> None:
        """Makes the folder, all of which is synced."""
        for path in folder / "archive", synced:
            path.mkdir(parents=True)
        for name, octets in self.files.items():
            (folder / name).write_bytes(octets)
            (synced / str((folder / name).stat().st_ino)).write_bytes(octets)
        for name, path in ("names", folder), ("names-archive", folder / "archive"):
            (synced / name).write_text(names_in(path))


def names_in(folder: pathlib.Path) -> str:
    """The name and the inode of each file in a folder, as tests/daemon/faults.c has them."""
    return "".join(f"{it.name} {it.stat().st_ino}\n" for it in folder.iterdir() if it.is_file())


def left_by_machine(folder: pathlib.Path, synced: pathlib.Path, are_names_new: bool) -> pathlib.Path:
    """What may be left of a folder where the machine ends: the octets of each file as they were synced last, and the
    names as they were synced last, or the new ones."""
    left = folder.with_suffix(".new" if are_names_new else ".old")
    for name, inner in ("names", "."), ("names-archive", "archive"):
        names = names_in(folder / inner) if are_names_new else (synced / name).read_text()
        (left / inner).mkdir(parents=True)
        for line in names.splitlines():
            path, _, inode = line.rpartition(" ")
            kept = synced / inode
            (left / inner / path).write_bytes(kept.read_bytes() if kept.exists() else b"")
    return left


class Clients:
    """The clients of a daemon that has a fault, and what there may be of each one's changes: what was replied to last,
    and what may have been made after it."""

    def __init__(self, edits: Sequence[Any]) -> None:
        self.edits: list[Any] = list(copy.deepcopy(edits))
        self.may_be: list[list[Any]] = [[(own.hosts, own.held)] for own in self.edits]
        self.wrong: list[str] = []
        # How many changes had a reply.
        self.replied = 0

    def use(self, daemon: Daemon, place: int, sizes: Sequence[int], turns_pages: bool = False) -> bool:
        """One client sends batches of changes. Returns whether its connection did not end before."""
        with contextlib.suppress(OSError), Client(daemon.address) as client:
            for size in sizes:
                lines = [self.next(place) for _ in range(size)]
                client.send("".join(f"{line}\n" for line, _ in lines))
                for line, wanted in lines:
                    reply = client.reply()
                    if reply is None:
                        return False
                    self.take(place, line, wanted, reply)
                if turns_pages and client.ask("page") is None:
                    return False
            return True
        return False

    def next(self, place: int) -> tuple[str, str]:
        """A line of a client, which may be carried out from now on, and its reply."""
        own = self.edits[place]
        line, wanted, after = own.next()
        own.hosts, own.held = after
        self.may_be[place].append(after)
        return line, wanted

    def take(self, place: int, line: str, wanted: str, reply: list[str]) -> None:
        """A client takes a reply: what it had before is gone."""
        if len(reply) != 1 or not reply[0].startswith(wanted):
            self.wrong.append(f"{line[-100:]}: {reply}, and not {wanted}")
        self.may_be[place].pop(0)
        self.replied += 1

    def use_on(self, daemon: Daemon, place: int, count: int) -> None:
        """One client makes so many changes of a daemon that goes on where changes can't be written: it tries again
        where they are refused, and comes again where its connection ends."""
        end = time.monotonic() + PATIENCE
        while count > 0 and daemon.process.poll() is None:
            with contextlib.suppress(OSError), Client(daemon.address) as client:
                is_there = self.come_again(client, place)
                while is_there and count > 0 and time.monotonic() < end:
                    is_made = self.change(client, place)
                    is_there = is_made is not None
                    count -= bool(is_made)
                    end = time.monotonic() + PATIENCE if is_made else end
                    time.sleep(0 if is_made else 0.1)
            if time.monotonic() > end:
                self.wrong.append(f"{count} changes of {self.edits[place].apex[-20:]} are not made for ever")
                return

    def come_again(self, client: Client, place: int) -> bool:
        """A client that comes again goes on from what there is, which need not be written. Returns whether its
        connection did not end meanwhile."""
        own, may_be = self.edits[place], self.may_be[place]
        seen = own.seen(client) if isinstance(own, Edits) else may_be[-1]
        if client.ask("repair") is None:
            return False
        if seen[0] == {} and seen not in may_be:
            # (where changes are refused, a zone that is not loaded can't be told from an empty one)
            seen = None, seen[1]
        if seen not in may_be:
            self.wrong.append(f"{seen} after a connection, and not one of {may_be}")
        else:
            del may_be[may_be.index(seen) + 1:]
            own.hosts, own.held = seen
        return True

    def change(self, client: Client, place: int) -> Optional[bool]:
        """One change of a client: whether it was not refused; None where it has no reply."""
        own, may_be = self.edits[place], self.may_be[place]
        before = own.hosts, own.held
        line, wanted = self.next(place)
        reply = client.ask(line)
        if reply == ["err D2"]:
            own.hosts, own.held = before
            may_be.pop()
        elif reply is not None:
            self.take(place, line, wanted, reply)
            del may_be[:-1]
        return None if reply is None else reply != ["err D2"]

    def cut(self, daemon: Daemon) -> None:
        """One client more ends within a zone, and one within a line: nothing of that is carried out."""
        for text in "zone half.example. 2\na A 192.0.2.1\n", "zone half.example. 0", "hold udp 10.0.1.5 5060 1000":
            with contextlib.suppress(OSError), Client(daemon.address) as client:
                client.send(text)

    def see(self, daemon: Daemon) -> list[Any]:
        """Checks that there is what may be, and returns it."""
        seen = []
        with Client(daemon.address) as client:
            zones = dict(line.split(" ")[1:] for line in daemon.tell("zones")[:-1])
            holds = daemon.tell("holds")[:-1]
            for own, may_be in zip(self.edits, self.may_be):
                count = zones.pop(own.apex, None)
                is_loads = isinstance(own, Loads)
                seen.append((count and int(count), own.held) if is_loads else own.seen(client))
                if seen[-1] not in may_be:
                    self.wrong.append(f"{own.apex[-20:]}: {seen[-1]}, and not one of {may_be[:2]} .. {may_be[-1]}")
        if zones or len(holds) != sum(len(held) for _, held in seen):
            self.wrong.append(f"zones {zones} and holds {holds} of nobody")
        return seen

    def go_on(self, daemon: Daemon) -> None:
        """Checks that there is what may be, and goes on from it."""
        for own, may_be, seen in zip(self.edits, self.may_be, self.see(daemon)):
            own.hosts, own.held = seen
            may_be[:] = [seen]

    def check(self, folder: pathlib.Path) -> None:
        """Starts a daemon without faults, and checks that there is what may be, and the same in its state."""
        self.replay(folder)
        daemon = begin(folder)
        try:
            if not daemon.is_ready():
                self.wrong.append(f"no start after it: {daemon.said()!r}, {daemon.process.poll()}")
                return
            seen = self.see(daemon)
            status, last, _ = daemon.stop()
            if status != 0 or not last.startswith("closed "):
                self.wrong.append(f"stopped with {status}, {last!r}, {daemon.said()!r}")
            zones, holds = read_state(folder / "state")
            kept = [kept_of(own, zones, holds) for own in self.edits]
            if kept != seen:
                self.wrong.append(f"a state with {kept}, and not {seen}")
            self.replay(folder)
        finally:
            daemon.kill()

    def replay(self, folder: pathlib.Path, events: str = "") -> None:
        """Checks that the pages that there are can be replayed; and that the first run has so many events, if any."""
        try:
            ran = subprocess.run([PROGRAM, "replay", folder / "archive"], capture_output=True, text=True,
                                 timeout=PATIENCE, check=False)
        except subprocess.TimeoutExpired:
            self.wrong.append(f"a replay that does not end within {PATIENCE} seconds")
            return
        if ran.returncode or events and f"run 000001 {events}" not in ran.stdout.splitlines():
            self.wrong.append(f"an archive of which a replay says {ran.stdout!r}, {ran.stderr!r}, {events}")


def read_state(path: pathlib.Path) -> tuple[dict[str, list[str]], list[str]]:
    """The zones of a state, each with its records, and its holds."""
    lines = iter(body_of(path.read_bytes()).decode().splitlines())
    zones, holds = {}, []
    for line in lines:
        fields = line.split(" ")
        if fields[0] == "zone":
            zones[fields[1]] = [next(lines) for _ in range(int(fields[2]))]
        elif fields[0] == "hold":
            holds.append(line)
    return zones, holds


def kept_of(own: Any, zones: dict[str, list[str]], holds: Sequence[str]) -> Any:
    """What a state has of a client."""
    records = zones.get(own.apex)
    if isinstance(own, Loads):
        wanted = [f"t{n}.{own.apex} SRV 0 0 1 t.{own.apex}" for n in range(len(records or []))]
        return (None if records is None else len(records) if sorted(records) == sorted(wanted) else records), own.held
    found: dict[int, tuple[int, ...]] = {}
    for record in records or []:
        host, last = int(record[1:record.index(".")]), int(record.rpartition(".")[2])
        found[host] = (*found.get(host, ()), last)
    held = [int(it.split(" ")[2].split(".")[3]) for it in holds if it.startswith(f"hold udp 10.{own.place}.1.")]
    return (None if records is None else found), frozenset(held)


def begin(folder: pathlib.Path, more: str = "", environment: Optional[dict[str, str]] = None) -> Daemon:
    """Starts a daemon over the files of a folder. Nobody else comes to its socket."""
    settings = f'{SETTINGS}state = "{folder}/state"\narchive = "{folder}/archive"\n{more}'
    return Daemon(folder, settings, listen=[f"unix:{folder}/lines"], environment=environment)


class Faults:
    """Faults of a daemon in scenes: which there are, and what becomes of it with each."""

    def __init__(self, folder: pathlib.Path) -> None:
        self.folder, self.library = folder, folder / "faults.so"
        subprocess.run(["cc", "-O2", "-shared", "-fPIC", "-o", self.library, TOP / "tests/daemon/faults.c"], check=True)
        self.scenes = {it.name: it for it in self.make_scenes()}

    def make_scenes(self) -> list[Scene]:
        """No file; a log whose last write did not end; files that a kill left when a state had taken its place, and its
        log had not; files of the first format."""
        folder = self.folder / "before"
        clients = Clients([Edits(place, random.Random(SEED * 1_000 + place)) for place in range(3)])
        nothing = Scene("nothing", {}, clients.edits)
        nothing.put(folder, self.folder / "before.synced")
        for is_stopped in True, False:
            daemon = begin(folder)
            for place in range(3):
                clients.use(daemon, place, [4, 4, 4])
            if is_stopped:
                daemon.stop()
            daemon.kill()
        assert not clients.wrong, clients.wrong
        state, log = (folder / "state").read_bytes(), (folder / "state.log").read_bytes()
        body, bodies = body_of(state), bodies_of(log)
        torn = log_of(state, [*bodies, b"add late.example. A 192.0.2.1\n"])[:-9]
        other = log_of(state_of(b"# page 0\n"), bodies[:2])
        lines = body[:body.index(b"\n") + 1] + b"".join(bodies)
        return [
            nothing,
            Scene("torn", {"state": state, "state.log": torn}, clients.edits),
            Scene("goes on", {"state": state, "state.log": log}, clients.edits, 'on_failure = "read"'),
            Scene("moved", {"state": state, "state.log": other, "state.log.new": log}, clients.edits),
            Scene("first format", {"state": body, "state.log": lines}, clients.edits),
        ]

    def find(self, most: int, scenes: Sequence[str]) -> list[Fault]:
        """The faults of each operation in scenes, of which so many of a kind and name are chosen at most; first one of
        each kind and name in the order of chance, and then the others."""
        found: list[Fault] = []
        for scene in (self.scenes[it] for it in scenes):
            operations, _, wrong = self.run(Fault(scene.name, "none", "none", 0, "0"))
            assert not wrong, wrong
            if scene.name not in WHOLE:
                operations = operations[:operations.index("accept socket")]
            for operation, total in collections.Counter(operations).items():
                kind, name = operation.split(" ")
                if name.startswith("lines") or kind == "thread":
                    # (as of the other socket; and a session without a thread may be that of the stop)
                    continue
                counts = {1 + it * (total - 1) // max(1, min(most, total) - 1) for it in range(min(most, total))}
                found += [Fault(scene.name, kind, name, count, action)
                          for count in sorted(counts) for action in ACTIONS.get(kind, [*ENDS[::2], *ERRORS])]
        random.Random(SEED).shuffle(found)
        seen: set[tuple[str, str, str]] = set()
        return sorted(found, key=lambda it: (it[:3] in seen, seen.add(it[:3]))[0])

    def find_pairs(self, count: int, scenes: Sequence[str]) -> list[tuple[Fault, ...]]:
        """So many pairs of faults by chance: the first is one that a daemon may go on after. More operations follow it
        than there are without it."""
        found, chance = [it for it in self.find(8, scenes) if it.name != "socket"], random.Random(SEED)
        firsts = [it for it in found if it.action not in ENDS]
        pairs: list[tuple[Fault, ...]] = []
        while len(pairs) < count:
            first, second = chance.choice(firsts), chance.choice(found)
            if first.scene == second.scene and first[:4] != second[:4]:
                pairs.append((first, second._replace(count=second.count + chance.choice([0, 0, 1, 2]))))
        return pairs

    def run(self, *faults: Fault) -> Run:
        """Runs a daemon with one fault or two of a scene, and then one without."""
        folder = pathlib.Path(tempfile.mkdtemp(prefix="", dir=self.folder))
        scene, trace, synced = self.scenes[faults[0].scene], folder.with_suffix(".trace"), folder.with_suffix(".synced")
        scene.put(folder, synced)
        environment = {"LD_PRELOAD": str(self.library), "FAULT_FOLDER": f"{folder}/", "FAULT_LOG": str(trace),
                       "FAULT_SYNCED": f"{synced}/", "FAULT": " ".join(str(it) for fault in faults for it in fault[1:])}
        clients = Clients([*scene.edits, Loads()])
        daemon = begin(folder, scene.settings, environment)
        try:
            if daemon.is_ready():
                # (a disk that is full is emptied after some time)
                emptied = threading.Timer(1, (folder / "emptied").touch)
                emptied.start()
                load(daemon, clients, scene.name)
                emptied.cancel()
                if all(map(is_gone_on, faults)) and daemon.process.poll() is not None:
                    clients.wrong.append("it does not go on")
                daemon.stop()
            status, last = daemon.end()
            lines = trace.read_text().splitlines()
            met = sum(it[0] == "!" for it in lines)
            if not is_end(faults, met, status, last, daemon.said()):
                clients.wrong.append(f"ended with {status}, {last!r}, {daemon.said()!r}")
            if status == 0 and last != "closed 0":
                clients.replay(folder, last.removeprefix("closed "))
            if all(map(is_outlived, faults)) and any(len(it) > 1 for it in clients.may_be):
                clients.wrong.append(f"changes without a reply: {clients.may_be}")
            # As the process left it, and as the end of the machine may have left it then.
            for name, left in ("names that are not synced are lost", left_by_machine(folder, synced, False)), \
                    ("octets that are not synced are lost", left_by_machine(folder, synced, True)), ("as left", folder):
                before = len(clients.wrong)
                clients.check(left)
                clients.wrong[before:] = [f"{name}: {it}" for it in clients.wrong[before:]]
        finally:
            daemon.process.kill()
        for path in folder, synced, folder.with_suffix(".old"), folder.with_suffix(".new"):
            shutil.rmtree(path)
        return Run(lines, met, [f"{'; '.join(map(str, faults))}: {it}" for it in clients.wrong])

    def run_all(self, faults: Sequence[tuple[Fault, ...]]) -> Iterator[Run]:
        """Runs a daemon with each fault, or pair of faults, some side by side."""
        with concurrent.futures.ThreadPoolExecutor(AT_ONCE) as pool:
            yield from pool.map(lambda it: self.run(*it), faults)


def is_outlived(fault: Fault) -> bool:
    """Whether a daemon has to go on as if there were no fault: where a call was interrupted that the standard library
    of Rust makes again, where a write was short, and where no connection could be accepted."""
    is_repeated = fault.kind in "open read write fsync fdatasync ftruncate flock accept recv send".split()
    is_interrupt = fault.action == str(errno.EINTR) and is_repeated and fault.name != "archive/"
    return is_interrupt or fault.action == "short" or fault.kind == "accept" and fault.action.isdigit()


def is_gone_on(fault: Fault) -> bool:
    """Whether a daemon that is to go on where changes can't be written, or pages archived, has to do that."""
    return fault.scene == "goes on" and fault.action not in ENDS


def is_end(faults: Sequence[Fault], met: int, status: Optional[int], last: str, said: str) -> bool:
    """Whether a daemon with faults has ended as it may: by one of them, well, or with what it says."""
    may_be_killed = met > 0 and any(it.action in ENDS for it in faults)
    if may_be_killed and (met == len(faults) or status == -9):
        return status == -9
    if status == 0 or all(map(is_outlived, faults)):
        return status == 0 and last.startswith("closed ") and SAID.fullmatch(said or "siplocd: -\n") is not None
    return status == 1 and SAID.fullmatch(said) is not None


def load(daemon: Daemon, clients: Clients, scene: str) -> None:
    """Clients side by side, up to the end of the daemon; of a whole load pages are turned, and states written."""
    chance, is_whole = random.Random(SEED), scene in WHOLE
    with concurrent.futures.ThreadPoolExecutor(5) as pool:
        if scene == "goes on":
            counts = [20, 20, 20, LOADS]
            works = [pool.submit(clients.use_on, daemon, place, count) for place, count in enumerate(counts)]
        else:
            sizes = [[chance.choice([1, 1, 2, 5, 12]) for _ in range(12 if is_whole else 2)] for _ in range(3)]
            works = [pool.submit(clients.use, daemon, place, it) for place, it in enumerate(sizes)]
            works += [pool.submit(clients.use, daemon, 3, [LOADS - LOADS // 2, LOADS // 2], True)] * is_whole
        works.append(pool.submit(clients.cut, daemon))
        for work in works:
            work.result()


def check_some(checks: Checks, scenes: Sequence[str], count: int) -> None:
    # (in memory where it can be: each file is synced many times)
    room = "/dev/shm" if os.access("/dev/shm", os.W_OK) else None
    with tempfile.TemporaryDirectory(prefix="siplocd-", dir=room) as folder:
        faults = Faults(pathlib.Path(folder))
        runs = [*faults.run_all([(it,) for it in faults.find(MOST, scenes)[:count]])]
    for run in runs:
        checks.expect(not run.wrong, run.wrong)
    met = sum(run.met for run in runs)
    checks.expect(met >= len(runs) * 3 // 4, f"only {met} of {len(runs)} operations were met")


@test
def keeps_what_was_replied_to_whatever_fails(checks: Checks, _: pathlib.Path) -> None:
    check_some(checks, ENDING, FEW)


@test
def goes_on_whatever_fails(checks: Checks, _: pathlib.Path) -> None:
    check_some(checks, ["goes on"], FEW // 4)
