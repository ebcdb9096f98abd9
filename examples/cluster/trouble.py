"""The cluster of `run` while its parts are ended at random: `examples/cluster/run --trouble`.

Two writers publish 4,800 changes. Meanwhile tools/apply, locators and Redis are killed, and the stream is trimmed up to
a snapshot of the one locator that keeps a state, a `siplocd`. What says that its locator is to be started without state
is obeyed. At the end a fourth machine begins with the snapshot. `passed` is printed only if each change was published
once (a writer that can't learn whether its last ones were, since Redis was away for a minute, says so and ends),
none was refused but those that a locator refuses that is given all by a plain session, and all give its answers.
"""

from __future__ import annotations

import random
import re
import subprocess
import threading
import time
from pathlib import Path
from typing import Dict, List, Set, Tuple

import changelog
import cluster
from cluster import KEY, Member, TOOLS, Watch, Writer, ZONES
from started import Daemon, Failed, Locator, Started, Steps, free_ports, siploc, wait_for

# So many a second are published.
CHANGES, PACE = 4_800, 500
QUESTIONS = 2_000
# What happens, at some time while changes are published.
PLAN = ["apply"] * 4 + ["locator"] * 3 + ["redis"] * 2 + ["trim"] * 4


class Machine(Member):
    """A member whose operator does what tools/apply says."""

    def ended(self) -> None:
        assert self.apply is not None
        last = (self.apply.log.read_text().splitlines() or [""])[-1]
        if "without state" in last and not self.is_done.is_set():
            self.again(True)

    def again(self, is_fresh: bool) -> None:
        """The locator is killed, and started again; without state where it kept one."""
        with self.lock:
            self.locator.kill()
            if isinstance(self.locator, Daemon) and is_fresh:
                for path in (self.locator.state, Path(f"{self.locator.state}.log")):
                    path.unlink(missing_ok=True)
            self.fresh += is_fresh
            self.locator = self.start()

    fresh = 0


class Redis:
    """A Redis that is killed, and started again with what it had."""

    def __init__(self, folder: Path, started: List[Started]) -> None:
        (self.port,), self.folder, self.started = free_ports(1), folder, started
        self.address = f"127.0.0.1:{self.port}"
        self.start()

    def start(self) -> None:
        self.server = Started(self.folder, "redis", [
            "redis-server", "--port", str(self.port), "--bind", "127.0.0.1", "--dir", str(self.folder), "--appendonly",
            "yes",
            "--appendfsync", "always", "--save", ""])
        self.started.append(self.server)
        wait_for("redis-server", lambda: self.server.is_up() and cluster.is_there(self.address))

    def again(self) -> None:
        self.server.kill()
        time.sleep(0.2)
        self.start()


class Archive(threading.Thread):
    """All entries of the stream, also those that are trimmed later, each with what its publisher has numbered it by."""

    def __init__(self, redis: str) -> None:
        super().__init__(daemon=True)
        self.redis, self.lock, self.is_done = redis, threading.Lock(), threading.Event()
        self.entries: List[changelog.Entry] = []
        self.numbers: Dict[str, List[int]] = {}
        self.fault = ""

    def read(self) -> None:
        """Reads on to the end; while Redis is away, later."""
        with self.lock:
            stream = changelog.Stream(self.redis, KEY)
            while True:
                place = self.entries[-1].place if self.entries else (0, 0)
                extent, values = stream.window(place)
                if extent.lacks(place):
                    self.fault = f"entries after {changelog.id_of(place)} were trimmed before they were kept"
                if not values:
                    return
                self.entries += stream.entries(values)
                for _, fields in values:  # type: ignore[misc]
                    if len(fields) == 4:
                        token, _, number = changelog.bytes_of(fields[3]).decode().partition("-")
                        self.numbers.setdefault(token, []).append(int(number))

    def run(self) -> None:
        while not self.is_done.wait(0.1):
            try:
                self.read()
            except changelog.Fault:
                pass

    def once_each(self) -> bool:
        """Whether the changes of each publisher are there in their order, each once."""
        return all(numbers == [*range(len(numbers))] for numbers in self.numbers.values())


class Trouble:
    """What goes wrong, at random."""

    def __init__(self, redis: Redis, members: List[Machine], keeper: Machine, archive: Archive,
                 chance: random.Random) -> None:
        self.redis, self.members, self.keeper, self.archive, self.chance = redis, members, keeper, archive, chance
        self.done: List[str] = []

    def plan(self, watch: Watch) -> None:
        """Does what is planned, each at its share of the changes."""
        for share, what in sorted((self.chance.uniform(0.05, 0.95), what) for what in PLAN):
            wait_for("the writers",
                     lambda: watch.published() > share * CHANGES or not any(it.is_alive() for it in watch.writers), 240)
            member = self.chance.choice(self.members)
            if what == "apply" and member.apply is not None:
                member.apply.kill()
            elif what == "locator":
                member.again(False)
            elif what == "redis":
                self.redis.again()
            elif what == "trim":
                what = f"{what} {self.trim()}"
            self.done.append(what if what.startswith(("redis", "trim")) else f"{what} {member.name}")

    def trim(self) -> str:
        """Publishes a snapshot, and trims the stream up to it; what was said."""
        daemon = self.keeper.locator
        assert isinstance(daemon, Daemon)
        done = subprocess.run([str(TOOLS / "snapshot"), KEY, "--state", str(daemon.state), "--redis",
                               self.redis.address],
                              capture_output=True, text=True, timeout=60, check=False)
        if done.returncode:
            return f"({done.stderr.strip()[:100]})"
        place = done.stdout.split()[2]
        try:
            self.archive.read()
            count = changelog.Stream(self.redis.address,
                                     KEY).ask([[b"XTRIM", KEY.encode(), b"MINID", place.encode()]])[0]
        except changelog.Fault as fault:
            return f"({fault})"
        return f"{count} entries"


def fresh(path: str, folder: Path, archive: Archive, started: List[Started]) -> Tuple[Locator, Set[str]]:
    """A locator that is given all by one plain session, and the entries whose changes it has refused."""
    started.append(Locator(path, folder, "fresh", free_ports(1)[0], cluster.SETTINGS))
    refused = set()
    with siploc.connect(started[-1].address, 60) as session:
        for start in range(0, len(archive.entries), 1000):
            entries = archive.entries[start:start + 1000]
            for entry, reply in zip(entries, session.batch([it.change.command for it in entries])):
                if reply.refusal is not None:
                    refused.add(changelog.id_of(entry.place))
    return started[-1], refused  # type: ignore[return-value]


def judges(steps: Steps, members: List[Machine], archive: Archive, refused: Set[str], writers: List[Writer]) -> None:
    """Whether each change was published once, and applied once by each member. A writer that could not learn whether
    its last changes were appended, as Redis was away for a minute, has said so and ended: they may be there."""
    least = ZONES + sum(it.published for it in writers)
    most = least + cluster.WINDOW * sum(it.fault is not None for it in writers)
    steps.see("published once each", f"{len(archive.entries):,} changes; {archive.fault or 'all were kept'}",
              least <= len(archive.entries) <= most and archive.once_each() and not archive.fault)
    for member in members:
        assert member.apply is not None
        passed = set(re.findall(r"entry ([0-9-]+): .*: passed over", member.apply.log.read_text()))
        steps.see(f"refused by {member.name}",
                  f"{len(passed):,} of the {len(refused):,} that are refused by a plain session, and "
                  f"{len(passed - refused)} others; tools/apply was started {member.starts} times, the locator as it was told "
                  f"{member.fresh} times", passed <= refused)


def trims_at_last(trouble: Trouble) -> str:
    """The last snapshot, after the last change."""
    said = ""
    for _ in range(20):
        said = trouble.trim()
        if not said.startswith("("):
            break
        time.sleep(0.5)
    return said


def play(path: str, seed: int, folder: Path, started: List[Started]) -> int:
    steps, redis, chance = Steps(), Redis(folder, started), random.Random(seed)
    cluster.begins(redis.address)
    members = [Machine(path, folder, name, redis.address, started, kind)
               for name, kind in (("a", Locator), ("b", Locator), ("keeper", Daemon))]
    archive = Archive(redis.address)
    try:
        writers = [Writer(redis.address, place, seed, CHANGES, PACE) for place in range(2)]
        askers = [cluster.Asker(member.locator.address, seed + place) for place, member in enumerate(members)]
        watch, trouble = Watch(writers, list(members)), Trouble(redis, members[:], members[2], archive, chance)
        for thread in [*writers, *askers, archive]:
            thread.start()
        trouble.plan(watch)
        for writer in writers:
            writer.join(240)
        faults = [f"a writer ended: {it.fault}" for it in writers if it.fault]
        steps.see("what happened", ", ".join([*trouble.done, *faults]), not any(it.is_alive() for it in writers))
        arrive(members, redis.address)
        steps.see("the stream is trimmed", trims_at_last(trouble),
                  changelog.Stream(redis.address, KEY).extent().removed > CHANGES / 10)
        members.append(Machine(path, folder, "late", redis.address, started))
        arrive(members, redis.address)
        for asker in askers:
            asker.is_done.set()
            asker.join()
        archive.read()
        alone, refused = fresh(path, folder, archive, started)
        judges(steps, members, archive, refused, writers)
        assert members[-1].apply is not None
        said = members[-1].apply.log.read_text()
        steps.see("the late machine", said.strip()[-200:], "begins with the snapshot" in said)
        cluster.compare(steps, list(members), alone, seed, QUESTIONS, (1 / 10, 1 / 100))
        return steps.end()
    finally:
        archive.is_done.set()
        for member in members:
            member.is_done.set()
        for member in members:
            member.keeper.join()


def arrive(members: List[Machine], redis: str) -> None:
    """Waits until all have applied the last entry."""
    last = changelog.Stream(redis, KEY).extent().last
    try:
        wait_for("the end of the stream", lambda: all(it.place() == last for it in members), 300, 0.2)
    except Failed as fault:
        said = [f"{it.name} is at {changelog.id_of(it.place())}: {it.apply.log.read_text().strip()[-300:] if it.apply else ''}"
                for it in members]
        raise Failed(f"{fault}; {'; '.join(said)}") from None


