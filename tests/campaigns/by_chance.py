"""Plays and sessions by chance, from seeds, beside those of `tools/plain`: `tests/campaigns/orders` runs them.

A play has 1 to 8 workers, who look up, commit and repair between edits, holds, moves of the clock and pages. A
session edits zones and holds endpoints, and asks for targets; the zones have few names, so that chains and circles
of aliases, wildcards and names that begin and cease to exist come up. What they meet is counted: where it is too
little to show anything, that is a fault."""

from __future__ import annotations

import collections
import concurrent.futures
import itertools
import json
import pathlib
import random
import runpy
import subprocess
import types
from typing import Any, Iterable, Iterator, NamedTuple, Optional, Sequence

TOP = pathlib.Path(__file__).resolve().parent.parent.parent
plain = types.SimpleNamespace(**runpy.run_path(str(TOP / "tools/plain")))

# Of each number of workers so many plays, and so many steps each; and the maximum of events of a page, so that some are
# full.
PLAYS, STEPS, JOURNAL = 250, 250, 48
# So many sessions of 60 times ten lines and a repair, and so many over one zone each.
SESSIONS, ZONES = 8, 300
APEX = "example.com."
# Owners and targets.
NAMES = ["a", "b", "c", "d", "x.n", "x.y", "_sip._udp.a", "_sip._tcp.a", "_sips._tcp.a", "_sip._tcp.b", "_sip._udp.b"]
# Owners that are no targets: wildcards, and a name below one.
WILDCARDS = ["*", "*", "*.y", "*.b", "_sip._udp.*"]
POINTERS = ['s SIP+D2U ""', 'S sip+d2t ""', 's SIPS+D2T ""', 's SIP+D2S ""', 'u SIP+D2U ""', "s SIP+D2T x"]
URIS = [f"sip:{it}" for it in (
    f"q.{APEX}:5070", f"n.{APEX}:5070", f"m.n.{APEX}:5060", f"z.y.{APEX}:5070", f"n.{APEX};transport=udp", f"a.{APEX}",
    f"b.{APEX}", f"a.{APEX}:5070", f"a.{APEX};transport=tcp", f"b.{APEX};transport=udp", f"a.{APEX};transport=tls",
    f"c.{APEX};maddr=192.0.2.1")] + [f"sips:a.{APEX}"]
# The transports and the families of clients: those of plays, and those of sessions, each with each.
CLIENTS = [('["udp", "tcp"]', "v4"), ('["tcp", "tls"]', "v6v4"), ('["sctp", "tls", "udp", "tcp"]', "v4v6"),
           ('["tcp", "udp"]', "v4")]
TRANSPORTS = ['["udp", "tcp"]', '["tcp", "tls"]', '["sctp", "tls", "udp", "tcp"]', '["tls"]']
FAMILIES: list[str] = json.loads((TOP / "clients/lists.json").read_text())["families"]
# What a zone of plays has at first.
ZONE = ['a NAPTR 1 1 s SIP+D2U "" _sip._udp.a', "_sip._udp.a SRV 0 1 5060 b", "_sip._udp.a SRV 0 2 5060 c",
        "_sip._tcp.a SRV 1 0 5060 b", "b A 192.0.2.1", "c CNAME d", "d A 192.0.2.2", "* A 192.0.2.3"]

Counts = collections.Counter[str]


class Part(NamedTuple):
    """What was tried: how often it was right, the faults, and what was met."""
    passed: int
    faults: list[str]
    counts: Counts


def total(parts: Iterable[Part]) -> Part:
    made = Part(0, [], Counts())
    for part in parts:
        made = Part(made.passed + part.passed, made.faults + part.faults, made.counts + part.counts)
    return made


def shown(facts: dict[str, bool]) -> Part:
    """What was to be met."""
    wrong = [f"too few or too many: {name}" for name, is_so in facts.items() if not is_so]
    return Part(len(facts) - len(wrong), wrong, Counts())


class Chance:
    """Records, endpoints and words by chance, and the lines of a conversation with their replies by the plain
    program."""
    NAMES, URIS = NAMES, URIS

    def __init__(self, seed: str, conversation: Any) -> None:
        self.random, self.conversation, self.state = random.Random(seed), conversation, conversation.state
        self.lines: list[str] = []
        self.replies: list[list[str]] = []
        self.counts = Counts()
        # The records that are there, as texts, and the first target of the last answer that had any.
        self.records: list[str] = []
        self.target: Optional[str] = None

    def one_of(self, texts: Sequence[str]) -> str:
        return self.random.choice(texts)

    def say(self, line: str) -> list[str]:
        """Adds a line, and returns its reply."""
        first, *more = line.split("\n")
        reply: list[str] = self.conversation.reply(first.encode(), iter([it.encode() for it in more]))
        self.lines.append(line)
        self.replies.append(reply)
        self.counts["full pages"] += reply == ["err B3"]
        return reply

    def record(self) -> str:
        """The text of a record."""
        digit, target = self.random.randrange(4), f"{self.one_of(self.NAMES)}.{APEX}"
        owner = f"{self.one_of(WILDCARDS if self.random.randrange(4) == 0 else self.NAMES)}.{APEX}"
        address = f"A 192.0.2.{digit}"
        return f"{owner} " + self.one_of([
            f"CNAME {target}", f"SRV {digit} 1 5060 {target}", f"SRV 0 {digit} 5061 {target}", "SRV 0 0 0 .",
            f"NAPTR 1 {digit} {self.one_of(POINTERS)} {target}", address, address, f"TXT {digit}",
            f"AAAA 2001:db8::{digit}"])

    def load(self, zone: Sequence[str]) -> None:
        if self.say("\n".join([f"zone {APEX} {len(zone)}", *zone]))[0].startswith("ok"):
            self.records = [f"{owner}.{APEX} {self.absolute(rest)}"
                            for owner, rest in (it.split(" ", 1) for it in zone)]

    @staticmethod
    def absolute(rest: str) -> str:
        """Data with its name as it is relative to the root."""
        kind, *fields = rest.split(" ")
        return " ".join([kind, *fields[:-1], fields[-1] + f".{APEX}" * (kind in ("SRV", "CNAME", "NAPTR"))])

    def edit(self, word: str, record: str) -> None:
        if self.say(f"{word} {record}")[0].startswith("ok"):
            self.records = [*self.records, record] if word == "add" else [it for it in self.records if it != record]

    def unload(self) -> None:
        if self.say(f"drop {APEX}")[0].startswith("ok"):
            self.records = []

    def any_edit(self) -> None:
        """A load where no zone is loaded; else one edit in sixteen unloads it, and half of the others remove a record
        that is there."""
        act = self.random.randrange(16)
        if not self.state.apexes:
            self.load(ZONE)
        elif act == 0:
            self.unload()
        elif act < 8 or not self.records:
            self.edit("add", self.record())
        else:
            self.edit("del", self.one_of(self.records))

    def outage(self) -> None:
        """A hold, a release, or a move of the clock, which may be to a time before. Half of the endpoints are of
        answers."""
        ms, act = self.random.randrange(4), self.random.randrange(4)
        endpoint = f"udp 192.0.2.{self.random.randrange(4)} {self.random.choice([5060, 5070])}"
        if self.target and self.random.randrange(2):
            endpoint = self.target
        if act == 0:
            self.say(f"clock {max(self.state.now + ms - 1, 0)}")
        else:
            self.say(f"release {endpoint}" if act == 1 else f"hold {endpoint} {ms}")

    def page(self) -> None:
        self.say("page")
        self.counts["pages"] += 1

    def answered(self, reply: list[str]) -> bool:
        """Counts an answer. Whether there is one."""
        is_answer = not reply[-1].startswith("err")
        if is_answer:
            endpoints = [it.split(" ", 2)[2] for it in reply[:-1]]
            self.target = endpoints[0] if endpoints else self.target
            held = {f"{transport} {plain.print_address(address)} {port}"
                    for transport, address, port in self.state.holds}
            self.counts["answers with targets"] += bool(endpoints)
            self.counts["answers without targets"] += not endpoints
            self.counts["answers with held targets"] += bool(held & {*endpoints})
            self.counts["answers whose endpoints are all held"] += reply == ["none AllHeld"]
        return is_answer

    def count_reads(self, reads: Sequence[tuple[tuple[tuple[bytes, ...], str], int]]) -> None:
        """Counts what an answer rests on: the sets that were read, with their sizes."""
        pairs = itertools.pairwise(reads)
        self.counts["names that do not exist"] += any(kind == "EXISTS" and not size for (_, kind), size in reads)
        # No alias leads to a wildcard, so it stands for a name.
        self.counts["answers by wildcards"] += any(
            kind != "EXISTS" and name[:1] == (b"*",) and size > 0 for (name, kind), size in reads)
        self.counts["names that exist without the set"] += any(
            kind == "EXISTS" and size > 0 and before == name for ((before, _), _), ((name, kind), size) in pairs)


class ScriptByChance(Chance):
    """A script. A worker that has a run reads until it wants no more, and then commits or settles."""
    NAMES, URIS = [*NAMES, "_sip._udp.x.y"], [*URIS, f"sip:x.q.{APEX}:5060"]

    def __init__(self, seed: str, world: Any) -> None:
        super().__init__(seed, world)
        self.complete: set[int] = set()

    def play(self) -> None:
        self.any_edit()
        for _ in range(12):
            self.edit("add", self.record())
        for _ in range(STEPS):
            self.step()

    def step(self) -> None:
        if self.random.randrange(50) == 0:
            return self.page()
        act = self.random.randrange(16)
        if act < 2:
            self.any_edit()
        elif act == 2:
            self.outage()
        elif act == 3:
            self.counts["answers from entries"] += self.answered(self.say(f"hand {self.one_of(self.URIS)} {self.words()}"))
        elif act == 4:
            self.say(f"forget {self.one_of(self.URIS)}")
        else:
            self.work(self.random.randrange(len(self.conversation.runs)))

    def words(self) -> str:
        return f"seed {self.random.randrange(8)}"

    def work(self, worker: int) -> None:
        run = self.conversation.runs[worker]
        if not run and self.random.randrange(3) == 0:
            self.counts["leases"] += self.say(f"lease {worker}")[0].startswith("ok")
        elif not run:
            self.say(f"start {worker} {self.one_of(self.URIS)}")
        elif self.random.randrange(64) == 0:
            self.say(f"abandon {worker}")
            self.complete.discard(worker)
            self.counts["ended runs"] += 1
        elif worker not in self.complete:
            if self.say(f"read {worker}") == ["err I4"]:
                self.complete.add(worker)
        else:
            self.complete.discard(worker)
            self.settle(worker) if run.lease is not None else self.commit(worker, run)

    def settle(self, worker: int) -> None:
        is_settled = self.say(f"settle {worker}") == ["ok settle"]
        self.counts["settlements" if is_settled else "refused settlements"] += 1

    def commit(self, worker: int, run: Any) -> None:
        reply = self.say(f"commit {worker} {self.words()}")
        if self.answered(reply):
            self.counts["accepted commits"] += 1
            self.count_reads([(key, len(content)) for key, (_, content) in run.items.items()])
        elif reply != ["err B3"]:
            self.counts["refused commits"] += 1
            self.counts["names that begin or cease to exist"] += reply[0].endswith(" EXISTS")


class SessionByChance(Chance):
    """A session: many edits of one zone, or one zone and many questions."""
    NAMES, URIS = [*NAMES, "_sip._sctp.a"], [*URIS, f"sip:q.{APEX};transport=tcp"]

    def find(self, uri: str, seed: int) -> None:
        if self.answered(self.say(f"find {uri} seed {seed}")):
            self.count_reads([(key, len(self.state.content(key))) for key in self.state.reads])

    def edit_and_ask(self) -> None:
        self.load([])
        for _ in range(60):
            for _ in range(10):
                self.line()
            self.say("repair")

    def line(self) -> None:
        if self.random.randrange(50) == 0:
            return self.page()
        act = self.random.randrange(9)
        if act < 2:
            self.edit("add", self.record())
        elif act == 2 and self.records:
            self.edit("del", self.records[-1])
        elif act < 4:
            self.edit("del", self.record())
        elif act < 6:
            self.outage()
        else:
            self.find(self.one_of(self.URIS), self.random.randrange(8))

    def fill_and_ask(self, seed: int) -> None:
        self.load(["* A 192.0.2.9"])
        for _ in range(24):
            self.edit("add", self.record())
        for uri in self.URIS:
            self.find(uri, seed)


def settings_of(chance: random.Random, clients: Sequence[tuple[str, str]]) -> str:
    """A client, and a policy on held endpoints."""
    transports, families = chance.choice(clients)
    return f'transports = {transports}\nfamilies = "{families}"\nheld = "{chance.choice(["out", "last"])}"\n'


def compare(program: str, words: Sequence[str], first: Sequence[str], made: Chance, name: str) -> Part:
    """Runs the program with the first lines, which have no reply, and those that were made, and compares."""
    text = "".join(f"{it}\n" for it in [*first, *made.lines]).encode()
    ran = subprocess.run([program, *words], input=text, stdout=subprocess.PIPE, check=False)
    output, at = ran.stdout.decode().split("\n"), 0
    for line, reply in zip(made.lines, made.replies):
        if output[at:at + len(reply)] != reply:
            return Part(0, [f"{name}, {line!r}: got {output[at:at + len(reply)]}, wanted {reply}"], made.counts)
        at += len(reply)
    is_all = output[at:] == [""]
    return Part(int(is_all), [] if is_all else [f"{name}: got {output[at:at + 3]} at the end"], made.counts)


def play(program: str, seed: int, workers: int) -> Part:
    settings = f"{settings_of(random.Random(seed), CLIENTS)}journal = {JOURNAL}"
    script = ScriptByChance(f"play {seed}", plain.World(plain.read_settings(settings), workers))
    script.play()
    return compare(program, ["world", settings], [f"workers {workers}"], script, f"play {seed} of {workers} workers")


def session(program: str, seed: int, has_one_zone: bool) -> Part:
    settings = settings_of(random.Random(seed), [*itertools.product(TRANSPORTS, FAMILIES)])
    made = SessionByChance(f"session {seed}", plain.Session(plain.read_settings(settings)))
    if has_one_zone:
        made.fill_and_ask(seed)
    else:
        made.edit_and_ask()
    return compare(program, ["run", settings], [], made, f"session {seed}")


def are_mixed(counts: Counts) -> Part:
    """At least a tenth of the commits are accepted and at least a tenth are refused, there are answers from entries,
    some leases are settled and others are not, and some runs are ended."""
    accepted, refused = counts["accepted commits"], counts["refused commits"]
    tenth = (accepted + refused) / 10
    least = {"answers from entries": 100, "leases": 100, "settlements": 50, "refused settlements": 50, "ended runs": 50,
             "answers with held targets": 50, "pages": 1_000, "full pages": 50,
             "names that do not exist": accepted / 10,
             "answers by wildcards": accepted / 10, "names that exist without the set": accepted / 10,
             "names that begin or cease to exist": 50, "accepted commits": tenth, "refused commits": tenth}
    return shown({name: counts[name] > it for name, it in least.items()} | {"commits": accepted + refused > 1_000})


def has_more(counts: Counts, least: int, names: Sequence[str]) -> Part:
    return shown({name: counts[name] > least for name in names})


SORTS = ["answers with targets", "answers without targets", "names that do not exist", "answers by wildcards",
         "names that exist without the set"]
HELD = ["answers with held targets", "answers whose endpoints are all held"]


def all_plays(program: str, begin: int, pool: concurrent.futures.Executor) -> Iterator[Part]:
    """Plays of few workers and of more, and sessions, of seeds from this one on."""
    for least in (1, 5):
        seeds = range(begin, begin + PLAYS)
        part = total(pool.map(play, *zip(*((program, seed, least + seed % 4) for seed in seeds)), chunksize=8))
        yield part
        yield are_mixed(part.counts)
    part = total(pool.map(session, *zip(*((program, seed, False) for seed in range(begin, begin + SESSIONS)))))
    yield part
    yield has_more(part.counts, 10, SORTS + HELD)
    yield has_more(part.counts, 50, ["pages"])
    part = total(pool.map(session, *zip(*((program, seed, True) for seed in range(begin, begin + ZONES))), chunksize=8))
    yield part
    yield has_more(part.counts, 390, SORTS)
