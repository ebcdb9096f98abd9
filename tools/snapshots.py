"""Snapshots of a locator that is given a Redis stream: what tools/snapshot publishes, and tools/apply begins with where
the stream's beginning was taken out.

A snapshot is a text at the key STREAM:snapshot: a comment with the locator's mark, the changes that lead to its zones,
holds and time, and the digest of these lines.
"""

from __future__ import annotations

import os
import time
from pathlib import Path
from typing import Dict, Iterable, List, NamedTuple, Optional, Tuple

import changelog
import commits


class Snapshot(NamedTuple):
    """A mark, and the changes that lead to what a locator was at that mark. A first part of the batch after it may have
    been done."""

    mark: changelog.Mark
    changes: List[changelog.Change]

    def octets(self) -> bytes:
        mark = self.mark._replace(locator="")
        return commits.sealed(b"\n".join([f"# {mark.record}".encode(), *(it.octets for it in self.changes), b""]))


def read(octets: bytes) -> Snapshot:
    """The snapshot of a text."""
    text = octets[:-commits.SEAL_LEN]
    first, *lines = text.split(b"\n")
    mark = record_mark(first[2:].decode("latin-1")) if octets == commits.sealed(text) else None
    if not mark:
        raise changelog.Fault("not a snapshot of tools/snapshot, or a damaged one: delete it, and publish another")
    return Snapshot(mark, [change for _, change in changelog.changes_in(lines)])


def of_state(path: Path) -> Snapshot:
    """The snapshot of a `siplocd` with this `state`, which may run."""
    marks, changes = without_marks(change for _, change in changelog.changes_in(state_lines(path)))
    if not marks:
        raise changelog.Fault(f"{path}: the locator was given no stream by tools/apply")
    return Snapshot(marks[-1], changes)


def state_lines(path: Path) -> List[bytes]:
    """The lines of a state, and of the changes after it (docs/use/OPERATING.md). It may be a link to the state."""
    path = Path(os.path.realpath(path))
    if path.exists() and not path.is_file():
        raise changelog.Fault(f"{path}: not a file")
    if not any(it.exists() for it in (path, Path(f"{path}.log"))):
        raise changelog.Fault(f"{path}: no such file")
    for _ in range(100):
        state, log = (it.read_bytes() if it.exists() else b"" for it in (path, Path(f"{path}.log")))
        lines = commits.lines_of(state, log)
        if lines is not None:
            return lines.split(b"\n")[:-1]
        # A state has been written meanwhile.
        time.sleep(0.05)
    raise changelog.Fault(f"{path}: not the state of a siplocd")


def without_marks(changes: Iterable[changelog.Change]) -> Tuple[List[changelog.Mark], List[changelog.Change]]:
    """The marks that are left after changes, the last one last, and the changes of all else."""
    marks: Dict[int, changelog.Mark] = {}
    others = []
    for change in changes:
        first, *lines = change.command.split("\n")
        word, owner = [*first.split(" "), ""][:2]
        if word in ("zone", "drop") and owner == changelog.MARKS:
            marks = {it.turn: it for it in map(record_mark, lines) if it}
        elif word in ("add", "del") and owner.endswith(f".{changelog.MARKS}"):
            mark = record_mark(first.split(" ", 1)[1])
            if mark and word == "add":
                marks[mark.turn] = mark
            elif mark:
                marks.pop(mark.turn, None)
        elif change.command != "clock 0":
            # (by `clock 0`, which moves nothing, tools/apply asks for the time)
            others.append(change)
    return sorted(marks.values(), key=lambda it: it.order), others


def record_mark(record: str) -> Optional[changelog.Mark]:
    """The mark that a record is, if it is one."""
    owner, *data = record.split(" ")
    turn = owner[2:3]
    is_owner = turn in ("0", "1") and owner == f"at{turn}.{changelog.MARKS}"
    return changelog.mark_of(data[1], int(turn)) if is_owner and data[:1] == ["CNAME"] and len(data) == 2 else None


def key_of(stream: changelog.Stream) -> bytes:
    return changelog.octets_of(f"{stream.key}:snapshot")


def published(stream: changelog.Stream) -> Optional[Snapshot]:
    """The snapshot that was published, if there is one."""
    octets = stream.ask([[b"GET", key_of(stream)]])[0]
    try:
        return read(octets) if isinstance(octets, bytes) else None
    except changelog.Fault as fault:
        raise changelog.Fault(f"{stream.key}:snapshot: {fault}") from fault


def watch(stream: changelog.Stream) -> None:
    """From now on `publish` takes the place of no snapshot but the one that is there."""
    stream.ask([[b"WATCH", key_of(stream)]])


def publish(stream: changelog.Stream, snapshot: Snapshot, keep: Optional[int] = None, is_there: bool = False) -> int:
    """Publishes a snapshot, unless it is there. Where it is said for how many seconds before it entries are kept, those
    before them are taken out: how many there were. One more is left, since whoever was given it lacks none."""
    key, trim = changelog.octets_of(stream.key), []
    if keep is not None:
        time_of, number = snapshot.mark.place
        place = (max(0, time_of - 1000 * keep), number)
        entries = stream.ask([[b"XREVRANGE", key, changelog.id_of(place).encode(), b"-", b"COUNT", b"1"]])[0]
        if entries:
            trim = [[b"XTRIM", key, b"MINID", changelog.bytes_of(entries[0][0])]]  # type: ignore[index]
    commands = [*([] if is_there else [[b"SET", key_of(stream), snapshot.octets()]]), *trim]
    done = stream.transact(commands)
    if commands and not done:
        raise changelog.Fault("another snapshot was published meanwhile")
    return done[-1] if trim and isinstance(done[-1], int) else 0
