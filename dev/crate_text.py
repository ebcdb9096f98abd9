"""What dev/definitions reads in the crates: definitions with their comments, contracts, laws, and the crates' order."""

from __future__ import annotations

import pathlib
import re
import textwrap
from typing import Iterator

TOP = pathlib.Path(__file__).resolve().parent.parent
CRATES = TOP / "crates"
WORD = re.compile(r"[A-Za-z_][A-Za-z0-9_]*")
DEFINITION = re.compile(r"(?:(?:abbrev|unfoldable) )?pub (?:record |data )?(?!mod |use )([^\s:]+)")


def paragraphs(path: pathlib.Path) -> list[list[str]]:
    """The parts of a file between blank lines that no indented line follows, as lists of lines."""
    return [part.split("\n") for part in re.split(r"\n\n+(?! )", path.read_text().strip("\n"))]


def definitions(path: pathlib.Path) -> Iterator[tuple[str, str, list[str]]]:
    """Each definition of a file of specs/: its word, its comment, and its lines."""
    for lines in paragraphs(path):
        comment: list[str] = []
        for line in lines:
            if line.startswith("--"):
                comment.append(line[2:].strip())
                continue
            match = DEFINITION.match(line)
            if match:
                yield match.group(1), " ".join(comment), lines
            comment = []


def contract(path: pathlib.Path, function: str) -> list[str]:
    """The signature and the contract of a function, without its body."""
    lines = path.read_text().split("\n")
    start = 0
    owner, _, name = function.rpartition("::")
    if owner:
        is_owner = re.compile(rf"(?:impl|(?:pub )?trait)\b.*\b{owner}\b")
        start = next((i for i, line in enumerate(lines) if is_owner.match(line)), len(lines))
    is_head = re.compile(rf"\s*(?:pub(?:\(\w+\))? )?(?:const )?fn {name}\b")
    first = next((i for i in range(start, len(lines)) if is_head.match(lines[i])), len(lines))
    for last in range(first, len(lines)):
        if lines[last].strip() in ("{", "{}") or lines[last].endswith((" {", " {}", ";")):
            head = lines[first : last + 1]
            head[-1] = re.sub(r"\s*(\{\}?|;)$", "", head[-1])
            return textwrap.dedent("\n".join(head)).rstrip().split("\n")
    raise SystemExit(f"{path.relative_to(TOP)}: no function {function}")


def with_body(path: pathlib.Path, function: str) -> list[str]:
    """A function outside any block, whole."""
    found = re.search(rf"^(?:pub )?fn {function}\b.*?^}}$", path.read_text(), re.S | re.M)
    if not found:
        raise SystemExit(f"{path.relative_to(TOP)}: no function {function}")
    return found.group().split("\n")


def crate_names() -> list[str]:
    """The crates, in the order of crates.txt."""
    lines = (TOP / "crates.txt").read_text().split("\n")
    return [line.split(":")[0].split()[0] for line in lines if ":" in line and line[0] != "#"]


def uses() -> dict[str, list[str]]:
    """By each crate those of the repository that it uses, without those that these use in turn."""
    names = crate_names()
    lines = (TOP / "crates.txt").read_text().split("\n")
    used = {line.split(":")[0].split()[0]: set(line.split(":")[1].split()) & set(names)
            for line in lines if ":" in line and line[0] != "#"}
    below: dict[str, set[str]] = {}
    for name in names:
        below[name] = used[name].union(*(below[it] for it in used[name]))
    return {name: [it for it in names if it in used[name] and not any(it in below[other] for other in used[name])]
            for name in names}


def about() -> dict[str, str]:
    """What each crate is, by the comment above its line of crates.txt."""
    found, comment = {}, ""
    for line in (TOP / "crates.txt").read_text().split("\n"):
        if ":" in line and line[0] != "#":
            name = line.split(":")[0].split()[0]
            if not comment:
                raise SystemExit(f"crates.txt: there is no comment above {name}")
            found[name] = comment
        comment = line[1:].strip() if line[:1] == "#" else ""
    return found


def laws(crate: str) -> Iterator[tuple[str, str]]:
    """Each law of a crate, with its comment."""
    path = CRATES / crate / "src/laws.rt"
    comment: list[str] = []
    for line in path.read_text().split("\n") if path.exists() else ():
        found = re.match(r"pub fn (\w+)", line)
        if line.startswith("///"):
            comment.append(line[3:].strip())
        elif found:
            yield found[1], " ".join(comment)
        if line.startswith("}") or line == "{}":
            comment = []
