"""What definitions cite: each word of a definition or of a contract, found by the imports of its file, down to the
kit's own definitions and to what Rust declares. dev/proof_page.py writes it as a page."""

from __future__ import annotations

import dataclasses
import functools
import pathlib
import re
import subprocess
from typing import Iterator, Optional

from crate_text import CRATES, TOP, contract, paragraphs

TOKEN = re.compile(r"(?<![\w.])[^\W\d]\w*(?:'\w*)?")
IMPORT = re.compile(r"^(?:pub )?(?:ghost )?use (Rattle\.[\w.]+?)(?:\.\{([^}]*)\}| as (\w+))?;?$", re.M)
HEAD = re.compile(r"(?:(?:abbrev|unfoldable|pub|private) )*(record|data)? ?([^\W\d][\w']*)")
RUST = re.compile(r"^pub (?:enum|struct) (\w+)\b[^;{]*(?:;|\{.*?^\})", re.S | re.M)
# Where a block of methods begins, where a block ends, and where a function begins.
PLACE = re.compile(r"^(?:impl(?:<[^>]*>)? (?:[^\n]+ for )?&?(\w+)|trait (\w+))[^\n]*|^(\})"
                   r"|^ *(?:pub(?:\(\w+\))? )?(?:const )?fn (\w+)", re.M)
CLAUSE = re.compile(r"\b(requires|ensures)\*? *(\w*) *\{")


@dataclasses.dataclass
class Definition:
    """A definition of a file of specs/, or what Rust declares of a type."""
    key: str
    word: str
    comment: str
    lines: list[str]
    path: pathlib.Path
    line: int
    is_data: bool = False
    cites: list[str] = dataclasses.field(default_factory=list)


@dataclasses.dataclass
class Module:
    """The definitions of a file, each also by its constructors; what it imports, as the modules' paths and words."""
    definitions: dict[str, Definition]
    owners: dict[str, str]
    imports: dict[str, tuple[str, str]]


@functools.cache
def kit() -> pathlib.Path:
    """The folder of the kit's libraries."""
    told = subprocess.run(["rt", "doc"], capture_output=True, text=True, check=False).stdout.strip()
    return pathlib.Path(told).parent / "rattle"


@functools.cache
def imports_of(text: str) -> dict[str, tuple[str, str]]:
    """By the word that a file uses the path of the module, and the word there."""
    found: dict[str, tuple[str, str]] = {}
    for path, words, alias in IMPORT.findall(text):
        for word in words.split(",") if words else ():
            name, _, own = word.strip().partition(" as ")
            found[own or name] = (path, name)
        if not words:
            above, _, last = path.rpartition(".")
            found[alias or last] = (above, last)
    return found


def paths_of(module: str) -> Iterator[pathlib.Path]:
    """Where a module's file may be: Rattle.NAME.specs.A.B."""
    _, crate, part, *names = module.split(".")
    for top in (CRATES, kit()):
        for count in range(len(names), 0, -1):
            yield top / crate / part / f"{'/'.join(names[:count])}.antt"


@functools.cache
def module_of(path: pathlib.Path) -> Module:
    """The definitions of a file of specs/."""
    text = path.read_text()
    found, owners, at = {}, {}, 0
    for lines in paragraphs(path):
        at = text.index("\n".join(lines), at)
        comment = [it[2:].strip() for it in lines if it.startswith("--")]
        rest = [it for it in lines if not it.startswith("--")]
        head = HEAD.match(rest[0]) if rest and not re.match(r"(pub )?(use|mod) ", rest[0]) else None
        if head:
            word = head[2]
            key = f"{path.parent.parent.name}.{path.stem}.{word}"
            line = text.count("\n", 0, at) + 1
            found[word] = Definition(key, word, " ".join(comment), rest, path, line, head[1] == "data")
            if head[1] == "data":
                owners.update((it[1], word) for line in rest[1:] if (it := re.match(r" +(?:pub )?(\S+) :", line)))
    return Module(found, owners, imports_of(text))


def found_in(path: pathlib.Path, word: str) -> Optional[str]:
    """The definition of a file that has a word, or that of one from which the file passes it on."""
    module = module_of(path)
    word = module.owners.get(word, word)
    if word in module.definitions:
        DEFINITIONS[module.definitions[word].key] = module.definitions[word]
        return module.definitions[word].key
    return resolve(*module.imports[word]) if word in module.imports else None


# All that was found, by its key.
DEFINITIONS: dict[str, Definition] = {}


@functools.cache
def resolve(module: str, word: str) -> Optional[str]:
    """What a word of a module is: its key, or nothing where it is not found."""
    names = module.split(".")
    if "declared" in names:
        place = names.index("declared")
        return types_of(names[1]).get([it for it in names[place + 1:] if it != "TheVariants"][-1])
    if len(names) < 4 or names[0] != "Rattle" or names[2] != "specs":
        return None
    for path in paths_of(module):
        if path.is_file():
            # A path that ends with a type's name has its constructors.
            inner = names[-1] if path.stem != names[-1] else word
            return found_in(path, word) or found_in(path, inner)
    return None


@functools.cache
def types_of(crate: str) -> dict[str, str]:
    """What Rust declares of each type of a crate, as specs see it."""
    found = {}
    for path in sorted((CRATES / crate / "src").glob("**/*.rt")):
        text = path.read_text()
        for type_ in RUST.finditer(text):
            above = re.search(r"((?:///[^\n]*\n)*)(?:#\[[^\n]*\n)*$", text[:type_.start()])
            comment = " ".join(it[3:].strip() for it in above[1].splitlines()) if above else ""
            line = text.count("\n", 0, type_.start()) + 1
            key = found[type_[1]] = f"{crate}.rust.{type_[1]}"
            DEFINITIONS[key] = Definition(key, type_[1], comment, type_[0].splitlines(), path, line)
    return found


def type_of(path: pathlib.Path, word: str) -> Optional[str]:
    """What a type is that a file of src/ names: of its own crate, or of one that it uses."""
    used = re.findall(r"^use (sipl_\w+)::(?:\{([^}]*)\}|(\w+));", path.read_text(), re.M)
    crates = [path.relative_to(CRATES).parts[0], *(it for it, many, one in used if word in TOKEN.findall(many or one))]
    return next((types_of(it)[word] for it in crates if word in types_of(it)), None)


@functools.cache
def local(path: pathlib.Path, word: str) -> Optional[str]:
    """What a word of a file is."""
    if path.suffix == ".antt":
        return found_in(path, word)
    imports = imports_of(path.read_text())
    return resolve(*imports[word]) if word in imports else type_of(path, word) if word[0].isupper() else None


def patterns(lines: list[str], word: str) -> str:
    """What is on the left of the equations of a definition, and what its signature and its functions bind."""
    text = "\n".join(lines)
    left = [it.rpartition(" =")[0] for it in lines if it.startswith(f"{word} ") and it.endswith("=") or " = " in it]
    return " ".join([*left, *re.findall(r"λ ([^.]*)\.", text), *re.findall(r"\(([\w' ]+) :", text)])


def cited(definition: Definition) -> list[str]:
    """What a definition cites. A function's name on the left of an equation, or bound, is a variable there."""
    bound = set(TOKEN.findall(patterns(definition.lines, definition.word)))
    found = []
    for word in dict.fromkeys(TOKEN.findall("\n".join(definition.lines))):
        key = local(definition.path, word) if word != definition.word else None
        if key and (word not in bound or word[0].isupper() or DEFINITIONS[key].is_data) and key != definition.key:
            found.append(key)
    return list(dict.fromkeys(found))


def closure(keys: list[str]) -> list[str]:
    """These definitions and all that they rest on, in the order in which they are met."""
    order: dict[str, None] = {}
    rest = keys[::-1]
    while rest:
        key = rest.pop()
        if key not in order:
            order[key] = None
            DEFINITIONS[key].cites = cited(DEFINITIONS[key])
            rest += DEFINITIONS[key].cites[::-1]
    return list(order)


def clauses(path: pathlib.Path, function: str) -> Iterator[tuple[str, str]]:
    """The clauses of a function's contract, each with its name."""
    text = "\n".join(contract(path, function))
    for head in CLAUSE.finditer(text):
        depth, end = 1, head.end()
        while depth and end < len(text):
            depth += {"{": 1, "}": -1}.get(text[end], 0)
            end += 1
        yield head[2], text[head.start():end]


def cited_by_text(path: pathlib.Path, text: str) -> list[str]:
    """What a clause of a file of src/ cites."""
    bound = set(TOKEN.findall(" ".join([*re.findall(r"λ ([^.]*)\.", text), *re.findall(r"\(([\w' ]+) :", text)])))
    keys = (local(path, word) for word in TOKEN.findall(text) if word not in bound or word[0].isupper())
    return list(dict.fromkeys(it for it in keys if it))


@functools.cache
def functions(path: pathlib.Path) -> list[tuple[int, str]]:
    """The functions of a file, each with its place."""
    found, owner = [], ""
    for match in PLACE.finditer(path.read_text()):
        owner = match[1] or match[2] or ("" if match[3] else owner)
        if match[4]:
            found.append((match.start(), f"{owner}::{match[4]}" if owner else match[4]))
    return found


def edits() -> Iterator[tuple[pathlib.Path, pathlib.Path, str]]:
    """The wrong bodies: each edit, the file that it changes, and the first function there that it changes."""
    for edit in sorted(it for part in ("must-fail", "wrong-bodies") for it in CRATES.glob(f"*/{part}/*.edit")):
        lines = edit.read_text().split("\n")
        file = next((it[6:].strip() for it in lines if it.startswith("file: ")), "")
        old = next((it[5:] for it in lines if it.startswith("old: ")), "")
        path = edit.parent.parent / file
        if path.is_file() and old:
            at = path.read_text().find(old)
            above = [name for place, name in functions(path) if place <= at + len(old)]
            if at >= 0 and above:
                yield edit, path, above[-1]


def relative(path: pathlib.Path) -> str:
    """The path of a file, below the repository or the kit."""
    return str(path.relative_to(TOP) if path.is_relative_to(TOP) else path.relative_to(kit().parent))
