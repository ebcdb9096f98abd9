"""What dev/definitions sees to in the documents: tables that are written from the crates, from the heads of files and
from docs/tables, and the length of each document and of its sentences.

A table is between the lines `<!-- table NAME WORD.. -->` and `<!-- end -->`:

    settings NAME     the settings of a program, by the rows of crates/sipl_config/src/rows.rt
    lines NAME        a table of docs/tables/lines.txt, whose words are those of the crates
    crates            what each crate is, and on which it depends, by crates.txt
    proved            the clauses of docs/tables/proved.txt, which the crates have, and all laws with their comments
    performance       the figures of docs/tables/performance.txt, which bench/run measures
    harms             the wrong bodies of docs/tables/harms.txt
    places            the files of docs/tables/places.txt that one touches for what is added
    programs PATH..   these programs, and those of these folders, each by the first sentence at its head

A file of docs/tables has comments after `#`, begins a table by `== NAME`, maybe with the heads of its columns, and has
a row in each other line. docs/tables/targets.txt has for each document how many words it may have: those of its tables
and marked blocks are not counted. A document with a tenth more, or with a sentence of more than 35 words, is refused.
"""

from __future__ import annotations

import dataclasses
import functools
import pathlib
import re
from typing import Callable, Iterator, Optional

from crate_text import CRATES, TOP, WORD, about, crate_names, laws, uses

TABLES = TOP / "docs/tables"
LONGEST = 35
BEGIN = re.compile(r"<!-- table ((?:[\w/-]+ ?)+)-->")
END = "<!-- end -->"


def rows_of(file: str) -> dict[str, list[list[str]]]:
    """The tables of a file of docs/tables, each as its rows, the first of which are the heads of its columns."""
    found: dict[str, list[list[str]]] = {}
    rows: list[list[str]] = found.setdefault("", [])
    for line in (TABLES / f"{file}.txt").read_text().split("\n"):
        if line.startswith("== "):
            name, *heads = line[3:].split(" | ")
            rows = found[name] = [heads] if heads else []
        elif line and line[0] != "#":
            rows.append([it.strip() for it in re.split(r" \|(?: |$)", line)])
    return found


def markdown(heads: list[str], rows: list[list[str]]) -> list[str]:
    """A table as lines."""
    cells = [heads, *([cell.replace("|", "\\|") for cell in row] for row in rows)]
    first, *others = ["| " + " | ".join(row) + " |" for row in cells]
    return [first, "|" + "---|" * len(heads), *others]


def text_of(path: str) -> str:
    """The text of a file, or of all files of a folder."""
    files = sorted((CRATES / path).glob("*.rt")) if (CRATES / path).is_dir() else [CRATES / path]
    return "\n".join(it.read_text() for it in files)


def refuse(what: str, known: set[str], written: set[str]) -> None:
    """Refuses a table that has not got all words of the crates, or has others."""
    said = [f"{', '.join(sorted(words))} {'are' if len(words) > 1 else 'is'} {wrong}"
            for words, wrong in ((known - written, "missing"), (written - known, "not known")) if words]
    if said:
        raise SystemExit(f"{what}: {'; '.join(said)}")


# ---- tables


@dataclasses.dataclass(frozen=True)
class Setting:
    """A row of sipl_config/src/rows.rt: the name of its constant, and cells of its table."""

    const: str
    key: str
    values: str
    default: str
    does: str
    know: str


ROWS = "sipl_config/src/rows.rt"
ROW = re.compile(r"^((?:///[^\n]*\n)+)pub const (\w+): Row = Row \{\n    key: \"(\w+)\",\n    values: Values::"
                 r"(\w+)\((.*?)\),\n    default: DefaultValue::(\w+)(?:\((.*?)\))?,\n\};$", re.S | re.M)


def words_of_values(kind: str, text: str) -> str:
    """What a value may be, as a cell: of numbers the least and the greatest, else the words without an example."""
    if kind == "Numbers":
        return " to ".join("2^40" if it == 1 << 40 else f"{it:,}" for it in (int(it, 0) for it in text.split(",")))
    text = re.sub(r"\\\n\s*", "", text)
    words = re.sub(r'\\"(\w+)\\"', r'`"\1"`', re.findall(r'"((?:[^"\\]|\\.)*)"', text)[0])
    return re.sub(r",? as (?:\[?\\\").*", "", words)


def words_of_default(kind: str, text: str) -> str:
    """A default, as a cell."""
    if kind == "Number":
        return text if text.startswith("0o") else f"{int(text.replace('_', '')):,}"
    return {"Nothing": "none", "Text": f"`{text}`", "Texts": f"`{text[1:]}`"}[kind]


def begun_small(sentence: str) -> str:
    """A paragraph as the end of a cell: its first letter small, but that of a name, and no point at its end."""
    first = sentence[:1].lower() if sentence[1:2].islower() or sentence[1:2] == " " else sentence[:1]
    return first + sentence[1:].removesuffix(".")


@functools.cache
def setting_rows() -> dict[str, Setting]:
    """The rows of the settings, by the names of their constants."""
    found = {}
    for comment, const, key, kind, values, default, value in ROW.findall(text_of(ROWS)):
        texts = "\n".join(it[4:] for it in comment.splitlines()).split("\n\n")
        does, know, *_ = [*(" ".join(it.split()) for it in texts), ""]
        found[const] = Setting(const, key, words_of_values(kind, values), words_of_default(default, value),
                               begun_small(does), begun_small(know))
    refuse(ROWS, set(re.findall(r"^pub const (\w+): Row =", text_of(ROWS), re.M)), set(found))
    return found


def listed(name: str) -> list[Setting]:
    """The rows of a list of settings, in its order."""
    body = re.search(rf"^pub const {name}: \[Row; \d+\] = \[\n(.*?)^\];", text_of(ROWS), re.S | re.M)
    return [setting_rows()[it] for it in re.findall(r"\w+", body[1] if body else "")]


def settings_of(name: str) -> list[Setting]:
    """The settings of `siploc`, and those of `siplocd` that `siploc` does not have."""
    shared = listed("SERVICE")
    return shared if name == "siploc" else [it for it in listed("DAEMON") if it not in shared]


def check_settings() -> None:
    """Refuses a setting that is in no list, that no program reads, or that is read with other limits."""
    used = {it.const for it in listed("DAEMON") + listed("SERVICE")}
    refuse(f"{ROWS}, DAEMON and SERVICE", set(setting_rows()), used)
    read = re.findall(r"\(&rows::(\w+)\)", text_of("sipl_settings/src/settings.rt"))
    refuse("sipl_settings/src/settings.rt", {it.const for it in settings_of("siplocd")}, set(read))
    if read != [it.const for it in settings_of("siplocd")]:
        raise SystemExit("sipl_settings/src/settings.rt: the settings are not read in the order of their keys' octets")
    rows = re.findall(r'\(codes "(\w+)", (?:numbers (\d+) (\d+)|\w+)\)', text_of("sipl_lines/specs/Settings.antt"))
    limits = {key: f"{int(least):,} to {int(greatest):,}" if greatest else "" for key, least, greatest in rows}
    refuse("sipl_lines/specs/Settings.antt", {it.key for it in listed("SERVICE")}, set(limits))
    for it in listed("SERVICE"):
        if limits[it.key] not in ("", it.values):
            raise SystemExit(f"{ROWS}: {it.key} is {it.values}, and in sipl_lines/specs/Settings.antt {limits[it.key]}")


def keys_of(name: str) -> set[str]:
    """The keys of the settings of a program; of `siplocd` those of its own."""
    return {it.key for it in settings_of(name)}


def settings(name: str) -> list[str]:
    check_settings()
    rows = [[f"`{it.key}`", f"{it.values}: {it.does}", it.default, it.know] for it in settings_of(name)]
    return markdown(["Key", "Value", "Default", "What to know"], rows)


EXAMPLE = TOP / "examples/siplocd.toml"
REST = "# The others, with their defaults, or with what they may be where they have none (dev/definitions):\n"


def example_settings() -> str:
    """The text of examples/siplocd.toml, with the settings of the daemon that it does not have."""
    own, _, _ = EXAMPLE.read_text().partition(f"\n{REST}")
    used = set(re.findall(r"^(?:# )?([a-z_]+) *=", own, re.M))
    left = [it for it in listed("DAEMON") if it.key not in used]
    lines = [f"# {it.key}: {it.values}" if it.default == "none" else
             f"# {it.key} = {it.default[1:-1] if it.default[0] == '`' else it.default.replace(',', '')}" for it in left]
    return f"{own}\n{REST}" + "".join(f"{it}\n" for it in lines).replace("`", "")


# By the name of a table the file, or the folder, that has its words, and what they are in it.
WORDS = {
    "session": ("sipl_lines/specs/Requests.antt", r'^text_of_word command\.\w+ = codes "(\w+)"'),
    "script": ("sipl_lines/specs/ScriptLines.antt", r'codes "(\w+)"\) then \w+_request'),
    "control": ("sipl_daemon/src/control.rt", r'^ +"(\w+)" =>'),
    "program": ("siploc/src",
                r'(?:^ +|Command::new\(alloc, |with_settings\(\s*alloc,\s*)"(?!siploc")(\w+)"(?= =>|\)|,)'),
}


def performance() -> list[str]:
    tables = rows_of("performance")
    heads, *rows = tables["rows"]
    return [*tables["run"][0], "", *markdown(heads, [row + [""] * (len(heads) - len(row)) for row in rows])]


def lines(name: str) -> list[str]:
    heads, *rows = rows_of("lines")[name]
    if name in WORDS:
        path, word = WORDS[name]
        known = set(re.findall(word, text_of(path), re.M))
        written = {row[0].strip("`").removeprefix("siploc ").split(" ")[0] for row in rows}
        refuse(f"lines.txt, {name}", known, {it for it in written if not it.startswith("-")})
    return markdown(heads, [row + [""] * (len(heads) - len(row)) for row in rows])


def crates() -> list[str]:
    """What each crate is, and on which it depends."""
    below = uses()
    rows = [[f"`{name}`", text, ", ".join(f"`{it}`" for it in below[name])] for name, text in about().items()]
    return markdown(["Crate", "What it has", "Depends on"], rows)


def check_proved(crate: str, row: list[str], words: set[str]) -> None:
    """Refuses a row whose clause or file a crate does not have."""
    for file in re.findall(r"`([^`]+)`", row[2]):
        if not any((CRATES / crate).glob(f"s*/**/{file}")):
            raise SystemExit(f"proved.txt: {crate} has no {file}")
    for word in WORD.findall(" ".join(re.findall(r"`([^`]+)`", row[1]))):
        if word not in words:
            raise SystemExit(f"proved.txt: {crate} has no {word}")


def proved() -> list[str]:
    """What each crate's calls promise, and its laws."""
    out, written = [], rows_of("proved")
    for crate in crate_names():
        rows = written.pop(crate, [])
        words = {it for path in (CRATES / crate).glob("s*/**/*.*t*") for it in WORD.findall(path.read_text())}
        for row in rows:
            check_proved(crate, row, words)
        rows += [[comment, f"`{name}`", "`laws.rt`"] for name, comment in laws(crate)]
        if rows:
            out += ["", f"### {crate}", "", *markdown(["Sentence", "Clause or law", "File"], rows)]
    refuse("proved.txt", set(), {it for it, rows in written.items() if rows})
    return out[1:]


def harms() -> list[str]:
    """What wrong bodies would do, and the edits."""
    rows = rows_of("harms")[""]
    for edit in (it for row in rows for it in row[1].split()):
        if not (CRATES / f"{edit}.edit").is_file():
            raise SystemExit(f"harms.txt: there is no {edit}.edit")
    cells = [[harm, "; ".join(f"`{it}.edit`" for it in edits.split())] for harm, edits in rows]
    return markdown(["Harm", "Refused"], cells)


def places() -> list[str]:
    """Which files one touches for what is added."""
    heads, *rows = rows_of("places")["places"]
    for what, text in rows:
        files = files_in(text)
        for file in files:
            if not (TOP / file).exists():
                raise SystemExit(f"places.txt, {what}: there is no {file}")
        known = {word for file in files if (TOP / file).is_file() for word in WORD.findall((TOP / file).read_text())}
        for word in re.findall(r"`(\w+)`", text):
            if word not in known and not word.startswith("sipl_"):
                raise SystemExit(f"places.txt, {what}: no file of the row has {word}")
    return markdown(heads, rows)


def files_in(text: str) -> list[str]:
    """The files that a text names in backticks. One of src, specs or proofs is of the crate that was named last."""
    crate, found = "", []
    for name, file in re.findall(r"`(sipl_\w+)?/?([^`]*)`", text):
        crate = name or crate
        if re.match("(src|specs|proofs)/", file):
            found.append(f"crates/{crate}/{file}")
        elif "/" in file:
            found.append(file)
    return found


def first_sentence(path: pathlib.Path) -> str:
    """The first sentence at the head of a script."""
    found = re.search(r'^"""(.*?)"""', path.read_text(), re.S | re.M)
    paragraph = " ".join((found[1] if found else "").split("\n\n")[0].split())
    return re.split(r"(?<=\.) ", paragraph)[0].rstrip(":")


def programs(*names: str) -> list[str]:
    """Some programs, and those of some folders."""
    places = [TOP / name for name in names]
    paths = [it for at in places for it in (sorted(at.iterdir()) if at.is_dir() else [at])]
    files = [it for it in paths if it.is_file() and not it.suffix]
    return markdown(["Program", "What it does"], [[f"`{it.relative_to(TOP)}`", first_sentence(it)] for it in files])


TABLE: dict[str, Callable[..., list[str]]] = {
    "settings": settings, "lines": lines, "crates": crates, "proved": proved, "harms": harms,
    "performance": performance, "places": places, "programs": programs,
}


def with_tables(text: str) -> str:
    """A document whose tables have what the crates have now."""
    out: list[str] = []
    rest = iter(text.split("\n"))
    for line in rest:
        out.append(line)
        found = BEGIN.fullmatch(line)
        if found:
            name, *words = found[1].split()
            if name not in TABLE:
                raise SystemExit(f"there is no table {name}")
            out += ["", *TABLE[name](*words), "", END]
            if END not in rest:
                raise SystemExit(f"the table {name} has no end")
    return "\n".join(out)


# ---- words


BLOCK = r"^```(?:antt|rust|text|python|c) \S.*?^```$"


def by_hand(text: str) -> str:
    """A document without the tables and the marked blocks that are written into it."""
    return re.sub(rf"^<!-- table .*?^<!-- end -->$|{BLOCK}", "", text, flags=re.S | re.M)


def pages() -> list[pathlib.Path]:
    """The documents."""
    patterns = ("*.md", "docs/**/*.md", "clients/*.md", "examples/*/*.md", "crates/*/*.md")
    return [path for it in patterns for path in sorted(TOP.glob(it))]


def slug(title: str) -> str:
    """What leads to a title within a page."""
    return re.sub(r"[^\w\- ]", "", title.lower()).replace(" ", "-")


def broken_links(path: pathlib.Path, text: str) -> Iterator[str]:
    """The links of a document that lead nowhere."""
    for link in re.findall(r"\]\(([^)\s]+)\)", re.sub(r"^```.*?^```$", "", text, flags=re.S | re.M)):
        file, _, place = link.partition("#")
        aim = (path.parent / file).resolve() if file else path
        titles = re.findall(r"^#+ (.*)", aim.read_text(), re.M) if place and aim.is_file() else []
        if "://" not in link and (not aim.exists() or place and place not in map(slug, titles)):
            yield f"{path.relative_to(TOP)} has a link that leads nowhere: {link}"


# A path of the repository in a text; in the code of a crate that of a document, and in a document that of a crate.
PATH = re.compile(r"(?<![\w/.\"}$*-])(?:docs|tools|dev|tests|bench|clients|examples)/(?!FILE)[A-Za-z][\w/.-]*\w")
OF_CRATE = re.compile(r"`(?:crates/)?((?:sipl\w+/)?(?:src|specs|proofs|wrong-bodies|must-fail)/(?!FILE)[\w/-]+\.\w+)")
DOCUMENT = re.compile(r"\bdocs/[\w/-]+\.md\b")
TEXTS = ("", ".py", ".txt", ".sh", ".c", ".go", ".md", ".rattle", ".rt")


def lost_paths() -> Iterator[str]:
    """The paths of the repository that documents, tools, tests, examples and crates name, and that are not there."""
    folders = ("tools", "dev", "tests", "bench", "clients", "examples", "docs", ".ci", "crates")
    files = (it for folder in folders for it in sorted((TOP / folder).rglob("*")) if it.suffix in TEXTS
             and it.is_file())
    for path in (*sorted(TOP.glob("*.md")), *files):
        if "out" not in path.relative_to(TOP).parts:
            text = path.read_text(errors="replace")
            lost = [it for it in (DOCUMENT if path.suffix == ".rt" else PATH).findall(text) if not (TOP / it).exists()]
            if path.suffix == ".md":
                paths = [it if it.startswith("sipl") else f"*/{it}" for it in OF_CRATE.findall(text)]
                lost += [it for it in paths if not any(CRATES.glob(it))]
            for name in lost:
                yield f"{path.relative_to(TOP)} names {name}, which is not there"


def units(text: str) -> Iterator[str]:
    """The paragraphs, items of lists and cells of tables of a document, without its examples."""
    text = re.sub(r"^```.*?^```$", "", text, flags=re.S | re.M)
    for part in re.split(r"\n\n+", text):
        if part.startswith("    ") or part.startswith("#"):
            continue
        for item in re.split(r"\n(?=- |[0-9]+\. |\|)", part):
            yield from re.split(r"(?<!\\)\|", item) if item.startswith("|") else [item]


def sentences(text: str) -> Iterator[str]:
    for unit in units(text):
        yield from re.split(r"(?<=[.!?])[)*\"']*\s+", " ".join(unit.split()))


def is_word(text: str) -> bool:
    return any(it.isalnum() for it in text)


def long_sentences(path: pathlib.Path, text: str) -> Iterator[str]:
    """The sentences of a document that are too long."""
    for sentence in sentences(text):
        length = sum(map(is_word, sentence.split()))
        if length > LONGEST:
            yield f"{path.relative_to(TOP)} has a sentence of {length} words: {sentence[:60]} .."


def excess(path: pathlib.Path, text: str, target: Optional[int]) -> Iterator[str]:
    """What a document has too much of, of what is written by hand."""
    own = by_hand(text)
    count = len(own.split())
    if target is None:
        yield f"{path.relative_to(TOP)} has no target in docs/tables/targets.txt"
    elif count > target * 1.1:
        yield f"{path.relative_to(TOP)} has {count} words, and its target is {target}"
    yield from long_sentences(path, own)


def excess_of_tables() -> Iterator[str]:
    """The sentences of docs/tables and of the rows of the settings that are too long."""
    for path in sorted(TABLES.glob("*.txt")):
        cells = [cell for rows in rows_of(path.stem).values() for row in rows for cell in row]
        yield from long_sentences(path, "\n\n".join(cells))
    texts = [text for it in setting_rows().values() for text in (it.does, it.know)]
    yield from long_sentences(CRATES / ROWS, "\n\n".join(texts))


def targets() -> dict[str, int]:
    """The words that each document may have, by its path."""
    return {path: int(count) for path, count in rows_of("targets")[""]}
