"""Where clients, tools and crates have a list of clients/lists.json of their own: dev/definitions compares each.

A list that lacks a word, or has one that is not there, is named. So is a list of types, families, reasons, commands
or settings in a client or a tool that this file does not know. What users install alone has its own lists, and so has
tools/plain, which is written by hand; other tools of the repository read clients/lists.json.

Files of crates that spell a word of a list, or import all cases of its type, are in its row of docs/tables/places.txt.
"""

from __future__ import annotations

import functools
import json
import pathlib
import re
from typing import Iterator, NamedTuple, Sequence

import documents
import lists
from crate_text import TOP


class Place(NamedTuple):
    """A list in a file: its name in `wanted`, what it is within, and how its words look there. A function that makes
    records or lines has at least these words, and others too."""
    file: str
    name: str
    within: str
    word: str = r"(?!(?:or|and)\b)\b(\w+)"
    is_least: bool = False


QUOTED = r'"(\w+)"'
# How the clients in Python send a command, and how tests/campaigns/hostile makes one.
SENT = r'(?:line\("|_ask\(f?"|_ask\((?=zone))(\w+)'
MADE = r'[\[ (]f?"(\w+)\b'
PYTHON, ASYNC, GO = "clients/python/siploc.py", "clients/python/siploc_asyncio.py", "clients/go/siploc/"
C, HEADER = "clients/c/siploc.c", "clients/c/siploc.h"
KEYS = "crates/sipl_config/specs/Keys.antt"
CLIENTS = [
    Place(PYTHON, "kinds", r'^_KIND = r"\((.*?)\)"'),
    Place(PYTHON, "kinds", r"    The kind is (.*?), and the number is 1", "`(\\w+)`"),
    Place(PYTHON, "transports", r'^_ENDPOINT = rf"\((.*?)\)'),
    Place(PYTHON, "transports", r"Where to send a request: (.*?), an address", "`(\\w+)`"),
    Place(PYTHON, "reasons", r'^_NONE = re.compile\(r"none \((.*?)\)'),
    Place(PYTHON, "reasons", r"    The reason is (.*?), and None", "`(\\w+)`"),
    Place(PYTHON, "steps", r"^_STEP = re.compile\((.*?)\)$", r'(?<=["|])([a-z]+)\b'),
    Place(PYTHON, "steps with fields", r"^def _step\((.*?)^class ", r'word == "(\w+)"'),
    Place(PYTHON, "session", r"^_FORMS: .*?\{\n(.*?)^\}", r'^    "(\w+)":'),
    Place(PYTHON, "session but quit", r"^class BaseSession:(.*?)^class Session", SENT),
    Place(PYTHON, "codes", r"^MEANINGS: .*?\{\n(.*?)^\}", r'^    "(\w+)":'),
    Place(ASYNC, "session but quit", r"^class Session:(.*)", SENT),
    Place(GO + "reply.go", "kinds", r"^func isKind(.*?)^}", QUOTED),
    Place(GO + "reply.go", "kinds", r"// Kind is (.*?)\."),
    Place(GO + "reply.go", "transports", r"isTransport := (.*?)$", QUOTED),
    Place(GO + "reply.go", "transports", r"// Transport is (.*?)\."),
    Place(GO + "reply.go", "reasons", r"^func isReason(.*?)^}", QUOTED),
    Place(GO + "reply.go", "reasons", r"// Reason is (.*?), and empty"),
    Place(GO + "reply.go", "steps", r"^// The kinds of steps\.\nconst \((.*?)^\)", QUOTED),
    Place(GO + "reply.go", "session", r"^func areCounts(.*?)^\tdefault", QUOTED),
    Place(GO + "siploc.go", "session but quit", r"(.*)", r'(?:ask\(ctx, "|one\(ctx, "|Line\("(?=zone))(\w+)'),
    Place(GO + "errors.go", "codes", r"^var meanings = .*?\{\n(.*?)^\}", r'^\t"(\w+)":'),
    Place(C, "kinds", r"kinds\[\] = \{(.*?), NULL", QUOTED),
    Place(C, "transports", r"transports\[\] = \{(.*?), NULL", QUOTED),
    Place(C, "reasons", r"reasons\[\] = \{(.*?), NULL", QUOTED),
    Place(C, "steps", r"^static bool read_step\((.*?)^}", QUOTED),
    Place(C, "session", r"words\[OTHER\] = \{(.*?);", QUOTED),
    Place(C, "session in capitals", r"^typedef enum word \{(.*?),\s*OTHER"),
    Place(C, "session but quit", r"^/\* ---- Commands ---- \*/(.*?)^/\* ---- Sessions", r'(?:begin|edit)\(s, "(\w+)'),
    Place(C, "codes", r"meanings\[\] = \{(.*?)\};", r'\{"(\w+)",'),
    Place(HEADER, "kinds", r"char kind\[7\]; */\* (.*?) \*/"),
    Place(HEADER, "transports", r"char transport\[5\]; */\* (.*?) \*/"),
    Place(HEADER, "reasons", r"of `none`: (.*?) \*/"),
    Place(HEADER, "steps in capitals", r"^typedef enum siploc_step_kind \{(.*?)^}", r"^    SIPLOC_(\w+)"),
    Place("clients/tests/replies.txt", "session but quit", r"(.*)", r"^good\t(\w+)"),
    # (its head names those that it leaves out)
    Place("clients/tests/refusals.txt", "codes", r"(.*)", r"\b([A-Z]\d{1,2}|Memory|Busy)\b"),
]
TOOLS = [
    Place("tools/plain", "types", r"^KINDS = \[(.*?)\]", QUOTED),
    Place("tools/plain", "transports", r"^TRANSPORTS = \[(.*?)\]", QUOTED),
    Place("tools/plain", "families", r"^FAMILIES = \{(.*?)\}", r'"(\w+)":'),
    Place("tools/plain", "settings", r"^ALLOWED = \{(.*?)\}\n", r'"(\w+)": \w'),
    Place("tools/plain", "session", r"^class Lines:(.*?)^class Wanted", r"^    def do_(\w+)"),
    Place("tools/plain", "script", r"^class World\((.*)", r"^    def do_(\w+)"),
    Place("tools/dig.py", "types", r"^READ = \((.*?)\)", QUOTED),
    Place("tools/dig.py", "types", r"^def read_record\((.*?)^class ", QUOTED, True),
    Place("tools/follow", "types", r"^ORDER = \[(.*?)\]", QUOTED),
    Place("tools/zone_text.py", "types", r"^def print_data\((.*?)^def ", r"\b([A-Z]+)\b", True),
    Place("tools/look_page/picture.py", "types", r"^FILLS = \{(.*?)\}", r'"(\w+)":'),
    Place("tools/look_page/daemon.py", "ends of answers", r"^ENDS = \((.*?)\)", QUOTED),
    Place("tools/explain", "reasons", r"^REASONS = \{(.*?)^\}", r'^    "(\w+)":'),
    Place("tools/publish", "changes", r"^CHANGES are .*?: (.*?)\. All", r"`(\w+)`"),
    Place("tools/changelog.py", "changes", r"^_FIELDS = \{(.*?)\}", r'b"(\w+)":'),
    Place("tests/campaigns/by_chance.py", "types", r"    def record\(self(.*?)    def ", r"\b([A-Z]+)\b", True),
    Place("tests/campaigns/by_chance.py", "script", r"^class ScriptByChance(.*?)^class ", r'say\(f"(\w+)', True),
    Place("tests/campaigns/hostile", "types", r"    def record\(self(.*?)    def ", QUOTED, True),
    Place("tests/campaigns/hostile", "session but quit", r"    def edit\(self(.*?)    def world", MADE, True),
    Place("tests/campaigns/hostile", "script", r"    def world\(self(.*?)^def ", MADE, True),
    Place("tests/daemon/daemon_tests/clients.py", "not_asking", r"^def a_client_at_find.*? refused = \[(.*?)\]",
          r'"[ \\t]*(\w+)'),
    Place("bench/rows/zones", "types", r"^def customer\((.*?)^def ", r"\b([A-Z]+)\b", True),
]
CRATES = [
    Place(KEYS, "settings", r"^service_key_list =(.*?)\n\n", r'codes "(\w+)"'),
    Place(KEYS, "settings of siplocd", r"^daemon_key_list =(.*?)\n\n", r'codes "(\w+)"'),
    Place("crates/sipl_daemon/src/control.rt", "control", r"(.*)", r'^ +"(\w+)" =>'),
]
# By each row of docs/tables/places.txt the lists whose files it has.
ROWS = {"a record type": ["types", "kinds"], "a family of addresses": ["families"], "a transport": ["transports"],
        "a reason for no targets": ["reasons", "ends of answers"], "a line of a script": ["script"],
        "a line of a session": ["session", "session but quit", "session in capitals", "changes", "not_asking"],
        "a line at a control address": ["control"], "a refusal": ["codes"],
        "a setting of both programs": ["settings", "settings of siplocd"],
        "a setting of the daemon": ["settings of siplocd"]}
# The words that are spelled in the crates' src, by the row that has each file where one is; and the files where such a
# word is another one: of a listener, a step, or a control address.
SPELLED = {"a record type": "kinds", "a line of a session": "session"}
OTHER_WORDS = {"crates/sipl_process/src/listeners.rt", "crates/sipl_lines/src/step_lines.rt",
               "crates/sipl_daemon/src/control.rt"}
# By each row the files of the types whose cases are all named in definitions and proofs, which the row has.
CASES = {"a record type": ["sipl_records/src/kind.rt", "sipl_records/src/data.rt"],
         "a family of addresses": ["sipl_choice/src/families.rt"], "a transport": ["sipl_choice/src/transport.rt"],
         "a reason for no targets": ["sipl_plans/src/answer.rt"],
         "a directive of master files": ["sipl_masterfile/src/statement.rt"],
         "a line of a session": ["sipl_lines/src/command.rt", "sipl_lines/specs/Requests.antt"],
         "a line of a script": ["sipl_interleave/src/step.rt", "sipl_interleave/src/reply.rt"]}
# Each kind of list that a client or a tool may have, by how many of its words one after another are one.
SORTS = {"types": 4, "families": 3, "reasons": 3, "session": 5, "script": 5, "settings": 4, "settings of siplocd": 6}


@functools.cache
def wanted() -> dict[str, set[str]]:
    """The words of each list by its name."""
    found = lists.read()
    plain = {name: set(it) for name, it in found.items() if name not in ("settings", "codes", "refusals")}
    return {**plain, "session but quit": plain["session"] - {"quit"}, "ends of answers": plain["reasons"] | {"targets"},
            "session in capitals": {it.upper() for it in plain["session"]},
            "steps in capitals": {it.upper() for it in plain["steps"]},
            "codes": set(found["refusals"]["session"]), "settings": set(found["settings"]["siploc"]),
            "settings of siplocd": set(found["settings"]["siplocd"]),
            "steps with fields": {it for it, form in found["steps"].items() if " " in form}}


@functools.cache
def text_of(file: str) -> str:
    return (TOP / file).read_text(errors="replace")


def line_of(file: str, at: int) -> int:
    return text_of(file).count("\n", 0, at) + 1


def spans(place: Place) -> list[tuple[int, int]]:
    """Where a list is in its file."""
    return [it.span(1) for it in re.finditer(place.within, text_of(place.file), re.S | re.M)]


def words_of(place: Place) -> list[str]:
    """The words of a list, as they look in its file."""
    texts = [text_of(place.file)[begin:end] for begin, end in spans(place)[:1]]
    return [word for text in texts for it in re.finditer(place.word, text, re.M) for word in it.groups() if word]


def compared(place: Place) -> Iterator[str]:
    """What is wrong with a list."""
    found, right = set(words_of(place)), wanted()[place.name]
    if not found:
        yield f"{place.file} has no list of {place.name} where dev/list_places.py looks for it: {place.within!r}"
        return
    lacks, has = sorted(right - found), [] if place.is_least else sorted(found - right)
    what = f"{place.file}:{line_of(place.file, spans(place)[0][0])}: its list of {place.name}"
    if lacks:
        yield f"{what} lacks {', '.join(lacks)}"
    if has:
        yield f"{what} has {', '.join(has)}, which the crates do not have"


# ---- numbers of fields, and meanings


def fields_after_ok() -> dict[str, dict[str, int]]:
    """By each client how many fields come after `ok` and a command's word."""
    python = re.findall(r'^    "(\w+)": _Form\(_done\(r?f?"(.*?)"\)', text_of(PYTHON), re.M)
    body = text_of(GO + "reply.go").partition("func areCounts")[2].partition("\tdefault")[0]
    arms = re.findall(r"case (.*?):\n(?:\t\twant = (\d))?", body)
    go = {word: int(count or 0) for texts, count in arms for word in re.findall(QUOTED, texts)}
    table = re.findall(r'\{"(\w+)", (\d)\}', text_of(C).partition("words[OTHER]")[2].partition(";")[0])
    return {PYTHON: {word: form.count("{_NUMBER}") for word, form in python}, GO + "reply.go": go,
            C: {word: int(count) for word, count in table}}


def wrong_counts() -> Iterator[str]:
    right = {word: len(it["reply"].split(" ")) - 2 for word, it in lists.read()["session"].items()}
    for file, counts in fields_after_ok().items():
        for word in sorted(right):
            if counts.get(word, right[word]) != right[word]:
                yield f"{file}: `ok {word}` has {right[word]} numbers, and not {counts[word]}"


def other_meanings() -> Iterator[str]:
    """The codes whose meanings are not the same in all clients."""
    pair = re.compile(r'"([A-Z]\w*)"(?:,|:)\s+"((?:[^"\\]|\\.)+)"')
    tables = [it for it in CLIENTS if it.name == "codes" and not it.file.endswith(".txt") and spans(it)]
    found = {it.file: dict(pair.findall(text_of(it.file)[slice(*spans(it)[0])])) for it in tables}
    for file, meanings in found.items():
        for code in sorted(meanings):
            if meanings[code] != found[PYTHON].get(code, meanings[code]):
                yield f"{file}: {code} means {meanings[code]!r}, and in {PYTHON} {found[PYTHON][code]!r}"


# ---- lists that PLACES does not have


def run_of(words: Sequence[str], least: int) -> re.Pattern[str]:
    """So many of these words one after another, with nothing but marks, `or` and `and` between them."""
    one = rf"(?<!\w)(?:{'|'.join(sorted(words, key=len, reverse=True))})(?!\w)"
    return re.compile(rf"{one}(?:[^\w\n]{{1,6}}\s*(?:(?:or|and) )?[^\w\n]{{0,2}}{one}){{{least - 1},}}")


def files() -> Iterator[str]:
    """The files of clients, tools and benches, but the lists and what they are made into."""
    for folder in ("clients", "tools", "bench", "dev", "examples", "tests/campaigns", "tests/started.py"):
        at = TOP / folder
        for path in sorted(at.rglob("*")) if at.is_dir() else [at]:
            if path.is_file() and path.suffix in ("", ".py", ".go", ".c", ".h") and "list" not in path.name:
                yield str(path.relative_to(TOP))


def lists_in(file: str, name: str, least: int, known: Sequence[tuple[int, int]]) -> Iterator[int]:
    """Where a file has so many words at least of a list, one after another, outside these spans."""
    if sum(word in text_of(file) for word in wanted()[name]) < least:
        return
    for found in run_of([*wanted()[name]], least).finditer(text_of(file)):
        is_known = any(begin <= found.start() and found.end() <= end for begin, end in known)
        if not is_known and len({*re.findall(r"\w+", found[0])} & wanted()[name]) >= least:
            yield found.start()


def unknown_lists() -> Iterator[str]:
    """The lists that are not compared."""
    places = [*CLIENTS, *TOOLS]
    for file in files():
        known = [span for it in places if it.file == file for span in spans(it)]
        for name, least in SORTS.items():
            for at in lists_in(file, name, least, known):
                yield f"{file}:{line_of(file, at)} has a list of {name}, which dev/list_places.py does not compare"


def incomplete_rows() -> Iterator[str]:
    """The files that a row of places.txt lacks."""
    rows = {what: documents.files_in(text) for what, text in documents.rows_of("places")["places"][1:]}
    for what, names in ROWS.items():
        for file in dict.fromkeys(it.file for it in [*CLIENTS, *TOOLS, *CRATES] if it.name in names):
            if file not in rows.get(what, []):
                yield f"places.txt, {what}: {file} has a list of it too"


def spelled() -> Iterator[str]:
    """The files of the crates that spell a mnemonic or a command, alone or after `ok`, and that its row lacks."""
    rows = {what: documents.files_in(text) for what, text in documents.rows_of("places")["places"][1:]}
    crates = [it for it in sorted((TOP / "crates").glob("*/src/**/*.rt")) if "_tests/" not in str(it)
              and not it.is_relative_to(TOP / "crates/sipl_refused_calls")]
    for what, name in SPELLED.items():
        literal = re.compile(rf'^(?! *(?://|key: )).*b?"(?:ok | )?({"|".join(sorted(wanted()[name]))})(?: |\\n)?"', re.M)
        for file in (str(it.relative_to(TOP)) for it in crates):
            word = literal.search(text_of(file))
            if word and file not in rows[what] and file not in OTHER_WORDS:
                yield f"places.txt, {what}: {file}:{line_of(file, word.start(1))} spells {word[1]} too"


def cases_of(file: str) -> set[str]:
    """The cases of the first type of a file."""
    found = re.search(r"^pub(?:\(crate\))? (?:enum|data) .*?(?=\n\}$|\n\n)", text_of(f"crates/{file}"), re.S | re.M)
    return set(re.findall(r"^(?: {4}| {2})(\w+)(?:[(,]| [{:])", found[0] if found else "", re.M))


def imported(file: str) -> list[set[str]]:
    """The words of each import of a file of definitions or proofs."""
    return [set(re.findall(r"(?:^|, )(\w+)", it)) for it in re.findall(r"^use \S+\.\{(.*?)\}", text_of(file), re.M)]


def by_cases() -> Iterator[str]:
    """The definitions and proofs that import all cases of a type, and that its row lacks."""
    rows = {what: documents.files_in(text) for what, text in documents.rows_of("places")["places"][1:]}
    files = [str(it.relative_to(TOP)) for part in ("specs", "proofs")
             for it in sorted((TOP / "crates").glob(f"*/{part}/**/*.antt"))]
    for what, types in CASES.items():
        for cases in map(cases_of, types):
            if not cases:
                yield f"dev/list_places.py: {what}: its type has no cases where they are looked for"
            for file in files:
                if file not in rows[what] and any(cases <= words for words in imported(file)):
                    yield f"places.txt, {what}: {file} names all cases too"


def faults() -> Iterator[str]:
    """All that is wrong."""
    yield from incomplete_rows()
    yield from spelled()
    yield from by_cases()
    for place in [*CLIENTS, *TOOLS, *CRATES]:
        yield from compared(place)
    yield from wrong_counts()
    yield from other_meanings()
    yield from unknown_lists()
