"""Types of records, commands, replies, settings and codes: what clients and tools have lists of, as the program has it.

`read` takes it from the crates, and the fields of lines from docs/tables/lines.txt, whose words and numbers of fields
are checked against the crates. dev/definitions writes it to clients/lists.json, an object of these:

    types        the types of records that are read, and `kinds` those that a `dep` line may have
    transports   those of targets; `families` and `held`, values of settings; `reasons`, those of `none REASON`
    session      by each command its line and the last line of its reply, `before` those that come before it, and
                 `none` where that may be the reply; `script` and `control`, the same of scripts and control addresses
    steps        the lines of a call's steps
    changes      the commands that change zones, holds or the time, and `not_asking` those that are refused at `find`
    settings     the keys of `siploc` and of `siplocd`
    codes        each code with its message, and `refusals` those that a session, and only a script, may reply
"""

from __future__ import annotations

import functools
import json
import re
import textwrap
from typing import Any, Optional, Sequence

import documents
from crate_text import TOP
from documents import text_of
from fault_codes import codes_of, messages

PATH = TOP / "clients/lists.json"
# The types of faults whose codes a session replies, beside those of a book and of a service that lines.txt names.
FAULTS = ["InvalidName", "ZoneCause", "UriFault", "AddressFault", "DrawsFault", "FailoverFault", "StoreFault",
          "BoardFault", "DeskFault", "ConnectionFault"]
CODE = r"\b(?:[A-Z][0-9]+|Memory)\b"


def words(file: str, pattern: str, *within: str) -> list[str]:
    """The words that a pattern finds in a file or a folder of the crates: in what the other patterns find."""
    text = text_of(file)
    for it in within:
        found = re.search(it, text, re.S | re.M)
        if not found:
            raise SystemExit(f"dev/lists.py: crates/{file} has no {it}")
        text = found[1]
    return [*dict.fromkeys(re.findall(pattern, text, re.M))]


def command_words(file: str, within: str) -> list[str]:
    """The words of the session's commands that a file of the crates names in what a pattern finds."""
    return [it.lower() for it in words(file, r"\bCommandWord::(\w+)", within)]


def forms(cell: str) -> list[str]:
    """What a cell of lines.txt has in backticks."""
    return re.findall(r"`([^`]+)`", cell)


def commands(name: str) -> dict[str, dict[str, str]]:
    """The commands of a table of lines.txt: their lines and replies, some of which are those of `find` and `page`."""
    found: dict[str, dict[str, str]] = {}
    for line, reply, *_ in documents.rows_of("lines")[name][1:]:
        word, parts = forms(line)[0].split(" ")[0], forms(reply)
        same = "find" if "find" in parts else word if "as of a session" in reply else ""
        if same and name != "session":
            found[word] = {**commands("session")[same], "line": forms(line)[0]}
            continue
        last = [it for it in parts if it.split(" ")[:2] == ["ok", word]]
        if not last:
            raise SystemExit(f"lines.txt: {name}: {word} has no reply")
        others = [it for it in parts if re.match(rf"(?!err|none|ok|{word}\b)[a-z]+ [A-Z]", it)]
        before = others[:1] or ["steps"] * reply.startswith("steps")
        found[word] = {"line": forms(line)[0], "reply": last[0], **({"before": before[0]} if before else {}),
                       **({"none": "none REASON"} if "none REASON" in parts else {})}
    return found


def numbers_after(word: str) -> Optional[int]:
    """How many numbers follow `ok WORD` in the crates, where nothing else does."""
    texts = re.findall(rf"CommandWord::{word.capitalize()},\s+&\[([^\]]*)\]", text_of("sipl_lines/src"))
    counts = {len([it for it in text.split(",") if it.strip()]) for text in texts}
    return counts.pop() if len(counts) == 1 else None


def check_replies(found: dict[str, dict[str, str]]) -> None:
    """Refuses a reply of lines.txt that has not as many fields as the crates write."""
    for word, it in found.items():
        count = numbers_after(word)
        if count is not None and len(it["reply"].split(" ")) - 2 != count:
            raise SystemExit(f"lines.txt: {it['reply']}, and the crates write {count} numbers")


def codes_in(cells: Sequence[str]) -> set[str]:
    """The codes that cells of lines.txt name, with those of `N1 to N4`."""
    text = " ".join(cells)
    between = {f"{letter}{it}" for letter, first, last in re.findall(r"\b([A-Z])([0-9]+) to \1([0-9]+)\b", text)
               for it in range(int(first), int(last) + 1)}
    return between | set(re.findall(CODE, text))


def codes() -> dict[str, str]:
    """Each code of dev/codes.txt, which has those of the crates, with the message of the crates, if there is one."""
    known = messages()
    text = (TOP / "dev/codes.txt").read_text().partition("\n== Reasons\n")[0]
    return {code: known.get(code, "") for code in re.findall(r"^(\w+) \| ", text, re.M)}


def refusals() -> dict[str, list[str]]:
    """The codes of a session, and those that a script alone has."""
    tables = documents.rows_of("lines")
    own = {"Memory", *(it for fault in FAULTS for it in codes_of(fault)), *words("sipl_lines/src", r'"(K[0-9])"')}
    session = own | codes_in([row[1] for row in tables["refusals"][1:]])
    script = codes_in([row[2] for row in tables["script"][1:]]) - session
    documents.refuse("lines.txt, codes", set(), (session | script) - set(codes()))
    return {"session": [it for it in codes() if it in session], "script": [it for it in codes() if it in script]}


@functools.cache
def read() -> dict[str, Any]:
    """All lists."""
    kinds = words("sipl_records/src/kind.rt", r'Kind::\w+ => "(\w+)"')
    own, shared = sorted(documents.keys_of("siplocd")), sorted(documents.keys_of("siploc"))
    found = {
        "types": [it for it in kinds if it != "EXISTS"], "kinds": kinds,
        "transports": words("sipl_choice/src/transport.rt", r'Transport::\w+ => "(\w+)"'),
        "families": words("sipl_lines/specs/Values.antt", r'codes "(\w+)"', r"^families_named word =\n(.*?)\n\n"),
        "held": words("sipl_lines/specs/Values.antt", r'codes "(\w+)"', r"^held_named word =\n(.*?)\n\n"),
        "reasons": words("sipl_plans/src/answer.rt", r'Reason::\w+ => "(\w+)"'),
        "session": commands("session"), "script": commands("script"), "control": commands("control"),
        "steps": {form.split(" ")[0]: form for it in documents.rows_of("lines")["steps"][1:] for form in forms(it[0])},
        "changes": command_words("sipl_lines/src/command_lines.rt", r"fn is_edit\((.*?^}.*?)^}"),
        "not_asking": command_words("sipl_lines/src/command.rt", r"fn needs_rights\((.*?)^    }"),
        "settings": {"siploc": shared, "siplocd": sorted({*own, *shared} - {"sessions"})},
        "codes": codes(), "refusals": refusals(),
    }
    check_replies(found["session"])
    steps = words("sipl_lines/specs/Calls.antt", r'codes "(\w+)"', r"^(send_line .*?)^steps_text")
    documents.refuse("lines.txt, steps", set(steps), set(found["steps"]))
    return found


def printed(value: Any, indent: str = " ") -> str:
    """A value as JSON, whose objects have a line for each key, and whose lists are folded."""
    if isinstance(value, list):
        inner = textwrap.wrap(", ".join(map(json.dumps, value)), 116, break_long_words=False)
        return "[" + f"\n{indent} ".join(inner) + "]"
    if isinstance(value, dict) and "line" not in value:
        lines = [f"{indent}{json.dumps(key)}: {printed(it, indent + ' ')}" for key, it in value.items()]
        return "{\n" + ",\n".join(lines) + f"\n{indent[1:]}}}"
    return json.dumps(value, ensure_ascii=False)


def text() -> str:
    """The text of clients/lists.json."""
    return printed(read()) + "\n"
