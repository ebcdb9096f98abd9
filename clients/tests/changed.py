#!/usr/bin/env python3
"""Prints rows as those of replies.txt: its replies and refusals, with each octet of them changed in turn.

    clients/tests/changed.py

What a row is, is judged here by a plain reading of docs/use/FORMATS.md, apart from those of the clients. Of a name it
only asks that it is printable, and of a code that it is a capital, and letters and digits.
"""
import json
import pathlib
import re
import sys
from typing import Iterator, List, Sequence

HERE = pathlib.Path(__file__).resolve().parent
sys.path.insert(0, str(HERE.parent.parent / "tools"))
import usage  # noqa: E402

ESCAPES = {"n": "\n", "r": "\r", "\\": "\\"}
# What comes after `ok` and a command's word: so many numbers.
COUNTS = {"zone": 4, "drop": 1, "add": 1, "del": 1, "find": 1, "deps": 1, "repair": 0, "page": 2, "hold": 0,
          "release": 0, "clock": 1, "call": 0, "got": 0, "broke": 0}
CALLS = ("clock", "call", "got", "broke")
LISTS = json.loads((HERE.parent / "lists.json").read_text())


def is_number(text: str, bits: int = 64, least: int = 0) -> bool:
    """Whether a text is a number as replies have them: decimal digits without leading zeros."""
    return re.fullmatch("[0-9]{1,20}", text) is not None and str(int(text)) == text and least <= int(text) < 1 << bits


def is_address(text: str) -> bool:
    """Whether a text is a printed address."""
    if "." in text:
        return text.count(".") == 3 and all(is_number(it, 8) for it in text.split("."))
    groups = text.split(":")
    return len(groups) == 8 and all(re.fullmatch("0|[1-9a-f][0-9a-f]{0,3}", it) for it in groups)


def is_target(fields: Sequence[str]) -> bool:
    """Whether fields are a transport, an address and a port."""
    return len(fields) == 3 and fields[0] in LISTS["transports"] and is_address(fields[1]) and is_number(fields[2], 16)


def is_set(fields: Sequence[str]) -> bool:
    """Whether fields are the name and the kind of a record set."""
    return len(fields) == 2 and re.fullmatch("[!-~]+", fields[0]) is not None and fields[1] in LISTS["kinds"]


def is_step(fields: List[str]) -> bool:
    """Whether fields are a step of a call."""
    word, *rest = fields
    if word == "send":
        return len(rest) == 5 and is_number(rest[0], 32, 1) and is_target(rest[1:4]) and re.fullmatch(
            r"z9hG4bK[0-9a-f]{16}\." + rest[0], rest[4]) is not None
    if word in ("resend", "ack"):
        return len(rest) == 1 and is_number(rest[0], 32, 1)
    if word == "hold":
        return len(rest) == 4 and is_target(rest[:3]) and is_number(rest[3])
    if word == "deliver":
        return len(rest) == 1 and is_number(rest[0], 16) and 100 <= int(rest[0]) <= 699
    return fields == ["exhausted"]


def is_body(word: str, place: int, fields: List[str]) -> bool:
    """Whether a line may be the one of this number, counted from 1, before the last of a reply."""
    if word == "find":
        return fields[:2] == ["target", str(place)] and is_target(fields[2:])
    if word == "deps":
        return len(fields) == 4 and fields[0] == "dep" and is_set(fields[1:3]) and is_number(fields[3])
    return word in CALLS and is_step(fields)


def refused(word: str, before: int, fields: List[str]) -> str:
    """The code of a last line that begins with `err`, with so many lines before it; or `bad`."""
    has_set = word in ("find", "call") and fields[1:2] == ["L1"]
    if has_set and not is_set(fields[2:]):
        return "bad"
    if word == "zone" and fields[1:2] == ["zone"] and len(fields) == 4 and is_number(fields[2], least=1):
        fields = ["err", fields[3]]
    is_code = len(fields) == (4 if has_set else 2) and re.fullmatch("[A-Z][A-Za-z0-9]{0,31}", fields[1])
    return fields[1] if is_code and (not before or word in CALLS and word != "call") else "bad"


def ends(word: str, before: int, fields: List[str]) -> str:
    """What a last line makes of a reply, with so many lines before it."""
    if fields[0] == "err":
        return refused(word, before, fields)
    if fields[0] == "none":
        is_reason = len(fields) == 2 and fields[1] in LISTS["reasons"]
        return "good" if is_reason and word in ("find", "call") and not before else "bad"
    numbers = fields[2:]
    if fields[:2] != ["ok", word] or COUNTS.get(word) != len(numbers) or not all(is_number(it) for it in numbers):
        return "bad"
    if word in ("find", "deps") and (int(numbers[0]) != before or word == "find" and not before):
        return "bad"
    return "good"


def judge(command: str, reply: str) -> str:
    """What a reply to a command is."""
    word, place = command.split(" ")[0].split("\n")[0], 0
    *lines, rest = reply.split("\n")
    for place, line in enumerate(lines, 1):
        fields = line.split(" ")
        if line.startswith(("ok", "none", "err")):
            kind = ends(word, place - 1, fields)
            is_whole = place == len(lines) and not rest
            return kind if is_whole else "bad"
        if not is_body(word, place, fields):
            return "bad"
    return "half" if reply else "lost"


def unescaped(text: str) -> str:
    """The octets of a field of replies.txt, a character each."""
    return re.sub(r"\\(n|r|\\|x[0-9a-f]{2})", lambda it: ESCAPES.get(it[1]) or chr(int(it[1][1:], 16)), text)


def escaped(text: str) -> str:
    """The field of replies.txt that has these octets."""
    names = {"\n": "\\n", "\\": "\\\\"}
    return "".join(names.get(it) or (it if " " <= it <= "~" else f"\\x{ord(it):02x}") for it in text)


def changed(reply: str) -> Iterator[str]:
    """A reply with each of its octets changed in turn: in a bit, or to one that has a meaning."""
    for place, octet in enumerate(reply):
        for other in sorted({chr(ord(octet) ^ 1), chr(ord(octet) ^ 32), *"01 \n\r\0\xe9"} - {octet}):
            yield reply[:place] + other + reply[place + 1:]


def main() -> int:
    usage.words(0)
    for row in (HERE / "replies.txt").read_text().splitlines():
        kind, *fields = row.split("\t")
        if row.startswith("#"):
            continue
        command, reply = (unescaped(it) for it in fields)
        if judge(command, reply) != kind:
            print(f"{row}: it is read as {judge(command, reply)}", file=sys.stderr)
            return 1
        if kind in ("bad", "half", "lost"):
            continue
        for other in changed(reply):
            print(judge(command, other), fields[0], escaped(other), sep="\t")
    return 0


if __name__ == "__main__":
    sys.exit(main())
