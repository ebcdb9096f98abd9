"""The codes of the crates' faults, with their messages, as dev/definitions reads them."""

from __future__ import annotations

import functools
import re

from crate_text import CRATES


@functools.cache
def sources() -> list[str]:
    """The texts of the crates' code, without their tests."""
    paths = sorted(CRATES.glob("*/src/**/*.rt"))
    return [it.read_text() for it in paths if "tests" not in str(it.relative_to(CRATES))]


@functools.cache
def declaration(name: str) -> str:
    """The body of a public enum or struct; nothing where there is none."""
    found = (re.search(rf"^pub (?:enum|struct) {name}\b.*?^\}}", text, re.S | re.M) for text in sources())
    return next((it.group() for it in found if it), "")


def has_memory(fault: str) -> bool:
    """Whether a type of faults has one for an allocation failure, also within another fault."""
    body = declaration(fault)
    inner = set(re.findall(r"\b\w*(?:Fault|Cause)\b", body)) - {fault}
    return fault == "AllocError" or bool(re.search(r"^ +Memory,", body, re.M)) or any(map(has_memory, inner))


def codes_of(fault: str) -> list[str]:
    """The codes of a type of faults, without those of other faults within it; its name where it has none."""
    body = next((it for text in sources() for it in re.findall(rf"^impl {fault} \{{.*?^\}}", text, re.S | re.M)), "")
    return re.findall(r'=> "(\w+)"', body) or [f"`{fault}`"] * (fault != "AllocError")


@functools.cache
def messages() -> dict[str, str]:
    """Each code with its message: that of the variant whose `code()` it is."""
    found: dict[str, str] = {}
    for text in sources():
        impls = re.findall(r"^impl (\w+) \{\n(.*?)^\}", text, re.S | re.M)
        bodies = [(fault, body) for fault, body in impls if "fn code(" in body]
        for code, message in (it for fault, body in bodies for it in messages_of(fault, body, text)):
            if found.setdefault(code, message) != message:
                raise SystemExit(f"{code} has two messages: {found[code]}; {message}")
        for variant, name in re.findall(r'Reason::(\w+) => "(\w+)"', text):
            comment = re.findall(rf"/// (.*)\n    {variant},", declaration("Reason"))[0].rstrip(".")
            found[name] = comment[0].lower() + comment[1:]
    return found


def messages_of(fault: str, body: str, text: str) -> list[tuple[str, str]]:
    """The codes of a type of faults, whose `impl` has this body, with their messages."""
    own = re.search(rf'#\[error\("(.*?)"\)\]\npub struct {fault}\b', text)
    if own:
        return [(code, own.group(1)) for code in re.findall(r'"(\w+)"', body)]
    found = re.findall(r'#\[error\("(.*?)"\)\]\n +(\w+)', declaration(fault))
    errors = {variant: message for message, variant in found}
    pairs = re.findall(rf'{fault}::(\w+)\b.*? => "(\w+)"', body)
    for variant, _ in pairs:
        if variant not in errors:
            raise SystemExit(f"{fault}::{variant} has a code, and no `#[error(..)]`")
    return [(code, re.sub(r"\{\w*\}", "..", errors[variant])) for variant, code in pairs]
