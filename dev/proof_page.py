"""The page of `dev/definitions --page`: what is proved in plain words, each sentence with its clause, each clause
with the definitions that it cites, and each definition with what it rests on and the wrong bodies that it refuses."""

from __future__ import annotations

import collections
import html
import pathlib
import re

import definition_graph as graph
from crate_text import CRATES
from documents import rows_of

STYLE = """
:root { --ink: #1c2430; --pale: #5b6675; --line: #d8dee6; --mark: #fff3c4; --link: #0b57a4; --back: #fbfcfd; }
@media (prefers-color-scheme: dark) {
  :root { --ink: #dfe5ec; --pale: #9aa6b5; --line: #333d4a; --mark: #4a4014; --link: #7db7f0; --back: #14191f; } }
* { box-sizing: border-box; }
body { margin: 0 auto; padding: 1rem; max-width: 62rem; font: 1rem/1.5 system-ui, sans-serif; color: var(--ink);
       background: var(--back); overflow-wrap: anywhere; }
a { color: var(--link); text-decoration-thickness: 1px; text-underline-offset: 4px; }
h1 { font-size: 1.6rem; margin: .5rem 0; } h2 { font-size: 1.25rem; margin: 2rem 0 .5rem; }
h3 { font-size: 1rem; margin: 0; font-family: ui-monospace, monospace; }
section { border-top: 1px solid var(--line); padding: .8rem 0; } pre { scroll-margin-top: 4.5rem; }
section:target, pre:target { background: var(--mark); }
section:target { box-shadow: -.5rem 0 var(--mark), .5rem 0 var(--mark); }
pre { margin: .4rem 0; padding: .6rem; overflow-x: auto; border: 1px solid var(--line); border-radius: .3rem;
      font: .85rem/1.45 ui-monospace, monospace; overflow-wrap: normal; }
p { margin: .3rem 0; } .pale { color: var(--pale); font-size: .9rem; } ol li { margin: .5rem 0; }
ul { margin: .3rem 0; padding-left: 1.2rem; } code { font: .9em ui-monospace, monospace; }
@media (max-width: 32rem) { pre { font-size: .75rem; padding: .4rem; } ol { padding-left: 1.8rem; } }
"""
ABOUT = """The sentences below are the headlines. Each leads to its clause as it is in the code, each clause to the
definitions that it cites, and each definition to what it rests on, down to lists and numbers. Beside them are the
wrong bodies that are refused there: changes of a right body that the prover has to refuse, each named by what it does.
Written from the crates by <code>dev/definitions --page</code>."""
NOTES = """How to read them: numbers have no bound, and <code>-</code> stops at 0. A text is a list of octets; a name is
the list of its labels, that next to the root last. <code>elim x [ A ↦ b | C ↦ d ]</code> is a match. A
<code>record</code> of facts means that all of them hold. <code>×</code> is "and", <code>⊎</code> "or", <code>→</code>
"implies" or a function, <code>⊥</code> what never holds. <code>old</code> and <code>new</code> are a value before and
after a call, <code>now</code> one that the call does not change."""


# What all ends at.
BASIC = {
    "ℕ": "a number from 0 on, without bound", "ℤ": "a whole number, without bound", "Bool": "`true` or `false`",
    "List": "a list: `[]`, or `a ∷ as` with its first item; `++` joins two", "Option": "`Some` of a value, or `None`",
    "Result": "`Ok` of a value, or `Err` of one", "Unit": "one value, which says nothing",
    "Type": "what values have, and what facts are",
    "Vec": "a list, as Rust keeps it", "String": "a list of octets that are UTF-8, as Rust keeps it",
}


def anchor(*parts: str) -> str:
    return html.escape("-".join(parts).replace("::", ".").replace("/", "."), quote=True)


def prose(text: str) -> str:
    """A sentence, in which words in backticks are code."""
    return re.sub("`([^`]*)`", r"<code>\1</code>", html.escape(text))


def linked(text: str, keys: dict[str, str]) -> str:
    """A text whose words lead to what they are."""
    out, at = [], 0
    for match in graph.TOKEN.finditer(text):
        out.append(html.escape(text[at:match.start()]))
        word = html.escape(match[0])
        to = anchor(keys[match[0]]) if match[0] in keys else anchor("basic", match[0]) if match[0] in BASIC else ""
        out.append(f'<a href="#{to}">{word}</a>' if to else word)
        at = match.end()
    return "".join([*out, html.escape(text[at:])])


def words_of(path: pathlib.Path, text: str, cites: list[str]) -> dict[str, str]:
    """By the words of a text of a file what they are, of what it cites."""
    found = ((word, graph.local(path, word)) for word in dict.fromkeys(graph.TOKEN.findall(text)))
    return {word: key for word, key in found if key in cites}


class Page:
    """What the page has."""

    def __init__(self) -> None:
        self.harms = {edit: harm for harm, edits in rows_of("harms")[""] for edit in edits.split()}
        self.sentences = [(it[0], it[1].split()) for it in rows_of("headlines")[""]]
        self.refused: dict[str, list[str]] = collections.defaultdict(list)
        self.of_function: dict[tuple[pathlib.Path, str], list[str]] = collections.defaultdict(list)
        self.order = graph.closure([key for _, (file, function, *names) in self.sentences
                                    for _, _, cites in self.clauses(file, function, names) for key in cites])
        self.cited_by: dict[str, list[str]] = collections.defaultdict(list)
        for key in self.order:
            for it in graph.DEFINITIONS[key].cites:
                self.cited_by[it].append(key)
        for edit, path, function in graph.edits():
            name = f"{edit.parent.parent.name}/{edit.parent.name}/{edit.stem}"
            self.of_function[path, function].append(name)
            cited = (it for _, text in graph.clauses(path, function) for it in graph.cited_by_text(path, text))
            for key in filter(self.is_ours, dict.fromkeys(cited)):
                self.refused[key].append(name)

    @staticmethod
    def is_ours(key: str) -> bool:
        return graph.DEFINITIONS[key].path.is_relative_to(CRATES)

    @staticmethod
    def clauses(file: str, function: str, names: list[str]) -> list[tuple[str, str, list[str]]]:
        """The named clauses of a function, or all; with what each cites."""
        path = CRATES / file
        found = [(name, text, graph.cited_by_text(path, text)) for name, text in graph.clauses(path, function)]
        missing = set(names) - {name for name, _, _ in found}
        if missing:
            raise SystemExit(f"headlines.txt: {file} {function} has no clause {', '.join(missing)}")
        return [it for it in found if it[0] in names or not names]

    def edits(self, names: list[str]) -> str:
        """Wrong bodies as a list."""
        rows = []
        for it in names:
            crate, _, edit = it.split("/")
            about = ": ".join(filter(None, (crate, self.harms.get(it))))
            rows.append(f"<li>{html.escape(edit.replace('_', ' '))} <span class=pale>({html.escape(about)})</span></li>")
        what = f"Wrong bodies that are refused here: {len(names)}"
        return f"<details><summary class=pale>{what}</summary><ul>{''.join(rows)}</ul></details>" if rows else ""

    def headline(self) -> str:
        rows = [f'<li>{html.escape(sentence)} <a href="#{anchor(file, function, *names[:1])}">'
                f"{html.escape(', '.join(filter(None, [function, ' and '.join(names)])))}</a></li>"
                for sentence, (file, function, *names) in self.sentences]
        return f"<h2>What is proved</h2><ol>{''.join(rows)}</ol>"

    def contracts(self) -> str:
        """The contracts of the headlines, each function once."""
        out = []
        for file, function in dict.fromkeys((it[0], it[1]) for _, it in self.sentences):
            path = CRATES / file
            names = [name for _, it in self.sentences if it[:2] == [file, function] for name in it[2:]]
            found = self.clauses(file, function, names)
            texts = "".join(f'<pre id="{anchor(file, function, name or "clause")}">'
                            f"{linked(text, words_of(path, text, cites))}</pre>" for name, text, cites in found)
            out.append(f'<section id="{anchor(file, function)}"><h3>{html.escape(function)}</h3>'
                       f"<p class=pale>crates/{html.escape(file)}</p>{texts}"
                       f"{self.edits(self.of_function[path, function])}</section>")
        return f"<h2>Clauses</h2>{''.join(out)}"

    def links(self, what: str, keys: list[str]) -> str:
        rows = [f'<a href="#{anchor(it)}">{html.escape(graph.DEFINITIONS[it].word)}</a>' for it in keys]
        return f"<p class=pale>{what}: {', '.join(rows)}</p>" if rows else ""

    def definition(self, key: str) -> str:
        it = graph.DEFINITIONS[key]
        text = "\n".join(it.lines)
        return (f'<section id="{anchor(key)}"><h3>{html.escape(it.word)}</h3>'
                f"<p>{prose(it.comment)}</p><pre>{linked(text, words_of(it.path, text, it.cites))}</pre>"
                f"{self.links('Rests on', it.cites)}{self.links('Cited by', self.cited_by[key])}"
                f"{self.edits(self.refused[key])}"
                f"<p class=pale>{html.escape(graph.relative(it.path))}:{it.line}</p></section>")

    @staticmethod
    def basic() -> str:
        """What all ends at."""
        rows = [f'<section id="{anchor("basic", word)}"><h3>{html.escape(word)}</h3>'
                f"<p>{prose(meaning)}</p></section>" for word, meaning in BASIC.items()]
        return f"<h2>Lists and numbers</h2>{''.join(rows)}"

    def text(self) -> str:
        ours = [it for it in self.order if self.is_ours(it)]
        kit = [it for it in self.order if not self.is_ours(it)]
        return (f'<!DOCTYPE html><html lang="en"><head><meta charset="utf-8"><title>siploc: what is proved</title>'
                f'<meta name="viewport" content="width=device-width, initial-scale=1"><style>{STYLE}</style></head>'
                f"<body><h1>siploc: what is proved</h1><p>{ABOUT}</p><p class=pale>{NOTES}</p>"
                f"{self.headline()}{self.contracts()}"
                f"<h2>Definitions</h2>{''.join(map(self.definition, ours))}"
                f"<h2>Of the kit</h2>{''.join(map(self.definition, kit))}{self.basic()}</body></html>\n")


def write(path: str) -> None:
    """Writes the page."""
    try:
        pathlib.Path(path).write_text(Page().text())
    except OSError as fault:
        raise SystemExit(f"dev/definitions: {path}: {fault.strerror}") from None
