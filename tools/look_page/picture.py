"""The picture of a route: the URI, the record sets that it leads through, and its targets, drawn by graphviz."""

from __future__ import annotations

import html
import re
import subprocess
from typing import Any, Iterator, NamedTuple, Optional, Sequence

import zone_text
from zone_text import Name, plain, print_data

from .daemon import Fault, Held

# How much of a set, of a list of targets and of a name is drawn, and how many seconds a drawing may take.
ROWS, TARGETS, LONGEST, SECONDS = 12, 24, 56, 10
INK, PALE, LINE, ACCENT = "#1f2d3a", "#5d6b78", "#9fadb9", "#2b5f8a"
FILLS = {"NAPTR": "#ece9f6", "SRV": "#e4eef7", "CNAME": "#f1f1ec", "A": "#e7f2ea", "AAAA": "#e7f2ea"}
Key = tuple[Name, str]


class Route(NamedTuple):
    """What is drawn: a question, the state that it rests on (if that is known), what was read, and what came of it."""
    uri: str
    state: Optional[Any]
    story: Any
    held: Sequence[Held]


class Edge(NamedTuple):
    """An edge from a node, or a row of one, to another node."""
    source: str
    to: str
    note: str
    is_light: bool

    def text(self, is_tall: bool) -> str:
        words = [f'label=" {self.note} "'] * bool(self.note) + ["style=dashed"] * self.is_light
        source = self.source.partition(":")[0] if is_tall else f"{self.source}:e"
        return f"{source} -> {self.to}{'' if is_tall else ':w'} [{', '.join(words)}];"


class Drawing:
    """The text of a graph. Everything that is from without goes through `label`."""

    def __init__(self, route: Route) -> None:
        self.route, self.told = route, route.story.told
        self.sets: list[Key] = [(name, kind) for name, kind, count in self.told.reads if count and kind != "EXISTS"]
        self.read = {(name, kind) for name, kind, _ in self.told.reads}
        self.ids = {key: f"set{place}" for place, key in enumerate(self.sets)}
        self.edges: dict[Edge, None] = {}
        self.held = {(it.transport, it.address, str(it.port)): it.left for it in route.held}
        self.out = self.left_out()
        if self.route.state is None:
            self.in_order()
        else:
            self.by_records()

    def text(self, is_tall: bool) -> str:
        """The graph from left to right, where edges leave the rows that they are of, or from the top down."""
        nodes = [*self.start(), *(self.set_node(key) for key in self.sets), *self.ends()]
        layout = "rankdir=TB; nodesep=0.15; ranksep=0.3" if is_tall else "rankdir=LR; nodesep=0.18; ranksep=0.4"
        return "\n".join([
            f"digraph {{ {layout}; bgcolor=transparent; margin=0; pad=0.05;",
            f'node [shape=plain, fontname="sans-serif", fontsize=10, fontcolor="{INK}"];',
            f'edge [color="{LINE}", arrowsize=0.6, fontname="sans-serif", fontsize=9, fontcolor="{PALE}"];',
            *nodes, *dict.fromkeys(it.text(is_tall) for it in self.edges), "}"])

    # ---- nodes

    def start(self) -> Iterator[str]:
        yield f"uri [label=<{box([cell(label(self.route.uri), bold=True, colour='white')], ACCENT, ACCENT)}>];"

    def set_node(self, key: Key) -> str:
        name, kind = key
        rows = [cell(f"{label(plain.print_name(name))}  <FONT COLOR=\"{PALE}\">{kind}</FONT>", bold=True,
                     fill=FILLS[kind], span=2)]
        if self.route.state is None:
            count = next(it[2] for it in self.told.reads if it[:2] == key)
            rows.append(cell(f"{count} record{'' if count == 1 else 's'}", span=2, colour=PALE))
        else:
            found = self.route.state.content(key)
            remarks = {"NAPTR": self.route.story.pointers, "SRV": self.route.story.servers}.get(kind)
            notes = [*map(brief, remarks(found))] if remarks else [""] * len(found)
            rows += [self.row(kind, data, note, place) for place, (data, note) in enumerate(zip(found, notes))][:ROWS]
            if len(found) > ROWS:
                rows.append(cell(f"and {len(found) - ROWS} more", span=2, colour=PALE, port="rest"))
        return f"{self.ids[key]} [label=<{box(rows, 'white', LINE, 'SOLID')}>];"

    def row(self, kind: str, data: tuple[Any, ...], note: str, place: int) -> str:
        span = 1 if note else 2
        is_used = note in ("", "chosen", "later priority") or note.endswith("%")
        colours = (INK, ACCENT) if is_used else (PALE, PALE)
        end = f"row{place}"
        text = cell(label(brief_data(kind, data)), port="" if note else end, span=span, colour=colours[0])
        return text + (cell(label(note), port=end, colour=colours[1]) if note else "")

    def ends(self) -> Iterator[str]:
        targets = [*enumerate(self.told.targets, 1)]
        for place, target in targets[:TARGETS]:
            yield self.end(f"target{place}", target, f"{place}.")
        if len(targets) > TARGETS:
            yield f"more [label=<{box([cell(f'and {len(targets) - TARGETS} more targets', colour=PALE)], 'white', LINE)}>];"
        for place, target in enumerate(self.out[:TARGETS]):
            yield self.end(f"held{place}", target, "left out")
        if self.told.reason and not self.out:
            yield f"reason [label=<{box([cell(label(f'no target: {self.told.reason}'), bold=True)], '#f7e6e4', '#b4554a')}>];"

    def end(self, node: str, target: Sequence[str], mark: str) -> str:
        transport, address, port = target
        left = self.left(target)
        rows = [cell(f'<FONT COLOR="{PALE}">{mark}</FONT>&#160; {label(transport)} {label(address)} : {label(port)}',
                     bold=True)]
        if left is not None:
            rows.append(cell(f"held for {left / 1000:.1f} s", colour="#7a5200"))
        colours = ("#fdf1d8", "#c9922b") if left is not None else ("#e7f2ea", "#4c8a5f")
        return f"{node} [label=<{box(rows, *colours)}>];"

    def left(self, target: Sequence[str]) -> Optional[int]:
        return self.held.get((target[0], target[1], target[2]))

    def kind_of(self, node: str) -> str:
        """The kind of the set that a node is of; nothing where it is another node."""
        return next((kind for (_, kind), it in self.ids.items() if it == node), "")

    def left_out(self) -> list[list[str]]:
        """The endpoints that would be targets, were they not held."""
        if self.route.state is None:
            return []
        transport, sources = self.route.state.route(plain.read_uri(self.route.uri.encode("latin-1")))
        ends = dict.fromkeys((transport, plain.print_address(address), str(port))
                             for _, _, port, addresses in sources or () for address in addresses)
        known = set(map(tuple, self.told.targets))
        return [list(it) for it in ends if it not in known and it in self.held]

    # ---- edges

    def edge(self, source: str, to: str, note: str = "", is_light: bool = False) -> None:
        self.edges[Edge(source, to, note, is_light)] = None

    def in_order(self) -> None:
        """What is known without records: the order of reading."""
        path = ["uri", *self.ids.values()]
        for source, to in zip(path, path[1:]):
            self.edge(source, to, is_light=True)
        for place in range(1, min(len(self.told.targets), TARGETS) + 1):
            self.edge(path[-1], f"target{place}", is_light=True)
        if self.told.reason:
            self.edge(path[-1], "reason", is_light=True)

    def by_records(self) -> None:
        target = plain.read_uri(self.route.uri.encode("latin-1")).target
        if target[0] == "address":
            self.to_ends("uri", lambda it: True)
            return
        self.follow("uri", target[1], "NAPTR")
        if not any(edge.source.startswith("set") and "SRV" in self.kind_of(edge.to) for edge in self.edges):
            for service in plain.SERVICES.values():
                self.follow("uri", (*service, *target[1]), "SRV")
        if not any(kind == "SRV" for _, kind in self.sets):
            self.to_addresses("uri", target[1], None)
        if self.told.reason and not self.out:
            for node in self.last_nodes():
                self.edge(node, "reason", is_light=True)

    def follow(self, source: str, name: Name, kind: str) -> None:
        """The sets from a name to the records of a kind, and where these lead."""
        path = self.path(name, kind)
        if not path:
            return
        last = self.chain(source, name, path)
        if path[-1][1] != kind:
            return
        for place, data in enumerate(self.route.state.content(path[-1])):  # type: ignore[union-attr]
            row = f"{last}:row{place}" if place < ROWS else f"{last}:rest"
            if kind == "NAPTR" and data[5] and (data[5], "SRV") in self.read:
                self.follow(row, data[5], "SRV")
            elif kind == "SRV" and data[3]:
                self.to_addresses(row, data[3], str(data[2]))

    def to_addresses(self, source: str, name: Name, port: Optional[str]) -> None:
        state = self.route.state
        for kind in state.kinds:  # type: ignore[union-attr]
            path = self.path(name, kind)
            if not path:
                continue
            last = self.chain(source, name, path)
            if path[-1][1] != kind:
                continue
            for place, data in enumerate(state.content(path[-1])):  # type: ignore[union-attr]
                address = plain.print_address(data)
                row = f"{last}:row{place}" if place < ROWS else f"{last}:rest"
                self.to_ends(row, lambda it: it[1] == address and port in (None, it[2]))

    def to_ends(self, source: str, is_its: Any) -> None:
        for place, target in enumerate(self.told.targets[:TARGETS], 1):
            if is_its(target):
                self.edge(source, f"target{place}")
        for place, target in enumerate(self.out[:TARGETS]):
            if is_its(target):
                self.edge(source, f"held{place}")

    def path(self, name: Name, kind: str) -> list[Key]:
        """The sets that a look-up goes through, of those that were read: aliases, and at last the set of the kind."""
        state = self.route.state
        state.reads = {}  # type: ignore[union-attr]
        state.answer(name, kind)  # type: ignore[union-attr]
        return [key for key in state.reads if key in self.ids and key[1] in (kind, "CNAME")]  # type: ignore[union-attr]

    def chain(self, source: str, name: Name, path: Sequence[Key]) -> str:
        """The edges along a path; the node of its end. At a wildcard the edge says which name it stands for."""
        at = name
        for key in path:
            self.edge(source, self.ids[key], "wildcard" if key[0] != at else "")
            source = f"{self.ids[key]}:row0" if key[1] == "CNAME" else self.ids[key]
            if key[1] == "CNAME":
                at = self.route.state.content(key)[0]  # type: ignore[union-attr]
        return self.ids[path[-1]]

    def last_nodes(self) -> list[str]:
        """The nodes that lead nowhere."""
        left = {edge.source.partition(":")[0] for edge in self.edges}
        return [node for node in ("uri", *self.ids.values()) if node not in left]


def brief(remark: str) -> str:
    """A remark of tools/explain in fewer words."""
    share = re.fullmatch(r"first in (.* %) of the draws", remark)
    return share[1] if share else {"chosen: the first that applies": "chosen", "comes later": "later",
                                   "after those of lesser priority": "later priority"}.get(remark, remark)


def brief_data(kind: str, data: tuple[Any, ...]) -> str:
    """The data of a record; of a NAPTR record what a route reads of it."""
    if kind == "SRV":
        return f"{data[0]}  {data[1]}  {plain.print_name(data[3])}" + (f" : {data[2]}" if data[3] else "")
    if kind == "NAPTR" and not data[4]:
        return f"{data[0]}  {data[1]}  {zone_text.print_string(data[3])} {plain.print_name(data[5])}"
    return print_data(kind, data)


def label(text: str) -> str:
    """A text from without, as part of a label; a long one has its middle left out."""
    short = text if len(text) <= LONGEST else f"{text[:LONGEST // 2]} .. {text[-LONGEST // 2:]}"
    return html.escape("".join(it if it.isprintable() else "?" for it in short))


def cell(text: str, *, bold: bool = False, colour: str = INK, fill: str = "", port: str = "", span: int = 1) -> str:
    words = f' BGCOLOR="{fill}"' * bool(fill) + f' PORT="{port}"' * bool(port) + f' COLSPAN="{span}"' * (span > 1)
    text = f"<B>{text}</B>" if bold else text
    return f'<TD ALIGN="LEFT" BORDER="0"{words}><FONT COLOR="{colour}">{text}</FONT></TD>'


def box(rows: Sequence[str], fill: str, border: str, style: str = "ROUNDED") -> str:
    lines = "".join(f"<TR>{it}</TR>" for it in rows)
    return (f'<TABLE BORDER="1" CELLBORDER="0" CELLSPACING="0" CELLPADDING="5" COLOR="{border}" BGCOLOR="{fill}" '
            f'STYLE="{style}">{lines}</TABLE>')


def draw(route: Route) -> tuple[str, str]:
    """The picture from left to right, and from the top down for narrow windows."""
    drawing = Drawing(route)
    return svg(drawing.text(False), 860), svg(drawing.text(True), 520)


def svg(graph: str, least: int) -> str:
    """A graph as SVG, without what comes before its element; of the class `large` where it is wider than so many
    pixels, to which a window may shrink it."""
    try:
        done = subprocess.run(["dot", "-Tsvg"], input=graph.encode(), capture_output=True, timeout=SECONDS, check=False)
    except FileNotFoundError:
        raise Fault("there is no picture: graphviz is not installed") from None
    except subprocess.TimeoutExpired:
        raise Fault("there is no picture: it would be too large") from None
    found = re.search(r'<svg width="([0-9]+)pt".*</svg>', done.stdout.decode(), re.S)
    if done.returncode or not found:
        raise Fault("there is no picture: graphviz can't draw it")
    text = found[0].replace("<svg", '<svg class="large"', 1) if int(found[1]) * 4 / 3 > least else found[0]
    # Titles of nodes are those of this program's own ids, which tell nobody anything.
    return re.sub(r"<title>.*?</title>\n?|<!--.*?-->\n?", "", text, flags=re.S)

