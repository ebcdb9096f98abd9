"""The plot of the last minutes' rates: its curves as SVG, which a page stretches, and the words beside them."""

from __future__ import annotations

import math
from typing import Iterator, NamedTuple, Optional, Sequence

from markupsafe import Markup

from .daemon import KEPT, PAUSE, Rate

WIDTH, HEIGHT, SPAN = 1000, 100, KEPT * PAUSE


class Curve(NamedTuple):
    """One of the curves: its class in the style sheet, and what it is called."""
    name: str
    text: str


class Plot(NamedTuple):
    """The curves, and the words at the left from the top down, and below from the left on."""
    curves: Markup
    ticks: list[str]
    times: list[str]


CURVES = [Curve("found", "answers with targets"), Curve("empty", "answers without a target"),
          Curve("changes", "changes")]


def ceiling(value: float) -> float:
    """The least of 1, 2, 5, 10, 20 .. that is not less."""
    if value <= 1:
        return 1
    power = 10 ** math.floor(math.log10(value))
    return next(it * power for it in (1, 2, 5, 10) if it * power >= value)


def runs(rates: Sequence[Optional[Rate]]) -> Iterator[list[Rate]]:
    """The rates that follow one another without a gap."""
    found: list[Rate] = []
    for rate in [*rates, None]:
        if rate is not None:
            found.append(rate)
        elif found:
            yield found
            found = []


def number(value: float) -> str:
    return f"{value:,.0f}" if value == int(value) else f"{value:.1f}"


def plot(rates: Sequence[Optional[Rate]], now: float) -> Plot:
    most = ceiling(max([it for rate in rates if rate for it in rate[1:]], default=0))

    def point(rate: Rate, value: float) -> str:
        return f"{WIDTH * max(0.0, 1 - (now - rate.at) / SPAN):.1f},{HEIGHT * (1 - value / most):.2f}"

    parts = [f'<svg viewBox="0 0 {WIDTH} {HEIGHT}" preserveAspectRatio="none" role="img" aria-label="rates">']
    parts += [f'<line class="grid" x1="0" x2="{WIDTH}" y1="{it}" y2="{it}"/>' for it in (0, HEIGHT // 2, HEIGHT)]
    for place, curve in reversed([*enumerate(CURVES, 1)]):
        for run in runs(rates):
            points = " ".join(point(it, it[place]) for it in run)
            parts.append(f'<polyline class="curve {curve.name}" points="{points}"/>')
    times = [f"−{it} min" for it in range(int(SPAN) // 60, 0, -2)]
    return Plot(Markup("".join([*parts, "</svg>"])), [number(most), number(most / 2), "0"], [*times, "now"])
