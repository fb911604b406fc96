#!/usr/bin/env python3
"""Draws what bench/scale.sh measured: plots.py RESULTS DOCS

RESULTS has a file SITES.tsv for each size, as the program of bench/scale prints it. DOCS gets scale_requests.svg,
scale_tops.svg, scale_memory.svg and scale_waits.svg.
"""
from __future__ import annotations

import dataclasses
import html
import math
import pathlib
import sys

sys.dont_write_bytecode = True
sys.path.insert(0, str(pathlib.Path(__file__).resolve().parent))
from results import CLASSES, LEVELS, NAMES, Result, read_all  # noqa: E402

WIDTH, HEIGHT = 380, 300
LEFT, TOP, BOTTOM, RIGHT = 70, 44, 52, 20
LEGEND = 26
FONT = 'font-family="DejaVu Sans, Verdana, sans-serif"'
COLOURS = {"root": "#a02020", "region": "#d08000", "member": "#208040", "ms": "#2050a0", "none": "#909090"}
# The parts of a bar, from below.
KEYS = ["none", *reversed(LEVELS)]
DASHES = {"small": "", "large": ' stroke-dasharray="6 4"'}


def text(x: float, y: float, words: str, anchor: str = "middle", size: int = 12, more: str = "") -> str:
    place = f'x="{x:.1f}" y="{y:.1f}" text-anchor="{anchor}" font-size="{size}"'
    return f"<text {place} {FONT}{more}>{html.escape(words)}</text>"


def line(x1: float, y1: float, x2: float, y2: float, colour: str = "#cccccc", more: str = "") -> str:
    return f'<line x1="{x1:.1f}" y1="{y1:.1f}" x2="{x2:.1f}" y2="{y2:.1f}" stroke="{colour}"{more}/>'


def short(value: float) -> str:
    """A number of an axis."""
    for unit, name in ((1e6, "M"), (1e3, "k")):
        if value >= unit:
            return f"{value / unit:g} {name}"
    return f"{value:g}"


@dataclasses.dataclass
class Curve:
    name: str
    colour: str
    dashes: str
    points: list[tuple[float, float]]


@dataclasses.dataclass
class Panel:
    """A plot with logarithmic axes: what it shows, and its curves over the number of sites."""

    title: str
    label: str
    curves: list[Curve]

    def draw(self, left: float) -> list[str]:
        xs = [x for curve in self.curves for x, _ in curve.points]
        ys = [y for curve in self.curves for _, y in curve.points if y > 0]
        low, high = math.floor(math.log10(min(ys))), math.ceil(math.log10(max(ys)))
        high = max(high, low + 1)
        first, last = math.log10(min(xs)), max(math.log10(max(xs)), math.log10(min(xs)) + 1)
        x0, x1, y0, y1 = left + LEFT, left + WIDTH - RIGHT, HEIGHT - BOTTOM, TOP

        def at(x: float, y: float) -> tuple[float, float]:
            across = (math.log10(x) - first) / (last - first)
            up = (math.log10(y) - low) / (high - low)
            return x0 + across * (x1 - x0), y0 + up * (y1 - y0)

        parts = [text((x0 + x1) / 2, TOP - 14, self.title, size=13, more=' font-weight="bold"')]
        for power in range(low, high + 1):
            _, y = at(10**first, 10.0**power)
            parts += [line(x0, y, x1, y), text(x0 - 6, y + 4, short(10.0**power), "end")]
        for power in range(math.ceil(first), math.floor(last) + 1):
            x, _ = at(10.0**power, 10.0**low)
            parts += [line(x, y0, x, y1), text(x, y0 + 18, short(10.0**power))]
        parts += [text((x0 + x1) / 2, y0 + 40, "sites")]
        turned = f' transform="rotate(-90 {left + 16} {(y0 + y1) / 2:.1f})"'
        parts += [text(left + 16, (y0 + y1) / 2, self.label, more=turned)]
        for curve in self.curves:
            places = [at(x, y) for x, y in curve.points if y > 0]
            path = " ".join(f"{x:.1f},{y:.1f}" for x, y in places)
            look = f'fill="none" stroke="{curve.colour}" stroke-width="2"{curve.dashes}'
            parts.append(f'<polyline points="{path}" {look}/>')
            parts += [f'<circle cx="{x:.1f}" cy="{y:.1f}" r="3" fill="{curve.colour}"/>' for x, y in places]
        return parts


def legend(entries: list[tuple[str, str, str]], top: float) -> list[str]:
    """A row of lines with what they stand for."""
    parts, x = [], float(LEFT)
    for name, colour, dashes in entries:
        parts += [line(x, top, x + 26, top, colour, f' stroke-width="3"{dashes}'), text(x + 32, top + 4, name, "start")]
        x += 48 + 7.2 * len(name)
    return parts


def page(parts: list[str], width: float, height: float) -> str:
    size = f'width="{width:g}" height="{height:g}"'
    head = f'<svg xmlns="http://www.w3.org/2000/svg" {size} viewBox="0 0 {width:g} {height:g}">'
    back = f'<rect width="{width:g}" height="{height:g}" fill="#ffffff"/>'
    return "\n".join([head, back, *parts, "</svg>"]) + "\n"


def panels(drawn: list[Panel], entries: list[tuple[str, str, str]]) -> str:
    parts = [part for place, panel in enumerate(drawn) for part in panel.draw(place * WIDTH)]
    return page([*parts, *legend(entries, HEIGHT + 6)], WIDTH * len(drawn), HEIGHT + LEGEND)


def requests(results: list[Result]) -> str:
    """Requests of one resolver to each level."""
    drawn = [
        Panel(
            f"{NAMES[name]} working sets",
            "requests a day of one resolver",
            [
                Curve(level, COLOURS[level], "", [(r.sites, r.a_day(name, f"requests {level}")) for r in results])
                for level in LEVELS
            ],
        )
        for name in CLASSES
    ]
    return panels(drawn, [(NAMES[level], COLOURS[level], "") for level in LEVELS])


def memory(results: list[Result]) -> str:
    servers = [(r.sites, r.of("kb", "servers") / 1024) for r in results]
    of_class = [
        Curve(name, COLOURS["ms"], DASHES[name], [(r.sites, r.of("kb of a resolver", name) / 1024) for r in results])
        for name in CLASSES
    ]
    drawn = [
        Panel("All servers of the tree", "MB", [Curve("servers", COLOURS["region"], "", servers)]),
        Panel("One resolver", "MB", of_class),
    ]
    entries = [("servers", COLOURS["region"], "")]
    return panels(drawn, entries + [(f"{NAMES[name]} working set", COLOURS["ms"], DASHES[name]) for name in CLASSES])


def waits(results: list[Result]) -> str:
    marks = (("500", "median", COLOURS["member"]), ("990", "1 of 100 waits longer", COLOURS["root"]))
    drawn = [
        Panel(
            f"{NAMES[name]} working sets",
            "milliseconds",
            [
                Curve(label, colour, "", [(r.sites, r.of(f"wait {mark}", name)) for r in results])
                for mark, label, colour in marks
            ],
        )
        for name in CLASSES
    ]
    return panels(drawn, [(label, colour, "") for _, label, colour in marks])


def bar(result: Result, name: str, left: float, width: float) -> list[str]:
    """A bar of shares, and below it the number of sites."""
    y0, y1 = HEIGHT - BOTTOM, TOP
    parts, y = [text(left + width / 2, y0 + 18, short(result.sites))], float(y0)
    for key in KEYS:
        height = (y0 - y1) * result.share(name, f"top {key}")
        y -= height
        place = f'x="{left:.1f}" y="{y:.1f}" width="{width:.1f}" height="{height:.1f}"'
        parts.append(f'<rect {place} fill="{COLOURS[key]}"/>')
    return parts


def bars(results: list[Result], name: str, left: float) -> list[str]:
    """The bars of a class, with their axis."""
    x0, x1, y0, y1 = left + LEFT, left + WIDTH - RIGHT, HEIGHT - BOTTOM, TOP
    parts = [text((x0 + x1) / 2, TOP - 14, f"{NAMES[name]} working sets", size=13, more=' font-weight="bold"')]
    for share in range(0, 101, 20):
        y = y0 + (y1 - y0) * share / 100
        parts += [line(x0, y, x1, y), text(x0 - 6, y + 4, f"{share} %", "end")]
    turned = f' transform="rotate(-90 {left + 16} {(y0 + y1) / 2:.1f})"'
    parts += [text((x0 + x1) / 2, y0 + 40, "sites"), text(left + 16, (y0 + y1) / 2, "lookups", more=turned)]
    step = (x1 - x0) / len(results)
    return parts + [
        part
        for column, result in enumerate(results)
        for part in bar(result, name, x0 + step * (column + 0.2), step * 0.6)
    ]


def tops(results: list[Result]) -> str:
    """Bars: the level nearest to the root that lookups ask."""
    parts = [part for place, name in enumerate(CLASSES) for part in bars(results, name, place * WIDTH)]
    entries = [("no request", COLOURS["none"], "")] + [(NAMES[level], COLOURS[level], "") for level in reversed(LEVELS)]
    return page([*parts, *legend(entries, HEIGHT + 6)], WIDTH * len(CLASSES), HEIGHT + LEGEND)


def main() -> int:
    if len(sys.argv) != 3:
        sys.exit(__doc__)
    results = read_all(pathlib.Path(sys.argv[1]))
    for name, draw in (("requests", requests), ("tops", tops), ("memory", memory), ("waits", waits)):
        pathlib.Path(sys.argv[2], f"scale_{name}.svg").write_text(draw(results))
    return 0


if __name__ == "__main__":
    sys.exit(main())
