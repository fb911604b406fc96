#!/usr/bin/env python3
"""Draws the layers of the crates, as an SVG on standard output.

Usage: tools/draw_layers.py > docs/layers.svg, or tools/draw_layers.py --check, which compares that file with what would
be drawn, and ends with status 1 if it differs.

crates.txt is read: a comment begins a group, and the tests of a group belong to it. A group is a box with the comment,
its crates, and in grey its tests. An arrow leads from a group to one above it in the file that it needs, but not where
other arrows lead there already. A dashed arrow leads to a group further down in the file; the box that it leaves says
which crates need which.
"""
from __future__ import annotations

import dataclasses
import html
import itertools
import pathlib
import random
import sys
import textwrap
import typing

ROOT = pathlib.Path(__file__).resolve().parent.parent
CRATES, DRAWING = ROOT / "crates.txt", ROOT / "docs" / "layers.svg"
TESTS = "The tests th"
LINE, PAD, WIDTH, COLUMNS = 16, 10, 260, 34
GAP, BETWEEN, LANE, BESIDE = 40, 56, 24, 20
GREY = 'fill="#777777"'
TRIES = 200


@dataclasses.dataclass
class Group:
    """The crates below a comment of crates.txt, each with those that it needs."""

    title: str
    crates: dict[str, list[str]] = dataclasses.field(default_factory=dict)
    tests: list[str] = dataclasses.field(default_factory=list)
    upwards: list[str] = dataclasses.field(default_factory=list)

    def lines(self) -> list[tuple[str, str]]:
        """What is written in its box, with how."""
        bold = [(line, 'font-weight="bold"') for line in textwrap.wrap(self.title.rstrip("."), COLUMNS)]
        names = [(line, "") for line in textwrap.wrap(", ".join(self.crates), COLUMNS)]
        return [*bold, *names, *((line, GREY) for line in [*self.upwards, *self.tests])]


@dataclasses.dataclass
class Place:
    """A place in a row: that of a group, or of an arrow that passes (no group). x is its middle."""

    group: Group | None
    above: list[Place] = dataclasses.field(default_factory=list)
    below: list[Place] = dataclasses.field(default_factory=list)
    x: float = 0.0
    top: float = 0.0

    @property
    def width(self) -> float:
        return WIDTH if self.group else LANE

    @property
    def height(self) -> float:
        return len(self.group.lines()) * LINE + PAD if self.group else 0


def read_groups(text: str) -> list[Group]:
    groups: list[Group] = []
    in_tests = False
    for line in filter(None, text.splitlines()):
        if line.startswith("#"):
            in_tests = line.startswith(f"# {TESTS}")
            if not in_tests:
                groups.append(Group(line.removeprefix("# ")))
        else:
            name, _, needed = line.partition(":")
            if in_tests:
                groups[-1].tests.append(name)
            else:
                groups[-1].crates[name] = needed.split()
    return groups


# -- What needs what ------------------------------------------------------------------------------------------------


def needs(groups: list[Group]) -> dict[tuple[int, int], list[str]]:
    """For each two groups of which the first needs the second, by number: which crates need which."""
    home = {name: number for number, group in enumerate(groups) for name in group.crates}
    found: dict[tuple[int, int], list[str]] = {}
    for number, group in enumerate(groups):
        for name, needed in group.crates.items():
            for other in needed:
                if home.get(other, number) != number:
                    found.setdefault((number, home[other]), []).append(f"{name} needs {other}")
    return found


def all_below(number: int, arrows: set[tuple[int, int]]) -> set[int]:
    direct = {to for start, to in arrows if start == number}
    return direct.union(*(all_below(to, arrows) for to in direct))


def without_implied(arrows: set[tuple[int, int]]) -> set[tuple[int, int]]:
    """The arrows that no way over others replaces."""
    ways = {start: [to for begin, to in arrows if begin == start] for start, _ in arrows}
    return {
        (start, to) for start, to in arrows if not any(to in all_below(other, arrows) for other in ways[start])
    }


def height_of(number: int, arrows: set[tuple[int, int]]) -> int:
    """How many rows a group is above the lowest."""
    return max((height_of(to, arrows) + 1 for start, to in arrows if start == number), default=0)


# -- Where they are drawn -------------------------------------------------------------------------------------------


def rows_of(groups: list[Group], arrows: set[tuple[int, int]]) -> tuple[list[list[Place]], list[Place]]:
    """The rows from the lowest up, with places for the arrows that pass them; and the place of each group."""
    places = [Place(group) for group in groups]
    heights = [height_of(number, arrows) for number in range(len(groups))]
    rows: list[list[Place]] = [[] for _ in range(max(heights) + 1)]
    for place, height in zip(places, heights):
        rows[height].append(place)
    for start, to in sorted(arrows):
        upper = places[start]
        for height in range(heights[start] - 1, heights[to], -1):
            lane = Place(None)
            rows[height].append(lane)
            join(upper, lane)
            upper = lane
        join(upper, places[to])
    return rows, places


def join(upper: Place, lower: Place) -> None:
    upper.below.append(lower)
    lower.above.append(upper)


def middle(places: list[Place], otherwise: float) -> float:
    """The mean of their x, where there are any."""
    return sum(place.x for place in places) / len(places) if places else otherwise


def spread(row: list[Place], wanted: list[float]) -> None:
    """Gives each place of a row its x, as near to what is wanted as the places beside it allow."""
    lefts: list[float] = []
    for place, x in zip(row, wanted):
        least = lefts[-1] + GAP if lefts else x - place.width / 2
        place.x = max(x, least + place.width / 2)
        lefts.append(place.x + place.width / 2)
    shift = sum(place.x - x for place, x in zip(row, wanted)) / len(row)
    for place in row:
        place.x -= shift


def crossings(rows: list[list[Place]]) -> int:
    """How many pairs of arrows between neighbouring rows cross."""
    found = 0
    for lower, upper in itertools.pairwise(rows):
        at = {id(place): number for number, place in enumerate(lower)}
        ends = [(number, at[id(to)]) for number, place in enumerate(upper) for to in place.below]
        found += sum((a < c and b > d) or (a > c and b < d) for (a, b), (c, d) in itertools.combinations(ends, 2))
    return found


def settle(rows: list[list[Place]], turns: int, sorts: bool) -> None:
    """Moves each place towards the middle of those that arrows join to it, in its row's order or to another one."""
    for turn in range(turns):
        for row in rows if turn % 2 else reversed(rows):
            wanted = {id(place): middle([*place.above, *place.below], middle(row, 0)) for place in row}
            if sorts:
                row.sort(key=lambda place: wanted[id(place)])
            spread(row, [wanted[id(place)] for place in row])


def order(rows: list[list[Place]]) -> None:
    """Orders each row: of several tries, from random orders that are the same each time, the one of least crossings."""
    dice = random.Random(0)
    best = [list(row) for row in rows]
    for _ in range(TRIES):
        for row in rows:
            spread(row, [0.0] * len(row))
        settle(rows, 8, sorts=True)
        if crossings(rows) < crossings(best):
            best = [list(row) for row in rows]
        for row in rows:
            dice.shuffle(row)
    rows[:] = best


def arrange(rows: list[list[Place]]) -> None:
    """Orders each row, and gives each place its x and its top."""
    order(rows)
    for row in rows:
        spread(row, [0.0] * len(row))
    settle(rows, 24, sorts=False)
    left = min(place.x - place.width / 2 for row in rows for place in row)
    top = float(GAP)
    for row in reversed(rows):
        for place in row:
            place.x, place.top = place.x - left + GAP, top
        top += max(place.height for place in row) + BETWEEN


# -- The drawing ----------------------------------------------------------------------------------------------------


def words(x: float, y: float, text: str, more: str) -> str:
    return f'<text x="{x:.0f}" y="{y:.0f}" text-anchor="middle" {more}>{html.escape(text)}</text>'


def box(place: Place) -> typing.Iterator[str]:
    if place.group:
        left = place.x - WIDTH / 2
        yield f'<rect x="{left:.0f}" y="{place.top:.0f}" width="{WIDTH}" height="{place.height:.0f}"'
        yield ' rx="6" fill="#eef4fb" stroke="black"/>'
        for number, (line, how) in enumerate(place.group.lines(), 1):
            yield words(place.x, place.top + number * LINE + 1, line, how)


def port(place: Place, others: list[Place], other: Place) -> float:
    """Where on a place's edge the arrow to another one is."""
    sides = sorted(others, key=lambda each: each.x)
    here = next(number for number, each in enumerate(sides, 1) if each is other)
    return place.x - place.width / 2 + place.width * here / (len(sides) + 1)


def arrow(start: Place, bottoms: dict[int, float], first: Place) -> str:
    """The arrow that leaves a group for the place below it, through lanes, to the next group."""
    points = [(port(start, start.below, first), start.top + start.height)]
    upper, lower = start, first
    while lower.group is None:
        points += [(lower.x, lower.top), (lower.x, bottoms[id(lower)])]
        upper, lower = lower, lower.below[0]
    points.append((port(lower, lower.above, upper), lower.top))
    path = " ".join(f"{x:.0f},{y:.0f}" for x, y in points)
    return f'<polyline points="{path}" fill="none" stroke="black" marker-end="url(#head)"/>'


def dashed(start: Place, to: Place) -> str:
    """The arrow up to a group that is further down in the file, beside the arrow that leads back, if there is one."""
    begin, end = start.x, to.x
    if start in to.below:
        begin, end = port(start, start.above, to) - BESIDE, port(to, to.below, start) - BESIDE
    points = f"{begin:.0f},{start.top:.0f} {end:.0f},{to.top + to.height:.0f}"
    return f'<polyline points="{points}" fill="none" stroke="black" stroke-dasharray="5,3" marker-end="url(#head)"/>'


def drawing(groups: list[Group]) -> typing.Iterator[str]:
    needed = needs(groups)
    arrows = without_implied({(start, to) for start, to in needed if to < start})
    upwards = [(start, to) for start, to in sorted(needed) if start < to]
    for start, to in upwards:
        groups[start].upwards += needed[start, to]
    rows, places = rows_of(groups, arrows)
    arrange(rows)
    bottoms = {id(place): place.top + max(each.height for each in row) for row in rows for place in row}
    width = max(place.x + place.width / 2 for row in rows for place in row) + GAP
    height = max(bottoms.values()) + GAP
    yield f'<svg xmlns="http://www.w3.org/2000/svg" width="{width:.0f}" height="{height:.0f}"'
    yield ' font-family="sans-serif" font-size="12">'
    yield '<defs><marker id="head" viewBox="0 0 8 8" refX="8" refY="4" markerWidth="8" markerHeight="8" orient="auto">'
    yield '<path d="M0,0 L8,4 L0,8 z"/></marker></defs>'
    yield '<rect width="100%" height="100%" fill="white"/>'
    for place in places:
        yield from (arrow(place, bottoms, below) for below in place.below)
        yield from box(place)
    yield from (dashed(places[start], places[to]) for start, to in upwards)
    yield "</svg>"


def main(words: list[str]) -> int:
    drawn = "\n".join(drawing(read_groups(CRATES.read_text()))) + "\n"
    if words == ["--check"]:
        if DRAWING.read_text() == drawn:
            return 0
        print(f"not as {CRATES.name} says: {DRAWING.relative_to(ROOT)}", file=sys.stderr)
        return 1
    if words:
        print(__doc__, file=sys.stderr)
        return 2
    sys.stdout.write(drawn)
    return 0


if __name__ == "__main__":
    sys.exit(main(sys.argv[1:]))
