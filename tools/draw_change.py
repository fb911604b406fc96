#!/usr/bin/env python3
"""Draws what a change of a register changes inside a prefix, as an SVG on standard output.

Usage: tools/draw_change.py OLD NEW PREFIX > change.svg. Each register is a bar of its blocks in the order of their
digits, as `ddtplan blocks` lists them, as wide as they are; blocks that `ddtplan diff` lists stand between dashed
lines. DDTPLAN names the program; by default it is ./ddtplan. At most 64 blocks are drawn of a register.
"""
from __future__ import annotations

import html
import ipaddress
import os
import pathlib
import subprocess
import sys
import typing

DDTPLAN = os.environ.get("DDTPLAN", str(pathlib.Path(__file__).resolve().parent.parent / "ddtplan"))
COLOURS = {"registered": "#fff2cc", "not-registered": "#dddddd", "hole": "#ffffff"}
WIDTH, LEFT, BAR, MOST_BLOCKS = 840, 70, 64, 64


class Block(typing.NamedTuple):
    """A block: its first address and how many it has, its text, and the words of what it is assigned."""

    first: int
    count: int
    text: str
    outcome: str


def block(line: str) -> Block:
    """The block of a line of `ddtplan`."""
    text, outcome = line.split("\t")[:2]
    network = ipaddress.ip_network(text.split("]", 1)[1])
    return Block(int(network.network_address), network.num_addresses, text, outcome)


def listed(*words: str) -> list[Block]:
    """The blocks that `ddtplan` lists. A status of 1 is that of a difference."""
    done = subprocess.run([DDTPLAN, *words], capture_output=True, text=True)
    if done.returncode > 1:
        sys.exit(done.stderr.strip())
    return [block(line) for line in done.stdout.splitlines() if line.startswith("[")]


def words(x: float, y: float, text: str, more: str = "") -> str:
    return f'<text x="{x:.1f}" y="{y}" {more}>{html.escape(text)}</text>'


def bar(name: str, blocks: list[Block], whole: Block, top: int) -> typing.Iterator[str]:
    """A register's blocks, a rectangle each."""
    scale = WIDTH / whole.count
    yield words(LEFT - 10, top + BAR / 2 + 5, name, 'text-anchor="end"')
    for one in blocks:
        x, width = LEFT + (one.first - whole.first) * scale, one.count * scale
        kind = one.outcome.split()[0]
        yield (
            f'<rect x="{x:.1f}" y="{top}" width="{width:.1f}" height="{BAR}" fill="{COLOURS[kind]}" stroke="black">'
            f"<title>{html.escape(one.text + ': ' + one.outcome)}</title></rect>"
        )
        middle = x + width / 2
        yield words(middle, top + 28, one.text.split("]")[1], 'text-anchor="middle"')
        yield words(middle, top + 46, kind, 'text-anchor="middle"')


def main() -> None:
    if len(sys.argv) != 4:
        sys.exit(__doc__)
    old, new, prefix = sys.argv[1:]
    whole = block(f"{prefix}\t")
    registers = [listed("blocks", name, prefix) for name in (old, new)]
    if max(map(len, registers)) > MOST_BLOCKS:
        sys.exit(f"more than {MOST_BLOCKS} blocks lie in {prefix}")
    changed = [b for b in listed("diff", old, new) if whole.first <= b.first < whole.first + whole.count]
    height = 2 * BAR + 90
    print(f'<svg xmlns="http://www.w3.org/2000/svg" width="{WIDTH + LEFT + 10}" height="{height}"')
    print(' font-family="sans-serif" font-size="12">')
    print(f'<rect width="100%" height="100%" fill="white"/>{words(LEFT, 18, "the identifiers of " + prefix)}')
    for name, blocks, top in zip(("before", "after"), registers, (30, BAR + 60)):
        print("\n".join(bar(name, blocks, whole, top)))
    for one in changed:
        for edge in (one.first, one.first + one.count):
            x = LEFT + (edge - whole.first) * WIDTH / whole.count
            print(f'<path d="M{x:.1f} 26V{2 * BAR + 64}" stroke="#c00000" stroke-width="2" stroke-dasharray="5,3"/>')
        middle = LEFT + (one.first + one.count / 2 - whole.first) * WIDTH / whole.count
        print(words(middle, 2 * BAR + 80, "changes", 'fill="#c00000" text-anchor="middle"'))
    print("</svg>")


if __name__ == "__main__":
    main()
