"""Makes the tree with which bench/daemon.sh --full fills a resolver's cache.

usage: full.py FOLDER           writes register.csv and resolver.toml
       full.py FOLDER items     reads what `ddtplan blocks` prints of the register, and writes what is asked for

One zone has 4,000 random sites of one address each, all with an ETR, so it has more than 80,000 holes. The lists to ask
for are `warm`, 300 of the sites, `first`, so many others that the cache then holds 60,000 entries, `rest`, more than it
has room for, and between them `new` and `newer`, 2,000 each that were not asked for before. `again` has the sites of
`warm` ten times. Each hole is an entry of the cache for 15 minutes, each site for a day.
"""
from __future__ import annotations

import ipaddress
import pathlib
import random
import sys

SITES, WARM, NEW, ENTRIES = 4_000, 300, 2_000, 60_000
ROOT, SERVER, ETR, ITR, RESOLVER = "127.0.0.1", "127.0.2.1", "127.0.3.1", "127.0.4.1", "127.0.0.53"


def register(lots: random.Random) -> list[str]:
    rows = ["kind,prefix,group,addresses", f"group-node,,root,{ROOT}", f"group-ms,,ms,{SERVER}"]
    rows += ["node,*,root,", "ms,[0]0.0.0.0/0,ms,"]
    addresses = lots.sample(range(1 << 24, 223 << 24), SITES)
    return rows + [f"site,[0]{ipaddress.ip_address(each)}/32,,{ETR}" for each in sorted(addresses)]


def items(lots: random.Random) -> dict[str, list[str]]:
    """The lists of identifiers, one of each outcome's prefix."""
    sites, holes = {}, {}
    for line in sys.stdin:
        block, outcome = line.rstrip("\n").split("\t")
        kind, prefix = outcome.split()[:2]
        if block.startswith("[0]") and "." in block:
            address, _, length = block[3:].partition("/")
            text = f"0 {address} {length} {kind} {prefix.rpartition('/')[2]}"
            (sites if kind == "registered" else holes).setdefault(prefix, text)
    warm, others = list(sites.values())[:WARM], [*list(sites.values())[WARM:], *holes.values()]
    lots.shuffle(others)
    first = ENTRIES - WARM
    new, rest, newer = first + NEW, len(others) - NEW, len(others)
    lists = {"warm": warm, "again": warm * 10, "first": others[:first], "new": others[first:new]}
    return lists | {"rest": others[new:rest], "newer": others[rest:newer]}


def main(words: list[str]) -> int:
    folder, lots = pathlib.Path(words[0]).resolve(), random.Random(1)
    if words[1:] == ["items"]:
        files = items(lots)
    else:
        settings = [f'roots = ["{ROOT}"]', f'listen = ["{RESOLVER}"]', f'allow = ["{ITR}/32"]']
        files = {"register.csv": register(lots), "resolver.toml": settings}
    for name, lines in files.items():
        (folder / name).write_text("\n".join(lines) + "\n")
    return 0


if __name__ == "__main__":
    sys.exit(main(sys.argv[1:]))
