#!/usr/bin/env python3
"""Writes an accepted register to standard output: tools/make_register.py SHAPE ROWS

Shapes:
  nested    chains of 20 node zones, each inside the one before, a zone of Map-Servers at the end and 16 sites in it; the
            rows are shuffled
  flat      one level of zones below the root, every other one of Map-Servers
  groups    as many groups of two locators as the rows allow, with one zone each below the root
  sites     all rows but four are sites in one zone of Map-Servers
  locators  all rows but one are groups of eight locators, the most that a group may have

The same words give the same register. ROWS is 10 to 65535; a register has at most 65,535 rows.
"""
import random
import sys

DEPTH = 20
SITES_IN_A_CHAIN = 16


def v4(number):
    return ".".join(str(number >> shift & 255) for shift in (24, 16, 8, 0))


def locator(n):
    return v4((127 << 24) + 256 + n)


def few_groups(rows):
    """One row in sixty is a group: the root's, then one of Map-Servers and one of nodes in turn."""
    count = max(3, rows // 60)
    lines = ["group-node,,root,127.0.0.1"]
    lines += [f"group-{'ms' if n % 2 else 'node'},,g{n},{locator(n)}" for n in range(1, count)]
    return lines, [f"g{n}" for n in range(2, count, 2)], [f"g{n}" for n in range(1, count, 2)]


def nested(rows):
    out, nodes, servers = few_groups(rows)
    out.append("node,*,root,")
    chain = 0
    while len(out) < rows:
        # An instance has one chain: 10.0.0.0/7 to 10.0.0.0/26, a zone of Map-Servers in it, and sites there.
        address = 10 << 24
        lines = [
            f"node,[{chain}]{v4(address)}/{7 + depth},{nodes[(chain + depth) % len(nodes)]},"
            for depth in range(DEPTH)
        ]
        lines.append(f"ms,[{chain}]{v4(address)}/27,{servers[chain % len(servers)]},")
        for n in range(SITES_IN_A_CHAIN):
            etr = v4((192 << 24) + (chain << 8) + n) if n % 3 else ""
            lines.append(f"site,[{chain}]{v4(address + n)}/32,,{etr}")
        out += lines[: rows - len(out)]
        chain += 1
    random.Random(rows).shuffle(out)
    return out


def flat(rows):
    out, nodes, servers = few_groups(rows)
    out.append("node,*,root,")
    for n in range(rows - len(out)):
        kind, groups = ("ms", servers) if n % 2 else ("node", nodes)
        out.append(f"{kind},[{n % 7}]{v4((n // 7) << 8)}/24,{groups[n % len(groups)]},")
    return out


def groups(rows):
    count = (rows - 1) // 2
    out = [f"group-node,,g{n},{locator(n)} fd00::{n >> 16:x}:{n & 0xffff:x}" for n in range(count)]
    out.append("node,*,g0,")
    out += [f"node,[0]{v4(n << 8)}/24,g{n % count}," for n in range(rows - len(out))]
    return out


def sites(rows):
    out = ["group-node,,root,127.0.0.1", "group-ms,,east,127.0.0.2", "node,*,root,", "ms,[0]10.0.0.0/8,east,"]
    out += [f"site,[0]{v4((10 << 24) + n)}/32,,{v4((192 << 24) + n)}" for n in range(rows - len(out))]
    return out


def locators(rows):
    numbers = list(range(8 * (rows - 1)))
    random.Random(rows).shuffle(numbers)
    out = []
    for n in range(rows - 1):
        words = " ".join(locator(number) for number in numbers[8 * n : 8 * n + 8])
        out.append(f"group-node,,g{n},{words}")
    out.append("node,*,g0,")
    return out


SHAPES = {"nested": nested, "flat": flat, "groups": groups, "sites": sites, "locators": locators}


def main(words):
    if len(words) != 2 or words[0] not in SHAPES or not words[1].isdecimal() or not 10 <= int(words[1]) <= 65535:
        sys.exit(__doc__)
    lines = SHAPES[words[0]](int(words[1]))
    sys.stdout.write("\n".join(["kind,prefix,group,addresses", *lines]) + "\n")


main(sys.argv[1:])
