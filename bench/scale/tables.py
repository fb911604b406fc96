#!/usr/bin/env python3
"""Prints what bench/scale.sh measured, as tables of tab-separated values: tables.py RESULTS [--markdown]

RESULTS has a file SITES.tsv for each size, as the program of bench/scale prints it. With --markdown the tables are
those of docs/SCALE.md.
"""
from __future__ import annotations

import pathlib
import sys

sys.dont_write_bytecode = True
sys.path.insert(0, str(pathlib.Path(__file__).resolve().parent))
from results import CLASSES, LEVELS, NAMES, Result, read_all  # noqa: E402

Table = tuple[str, list[str], list[list[str]]]


def number(value: float) -> str:
    return f"{value:,.0f}" if value >= 10 or value == int(value) else f"{value:.2g}"


def percent(value: float) -> str:
    return f"{100 * value:.1f}"


def requests(results: list[Result]) -> Table:
    head = ["sites", "working set", *(f"{NAMES[level]}" for level in LEVELS), "holes at the root"]
    rows = [
        [
            number(r.sites),
            number(r.of("set", name)),
            *(number(r.a_day(name, f"requests {level}")) for level in LEVELS),
            number(r.a_day(name, "hole at root")),
        ]
        for name in CLASSES
        for r in results
    ]
    return "requests a day of one resolver", head, rows


def referrals(results: list[Result]) -> Table:
    levels = LEVELS[:-1]
    head = ["sites", "working set", *(NAMES[level] for level in levels)]
    rows = [
        [
            number(r.sites),
            number(r.of("set", name)),
            *(number(r.a_day(name, f"requests {level}") - r.a_day(name, f"hole at {level}")) for level in levels),
        ]
        for name in CLASSES
        for r in results
    ]
    return "requests a day of one resolver that end in no hole there", head, rows


def tops(results: list[Result]) -> Table:
    keys = ["none", *reversed(LEVELS)]
    head = ["sites", "working set", "no request", *(f"from {NAMES[level]}" for level in reversed(LEVELS))]
    rows = [
        [number(r.sites), number(r.of("set", name)), *(percent(r.share(name, f"top {key}")) for key in keys)]
        for name in CLASSES
        for r in results
    ]
    return "where lookups begin, in percent", head, rows


def waits(results: list[Result]) -> Table:
    head = ["sites", "working set", "median ms", "99 % ms", "99.9 % ms", "requests, median", "99 %", "us a lookup"]
    rows = [
        [
            number(r.sites),
            number(r.of("set", name)),
            *(number(r.of(f"wait {mark}", name)) for mark in (500, 990, 999)),
            *(number(r.of(f"hops {mark}", name)) for mark in (500, 990)),
            f"{r.of('us', name) / max(1, r.of('asks', name)):.1f}",
        ]
        for name in CLASSES
        for r in results
    ]
    return "waits and requests of a lookup", head, rows


def memory(results: list[Result]) -> Table:
    head = ["sites", "registers", "servers MB", "bytes a site", "index MB", *(f"entries, {name}" for name in CLASSES)]
    head += [f"resolver MB, {name}" for name in CLASSES]
    rows = [
        [
            number(r.sites),
            number(r.of("registers", "all")),
            number(r.of("kb", "servers") / 1024),
            number(r.of("kb", "servers") * 1024 / r.sites),
            number(r.of("kb", "index") / 1024),
            *(number(r.of("entries", name)) for name in CLASSES),
            *(number(r.of("kb of a resolver", name) / 1024) for name in CLASSES),
        ]
        for r in results
    ]
    return "memory", head, rows


def peaks(results: list[Result]) -> Table:
    head = ["sites", *(f"{NAMES[level]}, {when}" for level in LEVELS for when in ("cold", "warm"))]
    rows = [
        [number(r.sites), *(number(r.of(f"peak {level}", when)) for level in LEVELS for when in ("cold", "warm"))]
        for r in results
    ]
    return "requests of all resolvers in the busiest minute", head, rows


def firsts(results: list[Result]) -> Table:
    head = ["sites", *(NAMES[level] for level in LEVELS)]
    rows = []
    for r in results:
        sums = [[r.sum(f"{what} {level}") for what in ("firsts", "requests")] for level in LEVELS]
        rows.append([number(r.sites), *(percent(first / max(1, whole)) for first, whole in sums)])
    return "requests that went to the first locator of a group, in percent", head, rows


def judged(results: list[Result]) -> Table:
    head = ["sites", "lookups", "wrong", "gave up", "no reply", "refused", "servers s", "index s", "resolvers s"]
    rows = [
        [
            number(r.sites),
            number(r.sum("asks")),
            number(r.of("wrong", "all")),
            *(number(r.sum(what)) for what in ("gave up", "no reply", "refused")),
            number(r.of("ms", "servers") / 1000),
            number(r.of("ms", "index") / 1000),
            number(r.sum("us") / 1_000_000),
        ]
        for r in results
    ]
    return "outcomes that were judged, and how long the run took", head, rows


def main() -> int:
    if len(sys.argv) not in (2, 3) or sys.argv[2:] not in ([], ["--markdown"]):
        sys.exit(__doc__)
    results = read_all(pathlib.Path(sys.argv[1]))
    for make in (requests, referrals, tops, waits, memory, peaks, firsts, judged):
        title, head, rows = make(results)
        if len(sys.argv) == 3:
            lines = [f"| {' | '.join(row)} |" for row in (head, ["---"] * len(head), *rows)]
        else:
            lines = ["\t".join(row) for row in (head, *rows)]
        print("\n".join([f"== {title}", *lines, ""]))
    return 0


if __name__ == "__main__":
    sys.exit(main())
