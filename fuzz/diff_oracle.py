#!/usr/bin/env python3
"""Compares all that `ddtplan diff` writes of small random pairs of registers with a plain reading of their rows.

fuzz/diff_oracle.py COUNT [SEED]     COUNT pairs: what one seed gives, and the next ones

Most pairs differ in a few rows: a site with other ETRs, a zone of another group, a group with other locators, rows that
are gone. Of a pair one form is asked for: text, JSON, the summary of either, or the changes by the exact reading. DDTPLAN
names the program; by default it is ./ddtplan. The last line is 'N passed, M failed'.
"""
from __future__ import annotations

import json
import multiprocessing
import pathlib
import random
import sys
import tempfile
import typing

import plan_oracle
from plan_oracle import DDTPLAN, blocks, ends, lines_of, path_of, random_rows, shown, text_of, write

MOST = 2**128 - 1
ADDRESSES = {"127.0.1.1": "127.0.3.1", "127.0.1.3": "127.0.3.3", "127.0.0.9": "127.0.3.9", "127.0.0.1": "127.0.3.8"}


class Register(plan_oracle.Register):
    """The rows of a register, by their kinds."""

    def __init__(self, rows: list[str]) -> None:
        super().__init__(rows)
        heads = [row.split(",") for row in rows if row.startswith("group-")]
        self.kinds = {head[2]: head[0].removeprefix("group-") for head in heads}

    def servers(self) -> dict[str, tuple[str, list[str]]]:
        return {name: (self.kinds[name], addresses) for name, addresses in self.groups.items()}

    def configuration(self, name: str) -> typing.Any:
        """What the servers of a group are told, whatever the order of rows."""
        if name not in self.groups:
            return None
        authorities = {zone: self.below(zone) for zone, (_, group) in self.zones.items() if group == name}
        return self.kinds[name], self.groups[name], authorities

    def below(self, zone: str) -> typing.Any:
        if self.zones[zone][0] == "ms":
            return {site: etrs for site, etrs in self.sites.items() if site.startswith(zone)}
        under = [z for z in self.zones if z.startswith(zone) and z != zone]
        direct = [z for z in under if not any(z.startswith(y) and z != y for y in under)]
        return {z: (self.zones[z][0], self.groups[self.zones[z][1]]) for z in direct}

    def referral(self, zone: str) -> list[str] | None:
        """The servers that a referral to a zone names."""
        return self.groups[self.zones[zone][1]] if zone in self.zones else None


class Change(typing.NamedTuple):
    block: str
    before: tuple[str, str, list[str]]
    after: tuple[str, str, list[str]]


def changes_of(old: Register, new: Register, exact: bool) -> list[Change]:
    found = []
    for block in blocks("", list(old.keys() | new.keys())):
        was, now = (register.assignment(ends(block)[0]) for register in (old, new))
        if was != now if exact else (was[0], was[2]) != (now[0], now[2]):
            found.append(Change(block, was, now))
    return found


def addresses_in(block: str, family: str) -> int:
    """How many addresses of a family a block has, those of each instance apart."""
    width = 32 if family == "4" else 128
    if len(block) <= 32:
        return 2 ** (32 - len(block) + width)
    return 2 ** (33 + width - len(block)) if block[32] == family else 0


def number(count: int) -> str:
    return str(count) if count < MOST else f"at least {MOST}"


def extents(changes: list[Change]) -> dict[str, list[str]]:
    """Of each kind of change how many blocks, IPv4 addresses and IPv6 addresses there are."""
    kinds = {
        "become holes": [c for c in changes if c.before[0] != "hole" and c.after[0] == "hole"],
        "lose registration": [c for c in changes if (c.before[0], c.after[0]) == ("registered", "not-registered")],
        "change servers": [
            c for c in changes if "hole" not in (c.before[0], c.after[0]) and c.before[2] != c.after[2]
        ],
    }
    return {
        kind: [number(len(some)), *(number(sum(addresses_in(c.block, f) for c in some)) for f in "46")]
        for kind, some in kinds.items()
    }


def differing(old: dict[str, typing.Any], new: dict[str, typing.Any]) -> list[tuple[str, typing.Any, typing.Any]]:
    """The keys under which two tables differ, in order, with what is there; None where nothing is."""
    return [(key, old.get(key), new.get(key)) for key in sorted(old.keys() | new.keys()) if old.get(key) != new.get(key)]


def tally(items: list[tuple[str, typing.Any, typing.Any]]) -> dict[str, int]:
    gone = sum(new is None for _, _, new in items)
    come = sum(old is None for _, old, _ in items)
    return {"lost": gone, "gained": come, "changed": len(items) - gone - come}


class Diff:
    """What differs between two registers."""

    def __init__(self, old: Register, new: Register, exact: bool) -> None:
        self.changes = changes_of(old, new, exact)
        self.zones, self.sites = differing(old.zones, new.zones), differing(old.sites, new.sites)
        self.servers = differing(old.servers(), new.servers())
        configurations = ({name: r.configuration(name) for name in r.groups} for r in (old, new))
        self.groups = differing(*configurations)
        self.negative = any(change.before[0] != "registered" for change in self.changes)
        self.outdated = any(zone and old.referral(zone) != new.referral(zone) for zone in old.zones)
        self.differs = bool(self.changes or self.zones or self.sites or self.servers or self.groups)

    def summary(self) -> list[str]:
        lines = [
            f"summary\t{kind}\tblocks {all_}\tIPv4 addresses {ipv4}\tIPv6 addresses {ipv6}"
            for kind, (all_, ipv4, ipv6) in extents(self.changes).items()
        ]
        for word, items in (("sites", self.sites), ("zones", self.zones)):
            lines.append("\t".join(["summary", word, *(f"{kind} {count}" for kind, count in tally(items).items())]))
        return [*lines, f"summary\tgroups to reload\t{len(self.groups)}"]

    def text(self) -> list[str]:
        blocks_ = [f"{text_of(c.block)}\t{shown(c.before)}\t{shown(c.after)}" for c in self.changes]
        return [*self.summary(), "", *blocks_, "", *self.rows(), *self.reloads(), *self.caches()]

    def rows(self) -> list[str]:
        lines = []
        for site, old, new in self.sites:
            word = "added" if old is None else "removed" if new is None else "etrs"
            lines.append(f"site\t{text_of(site)}\t{word}\t{' '.join(old or ['-'])}\t{' '.join(new or ['-'])}")
        for zone, old, new in self.zones:
            lines.append(f"zone\t{text_of(zone)}\t{' '.join(old or ['-'])}\t{' '.join(new or ['-'])}")
        for name, old, new in self.servers:
            if old and new and old[0] != new[0]:
                lines.append(f"group\t{name}\tkind\t{old[0]}\t{new[0]}")
            was, now = old and old[1], new and new[1]
            if was != now:
                lines.append(f"group\t{name}\tlocators\t{' '.join(was or ['-'])}\t{' '.join(now or ['-'])}")
        return lines

    def reloads(self) -> list[str]:
        words = [(name, "added" if old is None else "removed" if new is None else "changed") for name, old, new in self.groups]
        return [f"group\t{name}\t{word}" for name, word in words]

    def caches(self) -> list[str]:
        negative = ["caches\tnegative answers\t15 minutes 2 seconds"] if self.negative else []
        return negative + (["caches\tservers\t1 day 2 seconds"] if self.outdated else [])

    def summary_object(self) -> dict[str, typing.Any]:
        words = {kind.replace(" ", "-"): dict(zip(("blocks", "ipv4", "ipv6"), n)) for kind, n in extents(self.changes).items()}
        rows = {"sites": tally(self.sites), "zones": tally(self.zones)}
        return {"summary": {**words, **rows, "groups-to-reload": len(self.groups)}}

    def objects(self) -> list[dict[str, typing.Any]]:
        out = [self.summary_object()]
        out += [{"block": text_of(c.block), "before": outcome(c.before), "after": outcome(c.after)} for c in self.changes]
        out += [{"site": text_of(site), "before": old, "after": new} for site, old, new in self.sites]
        out += [{"zone": text_of(zone), "before": home(old), "after": home(new)} for zone, old, new in self.zones]
        out += [{"group": name, "before": served(old), "after": served(new)} for name, old, new in self.servers]
        for line in self.reloads():
            _, name, word = line.split("\t")
            out.append({"group": name, "configuration": word})
        out += [{"caches": "negative answers", "seconds": 902}] if self.negative else []
        return out + ([{"caches": "servers", "seconds": 86402}] if self.outdated else [])


def outcome(of: tuple[str, str, list[str]]) -> dict[str, typing.Any]:
    return {"kind": of[0], "prefix": text_of(of[1]), "servers": of[2]}


def home(of: tuple[str, str] | None) -> dict[str, str] | None:
    return of and {"kind": of[0], "group": of[1]}


def served(of: tuple[str, list[str]] | None) -> dict[str, typing.Any] | None:
    return of and {"kind": of[0], "locators": of[1]}


def is_accepted(rows: list[str]) -> bool:
    """Whether zones and sites still lie where the rules allow them."""
    register = Register(rows)
    kinds = [register.kinds.get(group) == kind for kind, group in register.zones.values()]
    above = [any(z.startswith(y) and z != y and register.zones[y][0] == "ms" for y in register.zones) for z in register.zones]
    inside = [any(s.startswith(z) and register.zones[z][0] == "ms" for z in register.zones) for s in register.sites]
    return all(kinds) and not any(above) and all(inside) and len(register.zones) == sum(is_zone(row) for row in rows)


def is_zone(row: str) -> bool:
    return row.startswith(("node,", "ms,"))


def edited(rng: random.Random, row: str) -> str | None:
    """A row with one edit, or none where it is gone."""
    kind, prefix, group, addresses = row.split(",")
    if kind.startswith("group-"):
        if rng.random() < 0.2:
            return f"{rng.choice(['group-node', 'group-ms'])},,{group},{addresses}"
        others = [ADDRESSES.get(each, each) for each in addresses.split()]
        return f"{kind},,{group},{' '.join(rng.choice([others, addresses.split()[::-1], others[:1]]))}"
    if kind == "site":
        return rng.choice([None, f"site,{prefix},,{rng.choice(['', '127.0.2.1', '::2 127.0.2.1'])}"])
    if prefix == "*":
        return f"node,*,{rng.choice(['root', 'far'])},"
    moved = rng.choice(["root", "far", "east", "west"])
    return rng.choice([None, f"{rng.choice(['node', 'ms', kind])},{prefix},{moved},"])


def changed_rows(rng: random.Random, rows: list[str]) -> list[str]:
    """The rows with a few edits; those that would be refused are left out."""
    now = list(rows)
    for _ in range(rng.randrange(4)):
        at = rng.randrange(len(now))
        row = edited(rng, now[at])
        tried = now[:at] + ([row] if row else []) + now[at + 1 :]
        now = tried if is_accepted(tried) else now
    rng.shuffle(now)
    return now


def case(seed: int) -> str | None:
    """What differs in the case of a seed."""
    rng = random.Random(seed)
    old = random_rows(rng)
    new = random_rows(rng) if rng.random() < 0.1 else changed_rows(rng, old)
    words = rng.choice([[], [], [], ["--exact"], ["--summary"], ["--json"], ["--json", "--exact"], ["--json", "--summary"]])
    diff = Diff(Register(old), Register(new), "--exact" in words)
    with tempfile.TemporaryDirectory() as room:
        a, b = write(pathlib.Path(room) / "old.csv", old), write(pathlib.Path(room) / "new.csv", new)
        status, lines = lines_of(DDTPLAN, "diff", a, b, *words)
    if "--json" in words:
        wanted: list[typing.Any] = [diff.summary_object()] if "--summary" in words else diff.objects()
        got: list[typing.Any] = [json.loads(line) for line in lines] if status < 2 else lines
    else:
        wanted, got = diff.summary() if "--summary" in words else diff.text(), lines
    wanted = wanted if diff.differs else []
    if (status, got) != (int(diff.differs), wanted):
        return f"seed {seed} {words}: {status} {got} and not {wanted}"
    return None


def main() -> int:
    if len(sys.argv) not in (2, 3):
        print(__doc__, file=sys.stderr)
        return 2
    count, first = int(sys.argv[1]), int(sys.argv[2]) if len(sys.argv) == 3 else 1
    with multiprocessing.Pool() as pool:
        found = [each for each in pool.imap_unordered(case, range(first, first + count), 64) if each]
    for each in found[:5]:
        print(each)
    print(f"{count - len(found)} passed, {len(found)} failed")
    return 1 if found else 0


if __name__ == "__main__":
    sys.exit(main())
