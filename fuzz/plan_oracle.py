#!/usr/bin/env python3
"""Compares ddtplan with a slow reading of registers that shares no code with it.

fuzz/plan_oracle.py small COUNT [SEED]   random small registers: blocks, those inside a prefix, and changes, by lines
fuzz/plan_oracle.py full SHAPE ROWS      both ends of every block of a register of tools/make_register.py, by
                                         `ddt lookup` in batches, and by `ddt assign` at 200 of them

DDT and DDTPLAN name the programs; by default they are ./ddt and ./ddtplan. The last line is 'N passed, M failed'.
"""
from __future__ import annotations

import ipaddress
import multiprocessing
import os
import pathlib
import random
import subprocess
import sys
import tempfile

HERE = pathlib.Path(__file__).resolve().parent
DDT = os.environ.get("DDT", str(HERE.parent / "ddt"))
DDTPLAN = os.environ.get("DDTPLAN", str(HERE.parent / "ddtplan"))

# A path is a text: 32 digits of the Instance ID, '4' or '6' for the family, and the digits of the address.


def digits(number: int, width: int) -> str:
    return format(number, f"0{width}b")


def path_of(prefix: str) -> str:
    if prefix == "*":
        return ""
    head, rest = prefix[1:].split("]", 1)
    if "/" in head:
        iid, length = head.split("/")
        return digits(int(iid), 32)[: int(length)]
    address, length = rest.split("/")
    ip = ipaddress.ip_address(address)
    return digits(int(head), 32) + str(ip.version) + digits(int(ip), ip.max_prefixlen)[: int(length)]


def width_of(path: str) -> int:
    return 32 if path[32] == "4" else 128


def text_of(path: str) -> str:
    if path == "":
        return "*"
    if len(path) <= 32:
        return f"[{int(path.ljust(32, '0'), 2)}/{len(path)}]*"
    family = ipaddress.IPv4Address if path[32] == "4" else ipaddress.IPv6Address
    address = family(int(path[33:].ljust(width_of(path), "0"), 2))
    return f"[{int(path[:32], 2)}]{address}/{len(path) - 33}"


def xeid_of(path: str) -> str:
    """The identifier of a whole path."""
    return text_of(path).rsplit("/", 1)[0]


def ends(path: str) -> tuple[str, str]:
    """The first and the last identifier that a path covers."""
    low, high = path.ljust(32, "0"), path.ljust(32, "1")
    low, high = (low + "4" if len(low) == 32 else low), (high + "6" if len(high) == 32 else high)
    return low.ljust(33 + width_of(low), "0"), high.ljust(33 + width_of(high), "1")


def halves(path: str) -> tuple[str, str]:
    return (path + "4", path + "6") if len(path) == 32 else (path + "0", path + "1")


class Register:
    def __init__(self, rows: list[str]) -> None:
        self.zones: dict[str, tuple[str, str]] = {}
        self.sites: dict[str, list[str]] = {}
        self.groups: dict[str, list[str]] = {}
        for row in rows:
            kind, prefix, group, addresses = row.split(",")
            if kind.startswith("group-"):
                self.groups[group] = addresses.split()
            elif kind == "site":
                self.sites[path_of(prefix)] = addresses.split()
            else:
                self.zones[path_of(prefix)] = (kind, group)

    def keys(self) -> set[str]:
        return set(self.zones) | set(self.sites)

    def assignment(self, x: str) -> tuple[str, str, list[str]]:
        """What is assigned to a whole path, by longest match over the rows."""
        zone = max((z for z in self.zones if x.startswith(z)), key=len)
        kind, group = self.zones[zone]
        sites = [s for s in self.sites if x.startswith(s)]
        if kind == "node" or not sites:
            others = self.zones if kind == "node" else self.sites
            return "hole", free(zone, x, [k for k in others if k.startswith(zone) and k != zone]), []
        site = max(sites, key=len)
        if self.sites[site]:
            return "registered", site, self.groups[group]
        below = [k for k in self.sites if k.startswith(site) and k != site]
        return "not-registered", free(site, x, below), self.groups[group]


def free(whole: str, x: str, inside: list[str]) -> str:
    """The widest front of x within a prefix that overlaps none of those inside it: one digit more than it shares."""
    return x[: max([len(whole), *(len(os.path.commonprefix([x, k])) + 1 for k in inside)])]


def blocks(whole: str, keys: list[str]) -> list[str]:
    """The widest prefixes in a prefix that no key is strictly below, in the order of their digits."""
    below = [k for k in keys if len(k) > len(whole) and k.startswith(whole)]
    if not below:
        return [whole]
    low, high = halves(whole)
    return blocks(low, below) + blocks(high, below)


def shown(outcome: tuple[str, str, list[str]]) -> str:
    kind, path, servers = outcome
    return " ".join([kind, text_of(path), *servers])


def listed(register: Register, inside: str) -> list[str]:
    return [
        f"{text_of(b)}\t{shown(register.assignment(ends(b)[0]))}" for b in blocks(inside, list(register.keys()))
    ]


def changed(before: Register, after: Register, exact: bool) -> list[str]:
    out = []
    for block in blocks("", list(before.keys() | after.keys())):
        was, now = (register.assignment(ends(block)[0]) for register in (before, after))
        if was != now if exact else (was[0], was[2]) != (now[0], now[2]):
            out.append(f"{text_of(block)}\t{shown(was)}\t{shown(now)}")
    return out


def random_path(rng: random.Random) -> str:
    kind = rng.random()
    if kind < 0.15:
        return digits(rng.choice([0, 1, 1 << 31, (1 << 32) - 1]), 32)[: rng.choice([1, 2, 31, 32])]
    iid = digits(rng.choice([0, 1]), 32)
    if kind < 0.7:
        length = rng.choice([0, 1, 2, 3, 8, 9, 31, 32])
        return iid + "4" + digits(rng.choice([0, 10 << 24, (10 << 24) + 1, (1 << 32) - 1]), 32)[:length]
    length = rng.choice([0, 1, 2, 48, 127, 128])
    return iid + "6" + digits(rng.choice([0, 0x20010DB8 << 96, (1 << 128) - 1]), 128)[:length]


def random_rows(rng: random.Random) -> list[str]:
    """An accepted register: a root, and zones and sites wherever the rules allow them."""
    groups = {"node": ["root", "far"], "ms": ["east", "west"]}
    rows = ["group-node,,root,127.0.0.1", "group-node,,far,127.0.0.9 ::1"]
    rows += [f"group-ms,,east,127.0.1.1{' 127.0.1.2' if rng.random() < 0.5 else ''}", "group-ms,,west,127.0.1.3"]
    zones, sites = {"": "node"}, set()
    rows.append("node,*,root,")
    for _ in range(rng.randrange(6)):
        path = random_path(rng)
        over = [z for z in zones if path.startswith(z)]
        clear = all(zones[z] == "node" for z in over)
        kind = "ms" if rng.random() < 0.6 else "node"
        if path in zones or not clear or (kind == "ms" and any(z.startswith(path) for z in zones)):
            continue
        zones[path] = kind
        rows.append(f"{kind},{text_of(path)},{rng.choice(groups[kind])},")
    servers = [z for z in zones if zones[z] == "ms"]
    for _ in range(rng.randrange(8) if servers else 0):
        path = random_path(rng) if rng.random() < 0.3 else rng.choice(servers) + random_tail(rng)
        if not is_whole_path(path) or path in sites or not any(path.startswith(z) for z in servers):
            continue
        sites.add(path)
        rows.append(f"site,{text_of(path)},,{rng.choice(['', '127.0.2.1', '127.0.2.1 ::2'])}")
    return rows


def random_tail(rng: random.Random) -> str:
    return "".join(rng.choice("01") for _ in range(rng.randrange(4)))


def is_whole_path(path: str) -> bool:
    """Whether it is the path of a prefix: behind 32 digits stands a family."""
    if len(path) <= 32:
        return True
    return path[32] in "46" and len(path) - 33 <= width_of(path)


def lines_of(*words: str) -> tuple[int, list[str]]:
    done = subprocess.run(words, capture_output=True, text=True, check=False)
    if done.stderr:
        return done.returncode, [done.stderr]
    return done.returncode, done.stdout.splitlines()


def write(path: pathlib.Path, rows: list[str]) -> str:
    path.write_text("kind,prefix,group,addresses\n" + "\n".join(rows) + "\n")
    return str(path)


def changed_lines(lines: list[str]) -> list[str]:
    """Of what `diff` writes the lines of the blocks: those between the empty lines. Where nothing differs there are none."""
    if lines.count("") != 2:
        return lines
    first = lines.index("") + 1
    return lines[first : lines.index("", first)]


def small_case(seed: int) -> str | None:
    """What differs in the case of a seed."""
    rng = random.Random(seed)
    old, new = random_rows(rng), random_rows(rng)
    if rng.random() < 0.5:
        new = [row for row in old if not row.startswith("site") or rng.random() < 0.7]
    before, after, inside = Register(old), Register(new), random_path(rng)
    with tempfile.TemporaryDirectory() as room:
        a, b = write(pathlib.Path(room) / "old.csv", old), write(pathlib.Path(room) / "new.csv", new)
        exact = rng.random() < 0.5
        changes = lines_of(DDTPLAN, "diff", a, b, *(["--exact"] if exact else []))
        wanted = changed(before, after, exact)
        cases = [
            (lines_of(DDTPLAN, "blocks", a), (0, listed(before, ""))),
            (lines_of(DDTPLAN, "blocks", a, text_of(inside)), (0, listed(before, inside))),
            (changed_lines(changes[1]), wanted),
            (changes[0], 1 if changes[1] else 0),
        ]
    for got, should in cases:
        if got != should:
            return f"seed {seed}: {got} and not {should}"
    return None


def small(count: int, first: int) -> int:
    with multiprocessing.Pool() as pool:
        found = [each for each in pool.imap_unordered(small_case, range(first, first + count), 64) if each]
    for each in found[:5]:
        print(each)
    print(f"{count - len(found)} passed, {len(found)} failed")
    return 1 if found else 0


def full(shape: str, rows: str) -> int:
    """Both ends of every block of a full register."""
    with tempfile.TemporaryDirectory() as room:
        register = f"{room}/full.csv"
        with open(register, "w", encoding="ascii") as out:
            subprocess.run([str(HERE.parent / "tools" / "make_register.py"), shape, rows], stdout=out, check=True)
        wanted = []
        for line in lines_of(DDTPLAN, "blocks", register)[1]:
            block, outcome = line.split("\t")
            wanted += [(xeid_of(end), outcome) for end in ends(path_of(block))]
        wrong = 0
        batches = [wanted[n : n + 2000] for n in range(0, len(wanted), 2000)]
        with multiprocessing.Pool() as pool:
            for batch, got in zip(batches, pool.imap(looked_up, [(register, batch) for batch in batches])):
                wrong += sum(outcome != each for (_, outcome), each in zip(batch, got)) + abs(len(batch) - len(got))
        for xeid, outcome in random.Random(1).sample(wanted, min(200, len(wanted))):
            wrong += lines_of(DDT, "assign", register, xeid) != (0, [outcome])
    print(f"{len(wanted) - wrong} passed, {wrong} failed")
    return 1 if wrong else 0


def looked_up(asked: tuple[str, list[tuple[str, str]]]) -> list[str]:
    """The outcomes of a batch of identifiers."""
    register, batch = asked
    lines = lines_of(DDT, "lookup", register, *(xeid for xeid, _ in batch))[1]
    return [line for line in lines if line.startswith(("registered ", "not-registered ", "hole "))]


def main() -> int:
    match sys.argv[1:]:
        case ["small", count, *seed]:
            return small(int(count), int(seed[0]) if seed else 1)
        case ["full", shape, rows]:
            return full(shape, rows)
    print(__doc__, file=sys.stderr)
    return 2


if __name__ == "__main__":
    sys.exit(main())
