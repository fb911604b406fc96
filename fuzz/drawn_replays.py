"""Registers, identifiers and scripts drawn by lot, for replay_scripts.py."""
from __future__ import annotations

import random

from plain_replay import (
    COLUMNS,
    LARGEST_NUMBER,
    LAST_NONCE,
    MOST_PENDING,
    WIDTHS,
    Path,
    Register,
    Run,
    Site,
    Words,
    Zone,
    covers,
    overlap,
    read_step,
    write_prefix,
    write_xeid,
)

# -- Registers drawn by lot -----------------------------------------------------------------------------------------

INSTANCES = [0, 0, 0, 1, 7, 16, 17, 2**31, 2**32 - 1]
ADDRESSES_NEAR = {"4": 10 << 24, "6": 0x20010DB8 << 96}


def draw_home(draw: random.Random) -> Path:
    """An identifier that shares most of its digits with others of this kind, so that their fronts nest."""
    symbol = draw.choice("446")
    address = ADDRESSES_NEAR[symbol]
    for _ in range(draw.randrange(4)):
        address |= 1 << draw.randrange(WIDTHS[symbol] - 8)
    return f"{draw.choice(INSTANCES):032b}{symbol}{address:0{WIDTHS[symbol]}b}"


def turned(path: Path) -> Path:
    """The path with its last digit, or its family, turned."""
    return path[:-1] + {"0": "1", "1": "0", "4": "6", "6": "4"}[path[-1]]


def filled(draw: random.Random, path: Path) -> Path:
    """An identifier that the path covers."""
    digits = draw.choice(["0", "1", "01"])
    if len(path) < 33:
        path += "".join(draw.choices(digits, k=32 - len(path))) + draw.choice("46")
    return path + "".join(draw.choices(digits, k=33 + WIDTHS[path[32]] - len(path)))


def deeper(draw: random.Random, prefix: Path, homes: list[Path]) -> Path:
    """A prefix strictly below this one, or the prefix itself where it is an identifier."""
    inside = [home for home in homes if covers(prefix, home)]
    xeid = draw.choice(inside) if inside else filled(draw, prefix)
    steps = [1, 1, 2, 3, 5, 8, 16, 64]
    lengths = [len(prefix) + draw.choice(steps), draw.choice([28, 31, 32, 33, 41, 49, 57])]
    if draw.random() < 0.1:
        lengths = [len(xeid)]
    longer = [length for length in lengths if len(prefix) < length <= len(xeid)]
    return xeid[: draw.choice(longer)] if longer else prefix


def draw_locators(draw: random.Random, count: int) -> list[str]:
    """Texts of addresses, each of which stands for another one."""
    texts = [f"127.0.{n // 10}.{n % 10}" for n in range(1, count)]
    return draw.sample(texts + [f"FD00:0::{n:04x}" for n in range(1, count)], count)


def draw_groups(draw: random.Random, root: str | None) -> dict[str, tuple[str, str]]:
    """Each group's kind, and its locators in one text; the first group is of nodes, with these locators if given."""
    names = {"root": "node"} | {f"n{n}": "node" for n in range(draw.randrange(4))} | {f"ms-{n}": "ms" for n in range(3)}
    taken = [] if root is None else root.split()
    locators = [locator for locator in draw_locators(draw, 40) if locator not in taken]
    groups = {}
    for name, kind in names.items():
        count = draw.choice([1, 1, 1, 2, 2, 3, 3, 8 if draw.random() < 0.1 else 1])
        groups[name] = (kind, " ".join(locators.pop() for _ in range(count)))
    if root is not None:
        groups["root"] = ("node", root)
    return groups


def draw_zones(draw: random.Random, groups: dict[str, tuple[str, str]], homes: list[Path]) -> list[Zone]:
    zones = [Zone("", "node", "root")]
    for _ in range(draw.choice([0, 4, 8, 12, 16, 20, 30])):
        above = draw.choice([zone for zone in zones if zone.kind == "node"])
        prefix = deeper(draw, above.prefix, homes)
        group = draw.choice(list(groups))
        zone = Zone(prefix, groups[group][0], group)
        overlapping = [other for other in zones if overlap(other.prefix, prefix)]
        is_below_servers = any(other.kind == "ms" and covers(other.prefix, prefix) for other in overlapping)
        has_zones_below = zone.kind == "ms" and any(covers(prefix, other.prefix) for other in overlapping)
        if not is_below_servers and not has_zones_below and all(other.prefix != prefix for other in zones):
            zones.append(zone)
    return zones


def draw_sites(draw: random.Random, zones: list[Zone], homes: list[Path]) -> list[Site]:
    sites: list[Site] = []
    places = [zone.prefix for zone in zones if zone.kind == "ms"]
    for _ in range(draw.choice([0, 4, 8, 12, 20]) if places else 0):
        above = draw.choice(places)
        prefix = above if draw.random() < 0.1 else deeper(draw, above, homes)
        if all(site.prefix != prefix for site in sites):
            etrs = [f"192.0.2.{n}" for n in range(draw.choice([0, 0, 0, 1, 2, 8]))]
            sites.append(Site(prefix, etrs))
            places.append(prefix)
    return sites


def draw_register(draw: random.Random, root: str | None = None) -> str:
    """The text of an accepted register, its rows in any order; the root has these locators if they are given."""
    homes = [draw_home(draw) for _ in range(draw.choice([1, 3, 6]))]
    homes += [turned(home) for home in homes]
    groups = draw_groups(draw, root)
    zones = draw_zones(draw, groups, homes)
    rows = [f"group-{kind},,{name},{locators}\n" for name, (kind, locators) in groups.items()]
    rows += [f"{zone.kind},{write_prefix(zone.prefix)},{zone.group},\n" for zone in zones]
    rows += [f"site,{write_prefix(site.prefix)},,{' '.join(site.etrs)}\n" for site in draw_sites(draw, zones, homes)]
    draw.shuffle(rows)
    return COLUMNS + "".join(rows)


def with_other_etrs(draw: random.Random, rows: list[str]) -> list[str]:
    """The rows, of which a site has got its ETR or lost it."""
    sites = [at for at, row in enumerate(rows) if row.startswith("site,")]
    if sites:
        at = draw.choice(sites)
        before, _, etrs = rows[at].rpartition(",")
        rows[at] = f"{before},{'' if etrs else '192.0.2.99'}"
    return rows


def with_other_group(draw: random.Random, rows: list[str]) -> list[str]:
    """The rows, of which a zone other than the root's belongs to another group of its kind."""
    zones = [at for at, row in enumerate(rows) if row.split(",")[0] in ("node", "ms") and row.split(",")[1] != "*"]
    if zones:
        at = draw.choice(zones)
        kind, prefix, _, _ = rows[at].split(",")
        names = [row.split(",")[2] for row in rows if row.startswith(f"group-{kind},")]
        rows[at] = f"{kind},{prefix},{draw.choice(names)},"
    return rows


def draw_further(draw: random.Random, register: str) -> str:
    """A register that may take the place of this one: mostly with the same root locators."""
    rows = register.rstrip("\n").split("\n")
    root_group = next(row.split(",")[2] for row in rows if row.startswith("node,*,"))
    root = next(row.split(",")[3] for row in rows if row.startswith(f"group-node,,{root_group},"))
    kind = draw.choice(["etrs", "etrs", "group", "group", "same root", "same root", "same root", "any"])
    if kind == "any":
        return draw_register(draw)
    if kind == "same root":
        return draw_register(draw, root)
    changed = with_other_etrs(draw, rows) if kind == "etrs" else with_other_group(draw, rows)
    return "\n".join(changed) + "\n"


def draw_xeids(draw: random.Random, register: Register) -> list[Path]:
    """Identifiers in the register's prefixes, beside them, and one anywhere."""
    prefixes = [zone.prefix for zone in register.zones] + [site.prefix for site in register.sites]
    inside = [filled(draw, prefix) for prefix in prefixes]
    beside = [filled(draw, turned(prefix)) for prefix in prefixes if prefix]
    parts = [filled(draw, turned(prefix[: draw.randrange(len(prefix)) + 1])) for prefix in prefixes if prefix]
    return inside + beside + parts + [draw_home(draw)]


# -- Scripts drawn by lot -------------------------------------------------------------------------------------------

WAITS = [0, 1, 999, 1000, 1999, 2000, 2001, 59999, 60000, 899999, 900000, 86399999, 86400000, LARGEST_NUMBER]

# How often a step is an ask, the delivery of a new datagram, of an old one, of one not sent yet, a wait, a tick, or a
# wait up to the next deadline with a tick.
KINDS = ["ask", "new", "old", "unsent", "wait", "tick", "lose", "replace"]
HABITS = {
    "prompt": [3, 14, 1, 0.2, 1, 0.3, 0.5, 1.5],
    "mixed": [3, 8, 1, 0.3, 3, 1, 3, 1.5],
    "lossy": [1, 4, 0.5, 0.2, 1, 1, 6, 1],
    "repeating": [2, 6, 6, 0.5, 2, 1, 0.5, 2],
}


def draw_wait(draw: random.Random, run: Run) -> int:
    """A wait that matters: a time of the rules, up to a deadline or an end or one millisecond beside it, or any."""
    marks = [lookup.deadline for lookup in run.pending[:5]] + [int(entry.end) for entry in run.entries.values()]
    kind = draw.choice(["rule", "mark", "mark", "any"])
    if kind == "mark" and marks:
        return max(0, draw.choice(marks) - run.moment + draw.choice([-1, 0, 0, 1]))
    if kind == "any":
        return draw.choice([draw.randrange(3000), draw.randrange(1000), draw.randrange(LARGEST_NUMBER + 1)])
    # Short ones more often: after a long one little is left.
    return draw.choice(WAITS[:7] * 3 + WAITS)


def draw_number(draw: random.Random, run: Run, kind: str, waiting: list[int]) -> int:
    """The number of a datagram to deliver; those never delivered are waiting."""
    if kind == "new":
        return waiting.pop() if draw.random() < 0.7 else waiting.pop(draw.randrange(len(waiting)))
    if kind == "unsent" or not run.sent:
        return draw.choice([len(run.sent), len(run.sent) + 1, LARGEST_NUMBER])
    return draw.randrange(len(run.sent))


def draw_line(draw: random.Random, run: Run, kind: str, xeids: list[Path], waiting: list[int]) -> str:
    if kind == "tick":
        return "tick"
    if kind == "replace":
        numbers = [*range(len(run.registers)), *range(len(run.registers)), len(run.registers), LARGEST_NUMBER]
        return f"replace {draw.choice(numbers)}"
    if kind == "wait":
        return f"wait {draw_wait(draw, run)}"
    if kind == "deadline":
        deadline = min((lookup.deadline for lookup in run.pending), default=0)
        return f"wait {max(0, deadline - run.moment)}"
    if kind == "ask" or (kind == "new" and not waiting):
        text = write_xeid(draw.choice(xeids))
        return f"ask {text.upper() if draw.random() < 0.1 else text}"
    return f"deliver {draw_number(draw, run, kind, waiting)}"


def draw_kinds(draw: random.Random, replaces: bool) -> list[str]:
    """The kinds of a script's steps, in three parts with a habit each. One in a hundred fills the table first."""
    is_crowd = draw.random() < 0.01
    kinds = ["ask"] * (draw.choice([1023, 1024, 1025, 1040]) if is_crowd else 1)
    for habit in draw.choices(list(HABITS.values()), k=3):
        weights = habit if replaces else habit[:-1] + [0]
        kinds += draw.choices(KINDS, weights, k=draw.choice([5, 10, 20, 40]))
    return [each for kind in kinds for each in (["deadline", "tick"] if kind == "lose" else [kind])]


def draw_lines(draw: random.Random, run: Run, xeids: list[Path]) -> list[str]:
    """A script; the plain resolver goes along, so that its numbers and waits can be aimed."""
    few = draw.sample(xeids, min(len(xeids), draw.choice([1, 2, 4, 8])))
    lines: list[str] = []
    waiting: list[int] = []
    for kind in draw_kinds(draw, len(run.registers) > 1):
        before = len(run.sent)
        line = draw_line(draw, run, kind, few, waiting)
        run.step(read_step(line))
        lines.append(line)
        waiting += range(before, len(run.sent))
    return lines


# Lines that are no steps, with the escapes of Python.
WRONG_LINES = r"""
deliver x|deliver|deliver |deliver -1|deliver +1|deliver 00|deliver 01|deliver 4294967296|deliver 18446744073709551616
replace|replace x|replace -1|replace 01|replace 4294967296|replaced 1
wait 4294967296|wait 1.5|wait 0x10|wait 007|wait  5|wait 5 |wait\t5|wait 5 5| wait 5|wait 5\0|wait \xb2
tick | tick|tick 1|Tick|ticks|tick\r|\r| |#|\0|\xff|nothing|reply 1|now 5
ask|ask |ask 10.0.0.1|ask *|ask [0]*|ask [0]10.0.0.1/32|ask [0]10.0.0|ask [00]10.0.0.1|ask [0]10.0.0.01
ask [0]10.0.0.256|ask [4294967296]::|ask [0]:::|ask [0]1::2::3|ask [0]::1.2.3.4|ask [0]12345::|ask [0]1:2:3:4:5:6:7
ask [0]1:2:3:4:5:6:7:8::|ask [0] ::|ask  [0]::|ask [0]:: |ask [-1]::|ask []::|ask [0/32]::|ask [0]|ask [0]::\xc3\xa9
ask\t[0]::|ask [0]::g|ask 0]::|ask [0::|ask [0]]::
"""


def draw_wrong_line(draw: random.Random) -> bytes:
    line = draw.choice([line for row in WRONG_LINES.strip("\n").split("\n") for line in row.split("|")])
    return line.encode().decode("unicode_escape").encode("latin-1")


def spoiled(draw: random.Random, lines: list[bytes]) -> bytes:
    """A script with something in it that may not be there, or may."""
    at = draw.randrange(len(lines))
    fault = draw.choice(["wrong", "wrong", "wrong", "two", "returns", "return", "blank", "zero"])
    if fault in ("wrong", "two"):
        lines.insert(at, draw_wrong_line(draw))
    if fault == "two":
        lines.insert(draw.randrange(len(lines)), draw_wrong_line(draw))
    if fault in ("return", "blank"):
        lines[at] += b"\r" if fault == "return" else b" "
    if fault == "zero":
        lines[at] = lines[at].replace(b" ", b" 0")
    return (b"\r\n" if fault == "returns" else b"\n").join(lines + [b""])


def draw_script(draw: random.Random, registers: list[Register], words: Words, xeids: list[Path]) -> bytes:
    lines = [line.encode() for line in draw_lines(draw, words.run(*registers), xeids)]
    if draw.random() < 0.06:
        return spoiled(draw, lines)
    if draw.random() < 0.05:
        # Empty lines are no steps.
        lines = [line + b"\n" * draw.randrange(3) for line in [b""] + lines]
    script = b"\n".join(lines + [b""])
    return script[:-1] if draw.random() < 0.1 else script


def draw_words(draw: random.Random, register: Register) -> Words:
    locators = [locator for group in register.locators.values() for locator in group]
    me = draw.choice([None, None, "127.0.0.54", "fd00::ffff", draw.choice(locators)])
    if draw.random() < 0.15:
        # A few nonces are left, or about as many as lookups may be pending.
        left = draw.choice([draw.randrange(6), draw.randrange(60), MOST_PENDING + draw.randrange(-1, 2)])
        return Words(me, LAST_NONCE - left)
    return Words(me, draw.choice([None, None, 0, 1, draw.getrandbits(64)]))
