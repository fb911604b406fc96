#!/usr/bin/env python3
"""Writes a tree of registers, one for each organisation, or judges the seams of one.

usage: make_tree.py FOLDER SITES [--seed N] [--instances N] [--faults N]
       make_tree.py --judge FOLDER [--by DDTPLAN]
       make_tree.py --test

The tree has a root, regions and members. The root's register delegates to the regions' servers, a region's to its
members' servers, and a member's has sites: 10,000 to 10,000,000 of them in all. Each register is a file of FOLDER that
`ddt check` accepts, of at most 65,535 rows. It has the zones that its organisation runs, those that it delegates, and
the root. Prefixes are of both families, in up to eight instances. The same words give the same files.

FOLDER/tree.json names of each register its file, its parent, the groups that the parent delegates to, those that are
run from it, and how many rows and sites it has. FOLDER/tree.csv says for `ddtplan seam --index` which groups are run
from which register. With --faults so many seams are faulty, each in one way, by what the parent's register says of
the child; `faults` of tree.json lists them, and so does standard output, as PARENT, CHILD and KIND.

--judge looks at each seam, in plain Python, as `ddtplan seam PARENT CHILD --foreign GROUP ..` does: the rows of both
have to be an accepted register, whose groups each have their configuration by one side, and the child's by its own. It
prints the seams that aren't good, as PARENT, CHILD and why. With --by that program judges, and what it says of
tree.csv as a whole is compared with what plain Python says. The status is 1 where the seams that aren't good are not
those that tree.json lists as faulty, or where the two differ.
"""
from __future__ import annotations

import argparse
import collections
import dataclasses
import functools
import ipaddress
import json
import multiprocessing
import pathlib
import random
import subprocess
import sys
import tempfile
from collections.abc import Callable, Iterator

HEAD = "kind,prefix,group,addresses"
MOST_ROWS = 65_535
MOST_LOCATORS = 8
# Of a member's rows all but these are sites.
MOST_SITES = 65_000
SITES_OF_A_MEMBER = 8_000
# A member with fewer sites has Map-Servers alone, and one with more has DDT nodes above them.
FEW_SITES = 1_000
MOST_INSTANCES = 8
MOST_MEMBERS = 200
# A region's first octet of IPv4, but for those of the loopback, and of locators and above.
OCTETS = [octet for octet in range(1, 192) if octet != 127]
# The second octet of what no member of a region has.
SPARE = 255
# A member's nodes have eight parts of each zone, and delegate all but the last: identifiers there are in a hole.
PARTS = 8
GROUPS_OF_A_MEMBER = 4
ETRS_OF_A_MEMBER = 64


# ---- addresses


def v4(number: int) -> str:
    return ".".join(str(number >> shift & 255) for shift in (24, 16, 8, 0))


def v6(number: int) -> str:
    return str(ipaddress.IPv6Address(number))


def locator(number: int) -> str:
    """The locator of a number: each third one is of IPv6."""
    return v6((0x20010DB8 << 96) + number) if number % 3 == 2 else v4((192 << 24) + number)


def etr(number: int) -> str:
    return v6((0x20010DB9 << 96) + number) if number % 5 == 4 else v4((208 << 24) + number)


@dataclasses.dataclass(frozen=True)
class Block:
    """A block of addresses of one instance."""

    instance: int
    family: int
    address: int
    length: int

    def text(self) -> str:
        shown = v4(self.address) if self.family == 4 else v6(self.address)
        return f"[{self.instance}]{shown}/{self.length}"

    def inside(self, number: int, digits: int) -> Block:
        """The block of a number among those that are longer by some digits."""
        length = self.length + digits
        return Block(self.instance, self.family, self.address + (number << width(self.family) - length), length)


def width(family: int) -> int:
    return 32 if family == 4 else 128


def site_length(family: int) -> int:
    """The length of the smallest site of which a member may have many."""
    return 32 if family == 4 else 48


def blocks_of_region(region: int, instances: list[int]) -> list[Block]:
    four = [Block(instance, 4, OCTETS[region] << 24, 8) for instance in instances]
    return four + [Block(instance, 6, (0x2400 << 112) + (region << 104), 24) for instance in instances]


def blocks_of_member(region: int, number: int, instances: list[int]) -> list[Block]:
    """A block of each family in the member's own instance, and of each fourth member one of IPv4 in the next."""
    wanted = [(instances[number % len(instances)], 4), (instances[number % len(instances)], 6)]
    if number % 4 == 3 and len(instances) > 1:
        wanted.append((instances[(number + 1) % len(instances)], 4))
    of_region = {(block.instance, block.family): block for block in blocks_of_region(region, instances)}
    return [of_region[each].inside(number, 8) for each in wanted]


# ---- organisations


@dataclasses.dataclass(frozen=True)
class Group:
    name: str
    kind: str
    locators: tuple[str, ...]

    def row(self) -> str:
        return f"group-{self.kind},,{self.name},{' '.join(self.locators)}"


@dataclasses.dataclass(frozen=True)
class Delegation:
    """What the parent's register has of a child: the servers, the zones, and further rows."""

    group: Group
    zones: tuple[Block, ...]
    more: tuple[str, ...] = ()

    def zone_rows(self) -> list[str]:
        return [f"{self.group.kind},{zone.text()},{self.group.name}," for zone in self.zones]


@dataclasses.dataclass(frozen=True)
class Child:
    """A region or a member: its place in the tree, and what is delegated to it."""

    name: str
    parent: str
    number: int
    delegation: Delegation
    spare: Block
    sites: int = 0


@dataclasses.dataclass(frozen=True)
class Region:
    number: int
    members: tuple[int, ...]


@dataclasses.dataclass(frozen=True)
class Plan:
    """The whole tree: how many sites each member has, by region."""

    seed: int
    instances: list[int]
    regions: list[Region]

    def draw(self, name: str) -> random.Random:
        """The random numbers of an organisation."""
        return random.Random(f"{self.seed} {name}")


def group_of(plan: Plan, name: str, kind: str, number: int, most: int) -> Group:
    """The group of a number, which lists up to so many locators."""
    count = plan.draw(name).randint(min(2, most), most)
    return Group(name, kind, tuple(locator(MOST_LOCATORS * number + n) for n in range(count)))


def root_group() -> Group:
    return Group("root", "node", tuple(locator(n) for n in range(MOST_LOCATORS)))


def region_of(plan: Plan, region: Region) -> Child:
    name = f"region-{region.number}"
    group = group_of(plan, name, "node", 1 + region.number, 4)
    zones = tuple(blocks_of_region(region.number, plan.instances))
    spare = Block(plan.instances[-1] + 1, 4, OCTETS[region.number] << 24, 8)
    return Child(name, "root", region.number, Delegation(group, zones), spare)


def first_group(plan: Plan, region: Region, number: int) -> int:
    """The number of a member's first group."""
    return 1 + len(plan.regions) + GROUPS_OF_A_MEMBER * (MOST_MEMBERS * region.number + number)


def member_of(plan: Plan, region: Region, number: int) -> Child:
    name = f"member-{region.number}-{number}"
    sites = region.members[number]
    kind = "ms" if sites < FEW_SITES else "node"
    group = group_of(plan, name, kind, first_group(plan, region, number), 3)
    zones = tuple(blocks_of_member(region.number, number, plan.instances))
    home = next(block for block in blocks_of_region(region.number, plan.instances) if block.family == 4)
    spare = home.inside(SPARE, 8).inside(number, 8)
    return Child(name, f"region-{region.number}", number, Delegation(group, zones), spare, sites)


# ---- sites


def sites_in(parts: list[Block], count: int, etrs: list[str], draw: random.Random) -> Iterator[str]:
    """Sites of parts of one length: each in a slot of its own, but for some that are inside the one before."""
    depth = site_length(parts[0].family) - parts[0].length
    each = -(-count // len(parts))
    slots = max(each - 1, 1).bit_length()
    slack = min(8, depth - slots)
    digits = depth - slack
    factor, shift = draw.randrange(1 << digits) | 1, draw.randrange(1 << digits)
    outer = None
    for n in range(count):
        part, place = parts[n % len(parts)], n // len(parts)
        if outer is not None and n % 16 == 15 and slack:
            rest = site_length(outer.family) - outer.length
            block, outer = outer.inside(draw.randrange(1 << rest), rest), None
        else:
            block = part.inside((place * factor + shift) & (1 << digits) - 1, digits)
            block = outer = block.inside(0, draw.randrange(slack)) if slack else block
        yield f"site,{block.text()},,{etrs_of(etrs, draw)}"


def etrs_of(etrs: list[str], draw: random.Random) -> str:
    """The ETRs of a site: mostly one or two, now and then none, seldom eight."""
    place = draw.random()
    count = 0 if place < 0.05 else 1 if place < 0.6 else 2 if place < 0.95 else draw.randint(3, 8)
    first = draw.randrange(len(etrs))
    return " ".join(etrs[(first + n) % len(etrs)] for n in range(count))


def shares(count: int, parts: int) -> list[int]:
    """A count in so many parts, the first of which is the largest."""
    rest = count // (parts + 1)
    return [count - rest * (parts - 1)] + [rest] * (parts - 1)


# ---- registers


def root_rows(root: Group, delegations: list[Delegation]) -> Iterator[str]:
    yield root.row()
    yield from (each.group.row() for each in delegations)
    yield "node,*,root,"
    for each in delegations:
        yield from each.zone_rows()
        yield from each.more


def region_rows(plan: Plan, region: Child, delegations: list[Delegation]) -> Iterator[str]:
    yield root_group().row()
    yield region.delegation.group.row()
    yield from (each.group.row() for each in delegations)
    yield "node,*,root,"
    yield from region.delegation.zone_rows()
    for each in delegations:
        yield from each.zone_rows()
        yield from each.more


def servers_of(plan: Plan, region: Region, member: Child) -> list[Group]:
    """The groups of Map-Servers below a member's DDT nodes."""
    first = first_group(plan, region, member.number)
    count = GROUPS_OF_A_MEMBER if member.delegation.group.kind == "node" else 1
    return [group_of(plan, f"{member.name}-ms-{n}", "ms", first + n, 3) for n in range(1, count)]


def member_rows(plan: Plan, region: Region, member: Child) -> Iterator[str]:
    draw = plan.draw(f"sites of {member.name}")
    etrs = [etr(ETRS_OF_A_MEMBER * (MOST_MEMBERS * region.number + member.number) + n) for n in range(ETRS_OF_A_MEMBER)]
    own = member.delegation
    servers = servers_of(plan, region, member)
    yield root_group().row()
    yield own.group.row()
    yield from (group.row() for group in servers)
    yield "node,*,root,"
    yield from own.zone_rows()
    for zone, count in zip(own.zones, shares(member.sites, len(own.zones))):
        parts = [zone]
        if servers:
            parts = [zone.inside(n, PARTS.bit_length() - 1) for n in range(PARTS - 1)]
            yield from (f"ms,{part.text()},{servers[n % len(servers)].name}," for n, part in enumerate(parts))
        yield from sites_in(parts, count, etrs, draw)


# ---- faults

Fault = Callable[[Child, int], Delegation]


def with_group(child: Child, **changed: str | tuple[str, ...]) -> Delegation:
    group = dataclasses.replace(child.delegation.group, **changed)
    return dataclasses.replace(child.delegation, group=group)


def other_locator(child: Child, number: int) -> Delegation:
    """One of the servers has another address."""
    return with_group(child, locators=(*child.delegation.group.locators[:-1], stray(number)))


def other_order(child: Child, _number: int) -> Delegation:
    """The servers are the same, in another order."""
    return with_group(child, locators=child.delegation.group.locators[::-1])


def other_name(child: Child, number: int) -> Delegation:
    """The servers are of a group of another name."""
    return with_group(child, name=f"other-{number}")


def other_kind(child: Child, _number: int) -> Delegation:
    """Map-Servers in place of DDT nodes, or the reverse."""
    return with_group(child, kind="node" if child.delegation.group.kind == "ms" else "ms")


def other_group(child: Child, number: int) -> Delegation:
    """The zones are delegated to the servers of another group."""
    strays = (stray(number),)
    row = child.delegation.group.row()
    return dataclasses.replace(with_group(child, name=f"stray-{number}", locators=strays), more=(row,))


def missing_zone(child: Child, _number: int) -> Delegation:
    """The last of the child's zones isn't delegated."""
    return dataclasses.replace(child.delegation, zones=child.delegation.zones[:-1])


def strange_zone(child: Child, _number: int) -> Delegation:
    """A zone is delegated that the child doesn't have."""
    return dataclasses.replace(child.delegation, zones=(*child.delegation.zones, child.spare))


def strange_site(child: Child, number: int) -> Delegation:
    """The parent registers a site in the child's zone that the child doesn't have."""
    zone = child.delegation.zones[0]
    return dataclasses.replace(child.delegation, more=(f"site,{zone.text()},,{stray(number)}",))


FAULTS: dict[str, Fault] = {
    "another locator": other_locator,
    "another order of locators": other_order,
    "another name of the group": other_name,
    "another kind": other_kind,
    "zones of another group": other_group,
    "a missing zone": missing_zone,
    "a zone that the child lacks": strange_zone,
    "a site that the child lacks": strange_site,
}


def stray(number: int) -> str:
    """A locator that no other group has."""
    return v6((0x20010DBA << 96) + number)


def kinds_for(child: Child) -> list[str]:
    """The faults that a seam can have: a site is only in a zone of Map-Servers."""
    return [kind for kind in FAULTS if kind != "a site that the child lacks" or child.delegation.group.kind == "ms"]


# ---- the tree


def sizes(members: int, sites: int, draw: random.Random) -> list[int]:
    """How many sites each member has: by a Zipf law, at most MOST_SITES, and as many in all as are asked for."""
    weights = [(n + 3) ** -0.7 for n in range(members)]
    whole = sum(weights)
    counts = [max(1, min(MOST_SITES, int(sites * weight / whole))) for weight in weights]
    rest = sites - sum(counts)
    for n in range(members):
        more = max(1 - counts[n], min(MOST_SITES - counts[n], rest))
        counts[n] += more
        rest -= more
    draw.shuffle(counts)
    return counts


def planned(sites: int, seed: int, instances: int) -> Plan:
    draw = random.Random(seed)
    members = max(8, sites // SITES_OF_A_MEMBER)
    regions = max(2, round(members**0.5))
    numbers = [0, *sorted(draw.sample(range(1, 1 << 24), instances - 1))]
    counts = sizes(members, sites, draw)
    return Plan(seed, numbers, [Region(n, tuple(counts[n::regions])) for n in range(regions)])


@dataclasses.dataclass(frozen=True)
class Planted:
    """A fault of the seam of a child with its parent; the number tells its names and locators from those of others."""

    parent: str
    kind: str
    number: int


# What the index says of a register.
Entry = dict[str, object]


def drawn_faults(plan: Plan, count: int) -> dict[str, Planted]:
    """The fault of each child whose seam is to be faulty: all kinds in turn."""
    draw = plan.draw("faults")
    children = [child for region in plan.regions for child in (region_of(plan, region), *members_of(plan, region))]
    if count > len(children):
        raise SystemExit(f"there are only {len(children)} seams")
    kinds = list(FAULTS)
    found = {}
    for n, child in enumerate(draw.sample(children, count)):
        possible = kinds_for(child)
        kind = kinds[n % len(kinds)] if kinds[n % len(kinds)] in possible else draw.choice(possible)
        found[child.name] = Planted(child.parent, kind, n)
    return found


def members_of(plan: Plan, region: Region) -> list[Child]:
    return [member_of(plan, region, number) for number in range(len(region.members))]


@dataclasses.dataclass(frozen=True)
class Writer:
    """Writes registers of a tree. Each region's are written apart from the others."""

    folder: pathlib.Path
    plan: Plan
    faults: dict[str, Planted]

    def delegation(self, child: Child) -> Delegation:
        """What the parent's register has of a child, a fault included."""
        planted = self.faults.get(child.name)
        return FAULTS[planted.kind](child, planted.number) if planted else child.delegation

    def write(self, name: str, child: Child | None, runs: list[Group], rows: Iterator[str]) -> Entry:
        """Writes a register, from which some groups are run."""
        count = 0
        with open(self.folder / f"{name}.csv", "w", encoding="ascii") as out:
            out.write(HEAD + "\n")
            for row in rows:
                out.write(row + "\n")
                count += 1
        if count > MOST_ROWS:
            raise RuntimeError(f"{name} has {count} rows")
        return {
            "name": name,
            "file": f"{name}.csv",
            "parent": child.parent if child else None,
            "groups": [child.delegation.group.name] if child else [],
            "runs": [group.name for group in runs],
            "rows": count,
            "sites": child.sites if child else 0,
        }

    def root(self) -> Entry:
        regions = [region_of(self.plan, region) for region in self.plan.regions]
        delegations = [self.delegation(child) for child in regions]
        return self.write("root", None, [root_group()], root_rows(root_group(), delegations))

    def region(self, region: Region) -> list[Entry]:
        """A region's register, and those of its members."""
        child, members = region_of(self.plan, region), members_of(self.plan, region)
        delegations = [self.delegation(member) for member in members]
        rows = region_rows(self.plan, child, delegations)
        return [self.write(child.name, child, [child.delegation.group], rows)] + [
            self.member(region, each) for each in members
        ]

    def member(self, region: Region, member: Child) -> Entry:
        runs = [member.delegation.group, *servers_of(self.plan, region, member)]
        return self.write(member.name, member, runs, member_rows(self.plan, region, member))

    def index(self, registers: list[Entry]) -> None:
        whole = {
            "seed": self.plan.seed,
            "sites": sum(sum(region.members) for region in self.plan.regions),
            "instances": self.plan.instances,
            "registers": registers,
            "faults": [{"parent": each.parent, "child": name, "kind": each.kind} for name, each in self.faults.items()],
        }
        (self.folder / "tree.json").write_text(json.dumps(whole, indent=1) + "\n")
        (self.folder / "tree.csv").write_text("".join(index_lines(registers)))


def index_lines(registers: list[Entry]) -> Iterator[str]:
    """The index that `ddtplan seam --index` reads."""
    yield "register,group\n"
    for each in registers:
        yield from (f"{each['file']},{group}\n" for group in names_in(each, "runs"))


def names_in(register: Entry, key: str) -> list[str]:
    names = register[key]
    assert isinstance(names, list)
    return names


def make(folder: pathlib.Path, plan: Plan, faults: int) -> None:
    writer = Writer(folder, plan, drawn_faults(plan, faults))
    folder.mkdir(parents=True, exist_ok=True)
    registers = [writer.root()]
    with multiprocessing.Pool() as pool:
        for written in pool.imap(writer.region, plan.regions):
            registers += written
    writer.index(registers)
    for name, planted in writer.faults.items():
        print(f"{planted.parent}\t{name}\t{planted.kind}")


# ---- the seams, judged in plain Python

# A prefix is a number and how many digits it has: those of the Instance ID, one of the family, those of the address.
Path = tuple[int, int]
Content = frozenset[tuple[object, ...]]


@functools.lru_cache(maxsize=1 << 16)
def address_of(text: str) -> tuple[int, int]:
    if ":" in text:
        return 6, int(ipaddress.IPv6Address(text))
    first, second, third, fourth = text.split(".")
    return 4, int(first) << 24 | int(second) << 16 | int(third) << 8 | int(fourth)


def path_of(prefix: str) -> Path:
    if prefix == "*":
        return 0, 0
    instance, rest = prefix[1:].split("]")
    text, length = rest.split("/")
    family, address = address_of(text)
    digits = int(length)
    return (int(instance) << 1 | (family == 6)) << digits | address >> width(family) - digits, 33 + digits


class Rows:
    """A register: its groups by name, its zones and sites by prefix; each with what it says."""

    def __init__(self) -> None:
        self.groups: dict[str, tuple[str, tuple[str, ...]]] = {}
        self.zones: dict[Path, tuple[str, str]] = {}
        self.sites: dict[Path, tuple[str, ...]] = {}

    @staticmethod
    def read(path: pathlib.Path) -> Rows:
        rows = Rows()
        with open(path, encoding="ascii") as lines:
            next(lines)
            for line in lines:
                kind, prefix, group, addresses = line.rstrip("\n").split(",")
                if kind == "site":
                    rows.sites[path_of(prefix)] = tuple(addresses.split())
                elif kind in ("node", "ms"):
                    rows.zones[path_of(prefix)] = kind, group
                else:
                    rows.groups[group] = kind.removeprefix("group-"), tuple(addresses.split())
        return rows

    def joined(self, other: Rows) -> Rows | str:
        """The rows of both, or in what they differ."""
        whole = Rows()
        for name in ("groups", "zones", "sites"):
            mine, theirs = getattr(self, name), getattr(other, name)
            if any(theirs[key] != mine[key] for key in mine.keys() & theirs.keys()):
                return f"{name} differ"
            getattr(whole, name).update({**mine, **theirs})
        return whole

    @functools.cached_property
    def lengths(self) -> list[int]:
        return sorted({length for _, length in self.zones}, reverse=True)

    def zone_of(self, path: Path, most: int) -> Path | None:
        """The longest zone of at most so many digits that covers a prefix."""
        number, length = path
        for shorter in self.lengths:
            if shorter <= most and (number >> length - shorter, shorter) in self.zones:
                return number >> length - shorter, shorter
        return None

    def fault(self) -> str | None:
        """The first rule that is broken, of those that the rows of two accepted registers may break together."""
        if len(self.groups) + len(self.zones) + len(self.sites) > MOST_ROWS:
            return "too many rows"
        for kind, group in self.zones.values():
            if self.groups.get(group, ("",))[0] != kind:
                return "another kind"
        servers = collections.Counter(each for _, locators in self.groups.values() for each in locators)
        if any(count > 1 for count in servers.values()):
            return "locators of two groups"
        for path in self.zones:
            above = self.zone_of(path, path[1] - 1)
            if above and self.zones[above][0] == "ms":
                return "a zone below Map-Servers"
        for path in self.sites:
            zone = self.zone_of(path, path[1])
            if zone is None or self.zones[zone][0] != "ms":
                return "a site outside"
        return None

    @functools.cached_property
    def contents(self) -> dict[Path, Content]:
        """What is directly inside each zone: zones, or sites."""
        found: dict[Path, set[tuple[object, ...]]] = {path: set() for path in self.zones}
        for path, (kind, group) in self.zones.items():
            above = self.zone_of(path, path[1] - 1)
            if above is not None:
                found[above].add((path, kind, self.groups[group][1]))
        for path, etrs in self.sites.items():
            zone = self.zone_of(path, path[1])
            assert zone is not None
            found[zone].add((path, etrs))
        return {path: frozenset(inside) for path, inside in found.items()}

    @functools.cached_property
    def configurations(self) -> dict[str, object]:
        """The configuration of each group: its kind, its locators, and what is in each of its zones."""
        zones: dict[str, set[tuple[Path, Content]]] = {name: set() for name in self.groups}
        for path, (_, group) in self.zones.items():
            zones[group].add((path, self.contents[path]))
        return {name: (said, frozenset(zones[name])) for name, said in self.groups.items()}


def judged(parent: Rows, child: Rows, foreign: list[str]) -> str | None:
    """Why a seam isn't good."""
    whole = parent.joined(child)
    if isinstance(whole, str):
        return whole
    fault = whole.fault()
    if fault is not None:
        return fault
    for name, wanted in whole.configurations.items():
        if child.configurations.get(name) == wanted:
            continue
        if name in foreign or parent.configurations.get(name) != wanted:
            return f"configuration of {name}"
    return None


@functools.lru_cache(maxsize=2)
def read_again(path: pathlib.Path) -> Rows:
    return Rows.read(path)


Seam = tuple[pathlib.Path, str, str, list[str]]


def judged_seam(seam: Seam) -> str | None:
    folder, parent, child, foreign = seam
    return judged(read_again(folder / f"{parent}.csv"), Rows.read(folder / f"{child}.csv"), foreign)


def judged_by(program: str, seam: Seam) -> str | None:
    """The same, by `ddtplan seam`."""
    folder, parent, child, foreign = seam
    words = [word for name in foreign for word in ("--foreign", name)]
    files = [str(folder / f"{parent}.csv"), str(folder / f"{child}.csv")]
    done = subprocess.run([program, "seam", *words, *files], capture_output=True, text=True, check=False)
    if done.returncode == 0:
        return None
    # It refuses --foreign where the parent has no group of that name.
    return next(iter((done.stdout + done.stderr).splitlines()), "without a line")


# What is wrong with a tree, by the register that delegates: the register that it meets, or the group that nobody runs
# or whose zone is inside one that is delegated.
Wrong = set[tuple[str, str]]


def judged_tree(folder: pathlib.Path, registers: list[Entry]) -> Wrong:
    runners = {group: str(each["name"]) for each in registers for group in names_in(each, "runs")}
    wrong: Wrong = set()
    for each in registers:
        rows = read_again(folder / str(each["file"]))
        delegated = delegated_by(rows, names_in(each, "runs"))
        wrong |= {(str(each["name"]), group) for group in inside(rows, delegated)}
        for group in {rows.zones[path][1] for path in delegated}:
            other = runners.get(group, group)
            if group not in runners or met(folder, each, registers, other):
                wrong.add((str(each["name"]), other))
    return wrong


def delegated_by(rows: Rows, runs: list[str]) -> list[Path]:
    """The zones that a register's organisation doesn't run, below one that it does."""
    own = Rows()
    own.zones = {path: said for path, said in rows.zones.items() if said[1] in runs}
    return [path for path, (_, group) in rows.zones.items() if group not in runs and own.zone_of(path, path[1] - 1)]


def inside(rows: Rows, delegated: list[Path]) -> list[str]:
    """The groups of zones inside delegated ones."""
    given = Rows()
    given.zones = {path: rows.zones[path] for path in delegated}
    return [group for path, (_, group) in rows.zones.items() if given.zone_of(path, path[1] - 1)]


def met(folder: pathlib.Path, register: Entry, registers: list[Entry], other: str) -> str | None:
    """Why the seam of a register with another isn't good."""
    theirs = next(each for each in registers if each["name"] == other)
    return judged_seam((folder, str(register["name"]), other, names_in(theirs, "runs")))


def told_of_tree(folder: pathlib.Path, program: str) -> Wrong:
    """What is wrong with a tree, by `ddtplan seam --index`."""
    words = [program, "seam", "--index", str(folder / "tree.csv")]
    done = subprocess.run(words, capture_output=True, text=True, check=False)
    lines = [line.split("\t") for line in done.stdout.splitlines()]
    told = {named(fields) for fields in lines if fields[0].endswith(".csv")}
    if done.returncode != (1 if told else 0):
        raise SystemExit(f"status {done.returncode}: {done.stderr}")
    return told


def named(fields: list[str]) -> tuple[str, str]:
    """The register of a line FILE, FILE, why or FILE, PREFIX, GROUP, why; and the other register or the group."""
    return pathlib.Path(fields[0]).stem, pathlib.Path(fields[1]).stem if len(fields) == 3 else fields[2]


def judge_tree(folder: pathlib.Path, registers: list[Entry], program: str) -> int:
    """How many faults of a tree the program and plain Python tell differently."""
    wanted, told = judged_tree(folder, registers), told_of_tree(folder, program)
    for name, other in sorted(wanted ^ told):
        print(f"{name}\t{other}\ttold {'by the program' if (name, other) in told else 'in plain Python'} alone")
    return len(wanted ^ told)


def judge(folder: pathlib.Path, program: str | None) -> int:
    index = json.loads((folder / "tree.json").read_text())
    seams = [(folder, each["parent"], each["name"], each["groups"]) for each in index["registers"] if each["parent"]]
    faulty = {(fault["parent"], fault["child"]) for fault in index["faults"]}
    test = functools.partial(judged_by, program) if program else judged_seam
    wrong = 0
    with multiprocessing.Pool() as pool:
        for (_, parent, child, _), why in zip(seams, pool.imap(test, seams, 8)):
            if why is not None:
                print(f"{parent}\t{child}\t{why}")
            wrong += (why is not None) != ((parent, child) in faulty)
    if program:
        wrong += judge_tree(folder, index["registers"], program)
    print(f"{len(seams) - wrong} passed, {wrong} failed")
    return 1 if wrong else 0


# ---- small cases


def expect(name: str, got: object, wanted: object) -> None:
    if got != wanted:
        raise SystemExit(f"{name}: {got!r} and not {wanted!r}")


def test_paths() -> None:
    block = Block(7, 4, 10 << 24, 8)
    expect("a block", block.text(), "[7]10.0.0.0/8")
    expect("a block inside", block.inside(3, 8).text(), "[7]10.3.0.0/16")
    expect("a block of IPv6", Block(0, 6, 0x2400 << 112, 24).inside(1, 8).text(), "[0]2400:1::/32")
    expect("everything", path_of("*"), (0, 0))
    expect("a path of IPv4", path_of("[7]10.0.0.0/8"), ((7 << 1) << 8 | 10, 41))
    expect("a path of IPv6", path_of("[7]2400:1::/32"), ((7 << 1 | 1) << 32 | 0x24000001, 65))


def test_sizes() -> None:
    for members, sites in ((8, 10_000), (1250, 10_000_000), (8, 8 * MOST_SITES), (8, 8)):
        counts = sizes(members, sites, random.Random(1))
        expect(f"{sites} sites", sum(counts), sites)
        expect(f"most of {sites}", min(counts) >= 1 and max(counts) <= MOST_SITES, True)


def small_tree(**changed: str) -> tuple[Rows, Rows]:
    """Two registers with a good seam: a row of the parent's, named by its first words, may be changed or left out."""
    parent = {
        "group-node,,root": ",127.0.0.1",
        "group-ms,,east": ",127.0.1.1 127.0.1.2",
        "node,*": ",root,",
        "ms,[0]10.0.0.0/8": ",east,",
        **changed,
    }
    child = {
        "group-node,,root": ",127.0.0.1",
        "group-ms,,east": ",127.0.1.1 127.0.1.2",
        "node,*": ",root,",
        "ms,[0]10.0.0.0/8": ",east,",
        "site,[0]10.1.0.0/16": ",,127.0.2.1",
    }
    with tempfile.TemporaryDirectory() as room:
        for name, rows in (("parent", parent), ("child", child)):
            lines = [HEAD, *(key + rest for key, rest in rows.items() if rest)]
            pathlib.Path(room, name).write_text("\n".join(lines) + "\n")
        return Rows.read(pathlib.Path(room, "parent")), Rows.read(pathlib.Path(room, "child"))


def test_judge() -> None:
    cases: list[tuple[dict[str, str], str | None]] = [
        ({}, None),
        ({"group-ms,,east": ",127.0.1.2 127.0.1.1"}, "groups differ"),
        ({"group-ms,,east": ",127.0.1.1"}, "groups differ"),
        ({"group-ms,,east": "", "group-ms,,west": ",127.0.1.1", "ms,[0]10.0.0.0/8": ",west,"}, "zones differ"),
        ({"group-ms,,west": ",127.0.1.1"}, "locators of two groups"),
        ({"ms,[0]10.0.0.0/8": ""}, "configuration of root"),
        ({"ms,[0]11.0.0.0/8": ",east,"}, "configuration of east"),
        ({"site,[0]10.2.0.0/16": ",,127.0.2.1"}, "configuration of east"),
        ({"site,[0]10.1.0.0/16": ",,127.0.2.2"}, "sites differ"),
    ]
    for changed, wanted in cases:
        if wanted == "configuration of root":
            # The child's register says all of the root that both say, unless the parent delegates more.
            changed = {**changed, "group-node,,south": ",127.0.3.1", "node,[0]12.0.0.0/8": ",south,"}
        expect(str(changed), judged(*small_tree(**changed), ["east"]), wanted)
    parent, child = small_tree()
    expect("a child that lacks its sites", judged(child, parent, ["east"]), "configuration of east")
    expect("either side runs it", judged(child, parent, []), None)


def test_trees() -> None:
    plan = planned(10_000, 1, 3)
    expect("the same again", planned(10_000, 1, 3), plan)
    with tempfile.TemporaryDirectory() as room:
        for faults in (0, 10):
            folder = pathlib.Path(room, str(faults))
            folder.mkdir()
            writer = Writer(folder, plan, drawn_faults(plan, faults))
            written = [writer.root()] + [each for region in plan.regions for each in writer.region(region)]
            expect("how many are to be faulty", len(writer.faults), faults)
            expect("sites", sum(sites_of(folder, str(each["name"])) for each in written), 10_000)
            wrong = {str(each["name"]) for each in written[1:] if seam_of(folder, each)}
            expect("seams that aren't good", wrong, set(writer.faults))
            writer.index(written)
            rows = (folder / "tree.csv").read_text().splitlines()
            expect("the index", rows[:3], ["register,group", "root.csv,root", "region-0.csv,region-0"])
            expect("each group is run", len(rows) - 1, sum(runs_of(folder, str(each["name"])) for each in written))
            told = judged_tree(folder, written)
            expect("what is wrong with the tree", {wanted_of(name, each) for name, each in writer.faults.items()}, told)
        expect("kinds of faults", len({each.kind for each in writer.faults.values()}) >= 7, True)


def runs_of(folder: pathlib.Path, name: str) -> int:
    """How many groups are run from a register: from a member's all but the root's."""
    return len(Rows.read(folder / f"{name}.csv").groups) - 1 if name.startswith("member") else 1


def wanted_of(name: str, planted: Planted) -> tuple[str, str]:
    """How a fault shows in the whole tree: where another group is named, nobody runs that."""
    group = {"another name of the group": "other", "zones of another group": "stray"}.get(planted.kind)
    return planted.parent, f"{group}-{planted.number}" if group else name


def sites_of(folder: pathlib.Path, name: str) -> int:
    return len(Rows.read(folder / f"{name}.csv").sites)


def seam_of(folder: pathlib.Path, register: Entry) -> str | None:
    groups = register["groups"]
    assert isinstance(groups, list)
    return judged_seam((folder, str(register["parent"]), str(register["name"]), groups))


def test() -> int:
    for case in (test_paths, test_sizes, test_judge, test_trees):
        case()
    print("make_tree.py: its small cases hold")
    return 0


def number_in(least: int, most: int) -> Callable[[str], int]:
    def number(word: str) -> int:
        if not word.isdecimal() or not least <= int(word) <= most:
            raise argparse.ArgumentTypeError(f"a number from {least} to {most} is wanted")
        return int(word)

    return number


def main() -> int:
    words = argparse.ArgumentParser(usage=__doc__, add_help=False)
    words.add_argument("folder", nargs="?", type=pathlib.Path)
    words.add_argument("sites", nargs="?", type=number_in(10_000, 10_000_000))
    words.add_argument("--seed", type=number_in(0, 1 << 63), default=1)
    words.add_argument("--instances", type=number_in(1, MOST_INSTANCES), default=4)
    words.add_argument("--faults", type=number_in(0, MOST_ROWS), default=0)
    words.add_argument("--judge", action="store_true")
    words.add_argument("--by", metavar="DDTPLAN")
    words.add_argument("--test", action="store_true")
    asked = words.parse_args()
    if asked.test:
        return test()
    if asked.folder is None or (asked.sites is None) != asked.judge:
        print(__doc__, file=sys.stderr)
        return 2
    if asked.judge:
        return judge(asked.folder, asked.by)
    make(asked.folder, planned(asked.sites, asked.seed, asked.instances), asked.faults)
    return 0


if __name__ == "__main__":
    sys.exit(main())
