#!/usr/bin/env python3
"""Compares all faults that `ddtplan faults` lists with the rules in plain Python, over random registers.

usage: fault_rules.py COUNT [SEED]

Each register has up to 14 rows of few groups, prefixes and locators, so most break several rules. Compared are the sets
of rule and line. DDTPLAN names the program, by default ./ddtplan. The status is 1 if one register differs; it is then
printed.
"""
from __future__ import annotations

import dataclasses
import ipaddress
import os
import pathlib
import random
import re
import subprocess
import sys
import tempfile
import typing

DDTPLAN = os.environ.get("DDTPLAN", str(pathlib.Path(__file__).resolve().parent.parent / "ddtplan"))
HEAD = "kind,prefix,group,addresses"
TOLD = re.compile(r"^[^:]*:(\d+): (A\d+) ", re.MULTILINE)


@dataclasses.dataclass(frozen=True)
class Row:
    kind: str
    prefix: str
    group: str
    addresses: str

    def text(self) -> str:
        return f"{self.kind},{self.prefix},{self.group},{self.addresses}"

    def locators(self) -> list[str]:
        return self.addresses.split()

    def digits(self) -> str:
        """The path of the prefix: the instance's 32 digits, and those of the address up to the length."""
        if self.prefix == "*":
            return ""
        instance, rest = self.prefix[1:].split("]")
        address, length = rest.split("/")
        number = int(ipaddress.IPv4Address(address))
        return f"{int(instance):032b}{number:032b}"[: 32 + int(length)]


def drawn_prefix(lot: random.Random) -> str:
    if lot.randrange(6) == 0:
        return "*"
    length = lot.choice([8, 9, 10, 16, 17])
    number = lot.choice([10 << 24, 10 << 24 | 1 << 23, 10 << 24 | 1 << 16, 11 << 24]) >> (32 - length) << (32 - length)
    return f"[{lot.choice([0, 0, 1])}]{ipaddress.IPv4Address(number)}/{length}"


def drawn_row(lot: random.Random) -> Row:
    groups, locators = ["a", "b", "c"], [f"192.0.2.{number}" for number in range(9 if lot.randrange(8) else 12)]
    kind = lot.choice(["group-node", "group-ms", "node", "ms", "site"])
    few = " ".join(lot.choice(locators) for _ in range(lot.choice([0, 1, 1, 1, 2, 2, 9])))
    if kind.startswith("group"):
        return Row(kind, "", lot.choice(groups), few)
    if kind == "site":
        return Row(kind, drawn_prefix(lot), "", few)
    return Row(kind, drawn_prefix(lot), lot.choice(groups), "")


class Register(typing.NamedTuple):
    rows: list[Row]

    def of(self, *kinds: str) -> list[tuple[int, Row]]:
        return [(number, row) for number, row in enumerate(self.rows, 1) if row.kind in kinds]


def group_faults(register: Register) -> typing.Iterator[tuple[str, int]]:
    groups = register.of("group-node", "group-ms")
    for number, group in groups:
        locators, earlier = group.locators(), [other for at, other in groups if at < number]
        shared = {locator for other in earlier for locator in other.locators()} & set(locators)
        if not 1 <= len(locators) <= 8 or len(set(locators)) < len(locators) or shared:
            yield "A6", number
        if any(other.group == group.group for other in earlier):
            yield "A10", number


def zone_faults(register: Register) -> typing.Iterator[tuple[str, int]]:
    zones, groups = register.of("node", "ms"), register.of("group-node", "group-ms")
    roots = [number for number, zone in zones if zone.prefix == "*"]
    if not roots:
        yield "A1", 0
    for number, zone in zones:
        if zone.prefix == "*" and (zone.kind == "ms" or number > roots[0]):
            yield "A1", number
        if any(other.prefix == zone.prefix for at, other in zones if at < number):
            yield "A2", number
        named = next((group for _, group in groups if group.group == zone.group), None)
        if named is None:
            yield "A4", number
        elif named.kind != f"group-{zone.kind}":
            yield "A5", number
        if any(other.kind == "ms" and is_above(other, zone) for _, other in zones):
            yield "A7", number


def is_above(zone: Row, other: Row) -> bool:
    return other.digits().startswith(zone.digits()) and other.digits() != zone.digits()


def site_faults(register: Register) -> typing.Iterator[tuple[str, int]]:
    zones, sites = register.of("node", "ms"), register.of("site")
    for number, site in sites:
        if any(other.prefix == site.prefix for at, other in sites if at < number):
            yield "A3", number
        around = [zone for _, zone in zones if site.digits().startswith(zone.digits())]
        nearest = max(around, key=lambda zone: len(zone.digits()), default=None)
        if nearest is None or nearest.kind == "node":
            yield "A8", number
        if len(site.locators()) > 8:
            yield "A9", number


def wanted(register: Register) -> set[tuple[str, int]]:
    """Each broken rule, and its line: rows begin on line 2, and what is of no row is told of line 1."""
    found = [*group_faults(register), *zone_faults(register), *site_faults(register)]
    return {(rule, row + 1) for rule, row in found}


def main(words: list[str]) -> int:
    count = int(words[0])
    lot = random.Random(int(words[1]) if len(words) > 1 else 1)
    failed = 0
    with tempfile.TemporaryDirectory() as folder:
        file = pathlib.Path(folder) / "register.csv"
        for _ in range(count):
            register = Register([drawn_row(lot) for _ in range(lot.randrange(15))])
            file.write_text("\n".join([HEAD, *(row.text() for row in register.rows)]) + "\n")
            said = subprocess.run([DDTPLAN, "faults", str(file)], capture_output=True, text=True, check=False)
            told = [(rule, int(line)) for line, rule in TOLD.findall(said.stdout)]
            faults = wanted(register)
            if set(told) != faults or len(told) != len(faults) or said.returncode != bool(faults):
                failed += 1
                print(f"{file.read_text()}wanted {sorted(faults)}\ngot {said.stdout}{said.stderr}")
    print(f"{count - failed} passed, {failed} failed")
    return 1 if failed else 0


if __name__ == "__main__":
    sys.exit(main(sys.argv[1:]))
