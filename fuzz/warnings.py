#!/usr/bin/env python3
"""Compares the warnings that `ddtplan warn` prints of random registers with their kinds in plain Python.

usage: warnings.py COUNT [SEED]

Each register is accepted and has up to 30 rows: two or three regions of zones, some of whose groups are drawn anew, and
sites whose ETRs are often wrong. Compared are the sets of kind and line. DDTPLAN names the program, by default
./ddtplan. The status is 1 if one register differs, which is then printed, or if a kind was never told.
"""
from __future__ import annotations

import collections
import dataclasses
import ipaddress
import os
import pathlib
import random
import re
import subprocess
import sys
import tempfile

DDTPLAN = os.environ.get("DDTPLAN", str(pathlib.Path(__file__).resolve().parent.parent / "ddtplan"))
HEAD = "kind,prefix,group,addresses"
TOLD = re.compile(r"^[^:]*:(\d+): ([a-z-]+): ", re.MULTILINE)
RESOLVERS = ["198.51.100.53", "2001:db8:53::53"]
WRONG = ["0.0.0.0", "::", "127.0.0.1", "::1", "169.254.1.1", "fe80::1", "224.0.0.1", "ff02::1", "255.255.255.255"]
GOOD = ["198.51.100.1", "198.51.100.2", "203.0.113.9", "2001:db8:1::1", "223.255.255.255", "240.0.0.1", "::2"]
GROUPS = {"root": "node", "us": "node", "eu": "node", "m1": "ms", "m2": "ms", "m3": "ms"}


@dataclasses.dataclass(frozen=True)
class Row:
    line: int
    kind: str
    prefix: str
    group: str
    addresses: tuple[str, ...]

    def text(self) -> str:
        return f"{self.kind},{self.prefix},{self.group},{' '.join(self.addresses)}"

    def path(self) -> str:
        """The prefix's digits: those of the Instance ID, the family as one symbol, and those of the address."""
        if self.prefix == "*":
            return ""
        instance, rest = self.prefix[1:].split("]")
        network = ipaddress.ip_network(rest)
        return f"{int(instance):032b}{path_of(network.network_address)[: 1 + network.prefixlen]}"


def path_of(address: ipaddress.IPv4Address | ipaddress.IPv6Address) -> str:
    """The family and the digits of an address."""
    return f"4{int(address):032b}" if address.version == 4 else f"6{int(address):0128b}"


def locator(text: str) -> str:
    return path_of(ipaddress.ip_address(text))


class Register:
    def __init__(self, rows: list[Row]) -> None:
        self.rows = rows
        self.groups = [row for row in rows if row.kind.startswith("group")]
        self.zones = [row for row in rows if row.kind in ("node", "ms")]
        self.sites = [row for row in rows if row.kind == "site"]
        self.servers = [each for group in self.groups for each in group.addresses]
        self.is_rig = all(ipaddress.ip_address(each).is_loopback for each in self.servers)

    def zone_of(self, path: str) -> Row | None:
        around = [zone for zone in self.zones if path.startswith(zone.path())]
        return max(around, key=lambda zone: len(zone.path()), default=None)

    def above(self, zone: Row) -> Row | None:
        return self.zone_of(zone.path()[:-1]) if zone.path() else None

    def below(self, zone: Row) -> list[Row]:
        return [each for each in self.zones if self.above(each) == zone]

    def links(self) -> collections.Counter[tuple[str, str]]:
        """How many zones each group delegates to each."""
        pairs = [(above.group, zone.group) for zone in self.zones if (above := self.above(zone))]
        return collections.Counter(pairs)

    def is_unreachable(self, text: str) -> bool:
        address = ipaddress.ip_address(text)
        if address.is_loopback:
            return not self.is_rig
        is_link_local = address.is_link_local or text.startswith("169.254.")
        return address.is_unspecified or address.is_multicast or is_link_local or text == "255.255.255.255"

    def is_strange(self, zone: Row | None) -> bool:
        above = self.above(zone) if zone else None
        if zone is None or above is None or above.group == zone.group:
            return False
        links = self.links()
        often = {(host, guest) for (host, guest), count in links.items() if count > 1 and host != guest}
        hosts, guests = {host for host, _ in often}, {guest for _, guest in often}
        return links[above.group, zone.group] == 1 and above.group in hosts and zone.group in guests

    def is_between(self, zone: Row) -> bool:
        above, below = self.above(zone), self.below(zone)
        if zone.kind == "ms" or above is None or above.group == zone.group:
            return False
        return bool(below) and all(each.group == above.group for each in below)

    def is_elsewhere(self, site: Row) -> bool:
        """Whether a site's zone has another group than the zones of the sites just before and behind, which share one."""
        order = sorted(self.sites, key=Row.path)
        at = order.index(site)
        if not 0 < at < len(order) - 1:
            return False
        before, behind = order[at - 1], order[at + 1]
        own, first, second = (self.zone_of(each.path()) for each in (site, before, behind))
        shared = len(os.path.commonprefix([before.path(), behind.path()]))
        above = self.above(own) if own else None
        least = max(len(above.path()) if above else 0, 32)
        if own is None or first is None or second is None:
            return False
        return shared > least and first.group == second.group != own.group

    def of_group(self, group: Row) -> list[str]:
        eids = [locator(each) for each in group.addresses]
        inside = any(("0" * 32 + eid).startswith(site.path()) for eid in eids for site in self.sites)
        unreachable = any(self.is_unreachable(each) for each in group.addresses)
        unnamed = not any(zone.group == group.group for zone in self.zones)
        found = {"unreachable-locator": unreachable, "locator-inside-eids": inside, "group-without-zone": unnamed}
        return [kind for kind, is_so in found.items() if is_so]

    def of_site(self, site: Row) -> list[str]:
        etrs, eids = site.addresses, site.path()[32:]
        paths = [locator(each) for each in etrs]
        found = {
            "unreachable-etr": any(self.is_unreachable(each) for each in etrs),
            "repeated-etr": len(set(etrs)) < len(etrs),
            "etr-is-server": any(each in self.servers for each in etrs),
            "etr-is-resolver": any(each in RESOLVERS for each in etrs),
            "etr-inside-site": len(eids) > 1 and any(path.startswith(eids) for path in paths),
            "site-in-other-region": self.is_elsewhere(site),
        }
        return [kind for kind, is_so in found.items() if is_so]

    def of_zone(self, zone: Row) -> list[str]:
        found = {
            "node-zone-without-child": zone.kind == "node" and not self.below(zone),
            "zone-between": self.is_between(zone),
            "zone-of-strange-group": self.is_strange(zone) and not self.is_strange(self.above(zone)),
        }
        return [kind for kind, is_so in found.items() if is_so]

    def warned(self) -> set[tuple[str, int]]:
        each = [(row, self.of_group(row)) for row in self.groups]
        each += [(row, self.of_site(row)) for row in self.sites]
        each += [(row, self.of_zone(row)) for row in self.zones]
        return {(kind, row.line) for row, kinds in each for kind in kinds}


def drawn(lot: random.Random) -> Register:
    """A register: regions 10, 11 and 12 of instance 0 or 7, with zones of Map-Servers below, and sites in these."""
    rows: list[Row] = []
    is_rig, number = lot.randrange(8) == 0, 0

    def add(kind: str, prefix: str, group: str, addresses: tuple[str, ...]) -> None:
        rows.append(Row(len(rows) + 2, kind, prefix, group, addresses))

    for name, role in GROUPS.items():
        number += 1
        first = f"127.0.0.{number}" if is_rig else f"192.0.2.{number}"
        more = (lot.choice([f"10.1.2.{number}", *WRONG[:1], "fe80::9", f"127.0.9.{number}"]),) if lot.randrange(9) == 0 else ()
        if all(set(more).isdisjoint(row.addresses) for row in rows):
            add(f"group-{role}", "", name, (first, *more))
        else:
            add(f"group-{role}", "", name, (first,))
    add("node", "*", "root", ())
    kinds = {"node": ["root", "us", "eu"], "ms": ["m1", "m2", "m3"]}
    for region in (10, 11, 12):
        instance = lot.choice([0, 0, 0, 7])
        own = "us" if region == 10 else "eu"
        if lot.randrange(5):
            add("node", f"[{instance}]{region}.0.0.0/8", own if lot.randrange(8) else lot.choice(kinds["node"]), ())
        for second in range(1, lot.randrange(2, 6)):
            served = "m1" if region == 10 else "m2"
            group = served if lot.randrange(6) else lot.choice(kinds["ms"])
            if lot.randrange(7) == 0:
                middle = own if lot.randrange(3) else lot.choice(kinds["node"])
                add("node", f"[{instance}]{region}.{second}.0.0/16", middle, ())
                if lot.randrange(4) == 0:
                    continue
                add("ms", f"[{instance}]{region}.{second}.0.0/17", group, ())
            else:
                add("ms", f"[{instance}]{region}.{second}.0.0/16", group, ())
            for third in range(1, lot.randrange(1, 4)):
                inside = f"{region}.{second}.{third}.9"
                etrs = [lot.choice([*GOOD, *GOOD, *WRONG, *RESOLVERS, inside, "192.0.2.2"]) for _ in range(lot.randrange(3))]
                add("site", f"[{instance}]{region}.{second}.{third}.0/24", "", tuple(etrs))
    return Register(rows)


def main(words: list[str]) -> int:
    count = int(words[0])
    lot = random.Random(int(words[1]) if len(words) > 1 else 1)
    failed, told_kinds = 0, collections.Counter()
    options = [word for resolver in RESOLVERS for word in ("--resolver", resolver)]
    with tempfile.TemporaryDirectory() as folder:
        file = pathlib.Path(folder) / "register.csv"
        for _ in range(count):
            register = drawn(lot)
            is_open = lot.randrange(10) == 0
            file.write_text("\n".join([HEAD, *(row.text() for row in register.rows)]) + "\n" * (not is_open))
            said = subprocess.run([DDTPLAN, "warn", *options, str(file)], capture_output=True, text=True, check=False)
            told = [(kind, int(line)) for line, kind in TOLD.findall(said.stdout)]
            wanted = register.warned()
            if is_open:
                wanted.add(("truncated-file", len(register.rows) + 1))
            told_kinds.update(kind for kind, _ in told)
            if set(told) != wanted or len(told) != len(wanted) or said.returncode != bool(wanted):
                failed += 1
                print(f"{file.read_text()}wanted {sorted(wanted)}\ngot {said.stdout}{said.stderr}")
    print(f"{count - failed} passed, {failed} failed, {len(told_kinds)} kinds told")
    return 1 if failed or (count >= 500 and len(told_kinds) < 13) else 0


if __name__ == "__main__":
    sys.exit(main(sys.argv[1:]))
