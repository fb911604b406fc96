"""What a register assigns to an identifier, by longest match over its rows.

A prefix is a number and how many bits that has: 32 of the instance, one of the family, then those of the address.
"""
import bisect
import csv
import ipaddress

WIDTH = 32 + 1 + 128


def path_of(instance, ip, length):
    """The prefix of an address in an instance that has so many bits of the address."""
    version = 0 if ip.version == 4 else 1
    return (instance << 1 | version) << length | int(ip) >> (ip.max_prefixlen - length), 33 + length


def read_prefix(text):
    """A prefix as the register writes it: `*`, `[16/28]*` or `[0]10.0.0.0/8`."""
    if text == "*":
        return 0, 0
    instance, _, block = text[1:].partition("]")
    if block == "*":
        number, _, length = instance.partition("/")
        return int(number) >> (32 - int(length)), int(length)
    address, _, length = block.partition("/")
    return path_of(int(instance), ipaddress.ip_address(address), int(length))


def cut(path, length):
    """The prefix of this length that covers a longer one."""
    return path[0] >> (path[1] - length), length


def covers(outer, inner):
    return outer[1] <= inner[1] and cut(inner, outer[1]) == outer


def longest(rows, path):
    """Of the prefixes in `rows` that cover this one the longest."""
    parts = (cut(path, length) for length in range(path[1], -1, -1))
    return next((part for part in parts if part in rows), None)


def network_of(path, ip):
    """The addresses of a prefix in the instance and the family of an identifier that it covers."""
    return ipaddress.ip_network((ip, max(0, path[1] - 33)), strict=False)


def start_of(path):
    return path[0] << (WIDTH - path[1])


class Register:
    """The zones with their kinds, the sites with their ETRs, and where each of these rows begins."""

    def __init__(self, name):
        self.zones, self.sites = {}, {}
        with open(name, newline="", encoding="utf-8") as file:
            for row in csv.DictReader(file):
                if row["kind"] == "site":
                    self.sites[read_prefix(row["prefix"])] = row["addresses"].split()
                elif row["kind"] in ("node", "ms"):
                    self.zones[read_prefix(row["prefix"])] = row["kind"]
        self.starts = sorted((start_of(row), row) for row in {**self.zones, **self.sites})

    def is_free(self, part, within):
        """Whether no row lies in this part of the row `within` but that row itself."""
        end = start_of(part) + (1 << (WIDTH - part[1]))
        place = bisect.bisect_left(self.starts, (start_of(part), (0, 0)))
        while place < len(self.starts) and self.starts[place][0] < end:
            row = self.starts[place][1]
            if row != within and row[1] >= part[1]:
                return False
            place += 1
        return True

    def widest_free(self, path, within):
        """The least specific part of the row `within` that covers the identifier and has no other row in it."""
        parts = (cut(path, length) for length in range(within[1], path[1] + 1))
        return next(part for part in parts if self.is_free(part, within))

    def assigned(self, ip, instance=0):
        """`registered`, `not-registered` or `hole`, its prefix, and the ETRs of a site."""
        path = path_of(instance, ip, ip.max_prefixlen)
        zone, site = longest(self.zones, path), longest(self.sites, path)
        if self.zones[zone] == "node" or site is None or not covers(zone, site):
            return "hole", self.widest_free(path, zone), []
        if self.sites[site]:
            return "registered", site, self.sites[site]
        return "not-registered", self.widest_free(path, site), []

    def reply_to(self, ip, instance=0):
        """What the Map-Reply that an ITR is to get says, without its TTL."""
        what, prefix, etrs = self.assigned(ip, instance)
        block = f"[{instance}]{network_of(prefix, ip)}"
        return f"registered {block} at {etrs[0]}" if what == "registered" else f"negative {block} action 1"
