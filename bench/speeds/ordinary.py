#!/usr/bin/env python3
"""Writes a full register of sites to standard output: bench/speeds/ordinary.py INSTANCES|hosts|scattered

INSTANCES: sites of IPv4 /24 in one zone of Map-Servers for each of 1 to 256 instances, side by side. hosts: single
IPv4 addresses of one instance, drawn by lot. scattered: single IPv6 addresses, each of an instance of its own, drawn by
lot. 65,535 rows in all.
"""
import ipaddress
import random
import sys

ROWS = 65535
HEAD = ["kind,prefix,group,addresses", "group-node,,root,127.0.0.1", "group-ms,,east,127.0.0.2", "node,*,root,"]


def side_by_side(instances):
    zones = [f"ms,[{n}]10.0.0.0/7,east," for n in range(instances)]
    for n in range(ROWS - 3 - instances):
        iid, place = n % instances, n // instances
        zones.append(f"site,[{iid}]{10 + (place >> 16)}.{place >> 8 & 255}.{place & 255}.0/24,,192.0.2.1")
    return zones


def by_lot(zone, most, site):
    """A zone, and a site for each of so many numbers below `most`."""
    return [zone] + [site(n) for n in random.Random(1).sample(range(most), ROWS - 4)]


def rows_of(word):
    if word == "hosts":
        zone = "ms,[0]0.0.0.0/0,east,"
        return by_lot(zone, 1 << 32, lambda n: f"site,[0]{ipaddress.IPv4Address(n)}/32,,192.0.2.1")
    if word == "scattered":
        zone = "ms,[0/1]*,east,"
        return by_lot(zone, 1 << 31, lambda n: f"site,[{n}]2001:db8::{n & 65535:x}/128,,192.0.2.1")
    return side_by_side(int(word))


def main(words):
    counts = [str(n) for n in range(1, 257)]
    if len(words) != 1 or words[0] not in ["hosts", "scattered", *counts]:
        sys.exit(__doc__)
    sys.stdout.write("\n".join(HEAD + rows_of(words[0])) + "\n")


main(sys.argv[1:])
