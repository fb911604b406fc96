#!/usr/bin/env python3
"""Reads what `ddt compile` prints by Python's own TOML reader, and compares it with the register's rows.

Usage: fuzz/read_back.py [REGISTER...]; by default the registers in examples/. Wants Python 3.11. For each group row the
name, kind and locators, the authorities, and in each of them the direct children or the sites are computed from the CSV
by comparing pairs, by prefixes as ipaddress reads them, and compared with the keys of the text. Ends with status 1 at
the first difference. DDT names the program; by default it is ./ddt.
"""
import csv
import ipaddress
import os
import pathlib
import subprocess
import sys
import tomllib

HERE = pathlib.Path(__file__).resolve().parent.parent
DDT = os.environ.get("DDT", str(HERE / "ddt"))


def path(prefix):
    """The digits of a prefix: 32 of the instance, the family's symbol, those of the address."""
    if prefix == "*":
        return ""
    inner, rest = prefix[1:].split("]", 1)
    if "/" in inner:
        instance, length = inner.split("/")
        return f"{int(instance):032b}"[: int(length)]
    network = ipaddress.ip_network(rest)
    address = f"{int(network.network_address):0{network.max_prefixlen}b}"
    return f"{int(inner):032b}" + str(network.version) + address[: network.prefixlen]


def strictly_below(a, b):
    return a != b and a.startswith(b)


def configuration(rows, group):
    """What the group's configuration is to hold, from the rows of the register."""
    locators = {r["group"]: r["addresses"].split() for r in rows if r["kind"].startswith("group-")}
    zones = [r for r in rows if r["kind"] in ("node", "ms")]
    sites = [r for r in rows if r["kind"] == "site"]
    kind = group["kind"].removeprefix("group-")
    authorities = []
    for zone in (z for z in zones if z["group"] == group["group"]):
        at = path(zone["prefix"])
        below = [z for z in zones if strictly_below(path(z["prefix"]), at)]
        held = [
            {"prefix": z["prefix"], "kind": z["kind"], "locators": locators[z["group"]]}
            for z in below
            if not any(strictly_below(path(z["prefix"]), path(y["prefix"])) for y in below)
        ]
        if kind == "ms":
            held = [
                {"prefix": s["prefix"], "etrs": s["addresses"].split()}
                for s in sites
                if path(s["prefix"]).startswith(at)
            ]
        authorities.append({"prefix": zone["prefix"], "child" if kind == "node" else "site": held})
    return {"name": group["group"], "kind": kind, "locators": locators[group["group"]], "authority": authorities}


def read_back(register):
    with open(register, newline="") as file:
        rows = list(csv.DictReader(file))
    groups = [r for r in rows if r["kind"].startswith("group-")]
    for group in groups:
        printed = subprocess.run(
            [DDT, "compile", register, group["group"]], check=True, capture_output=True, text=True
        )
        found, wanted = tomllib.loads(printed.stdout), configuration(rows, group)
        if found != wanted:
            sys.exit(f"{register}: {group['group']}: printed {found}, and not {wanted}")
    print(f"{register}: {len(groups)} configurations hold what the rows say")


for register in sys.argv[1:] or sorted((HERE / "examples").glob("*.csv")):
    read_back(register)
