#!/usr/bin/env python3
"""Lists the registers of a tree for the program of bench/scale, and changes some of them: list.py FOLDER [CHANGED]

FOLDER is one of tools/make_tree.py. Prints a line for each register: its level (root, region, member), its file, that
of the register that replaces it or nothing, and the groups that its parent delegates to. So many registers of members,
spread over all of them, get a replacement in FOLDER/changed: of its sites each tenth is gone, and each other tenth has
lost its ETRs, or gained some; and each zone of Map-Servers is served by the next group of them, where there is one.
What the parents delegate to stays as it is.
"""
from __future__ import annotations

import json
import pathlib
import sys

FEWEST_ZONES = 2


def next_groups(rows: list[list[str]]) -> dict[str, str]:
    """The group of Map-Servers behind each one, of those to which DDT nodes of the same register delegate."""
    names = [row[2] for row in rows if row[0] == "group-ms"]
    if len(names) < FEWEST_ZONES:
        return {}
    return dict(zip(names, names[1:] + names[:1]))


def changed(rows: list[list[str]]) -> list[list[str]]:
    """The rows of the replacement."""
    groups = next_groups(rows)
    found = []
    sites = 0
    for kind, prefix, group, addresses in rows:
        if kind == "ms":
            group = groups.get(group, group)
        if kind == "site":
            sites += 1
            if sites % 10 == 3:
                continue
            if sites % 10 == 7:
                addresses = "" if addresses else "198.51.100.1"
        found.append([kind, prefix, group, addresses])
    return found


def replace(folder: pathlib.Path, file: str) -> pathlib.Path:
    """Writes the replacement of a register."""
    head, *lines = (folder / file).read_text().splitlines()
    (folder / "changed").mkdir(exist_ok=True)
    path = folder / "changed" / file
    rows = changed([line.split(",") for line in lines])
    path.write_text("\n".join([head, *(",".join(row) for row in rows)]) + "\n")
    return path


def main() -> int:
    if len(sys.argv) not in (2, 3):
        sys.exit(__doc__)
    folder = pathlib.Path(sys.argv[1]).resolve()
    registers = json.loads((folder / "tree.json").read_text())["registers"]
    members = [each["name"] for each in registers if each["sites"]]
    count = min(int(sys.argv[2]) if len(sys.argv) == 3 else 0, len(members))
    chosen = {members[n * len(members) // count] for n in range(count)}
    regions = {each["name"] for each in registers if each["parent"] == "root"}
    for each in registers:
        level = "root" if each["parent"] is None else "region" if each["name"] in regions else "member"
        replacement = replace(folder, each["file"]) if each["name"] in chosen else ""
        groups = each["groups"] or ["root"]
        print(f"{level},{folder / each['file']},{replacement},{' '.join(groups)}")
    return 0


if __name__ == "__main__":
    sys.exit(main())
