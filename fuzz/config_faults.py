#!/usr/bin/env python3
"""Compares the first fault that `ddtd check` names of random configurations with a plain reading of their tables.

usage: config_faults.py COUNT [SEED]

Each configuration has up to three authorities with up to three children or sites, and up to four of its values are
damaged: a key is gone, a value is of another kind, or a text isn't of its key's form. Compared are the fault, the table
that it is in, the key and the text. Where no table has one, `ddtd` must say that it is good, or `4 Shape`. DDTD names
the program, by default ./ddtd. The status is 1 if one configuration differs, which is then printed, or if no fault was
in one of the kinds of tables.
"""
from __future__ import annotations

import collections
import os
import pathlib
import random
import re
import subprocess
import sys
import tempfile
import tomllib
import typing

DDTD = os.environ.get("DDTD", str(pathlib.Path(__file__).resolve().parent.parent / "ddtd"))
NAMES = (["root", "east", "text"], ["", "a b"])
KINDS = (["node", "ms"], ["Node", "", "server"])
PREFIXES = (
    ["*", "[0]10.0.0.0/8", "[0]10.1.0.0/16", "[7]2001:db8::/32"],
    ["[0]10.0.0.0/33", "[0]10.0.0.1/8", "no", ""],
)
LOCATORS = (["192.0.2.1", "192.0.2.2", "2001:db8::1"], ["192.0.2.256", "192.0.2", "", "host"])
# The good and the bad texts of each key.
TEXTS = {"name": NAMES, "kind": KINDS, "prefix": PREFIXES, "locators": LOCATORS, "etrs": LOCATORS}
LISTS = ("locators", "etrs")
BELOW = {"node": "child", "ms": "site"}
OWN = {"top": ("name", "kind", "locators"), "authority": ("prefix",)}
OWN |= {"child": ("prefix", "kind", "locators"), "site": ("prefix", "etrs")}
PLACE = re.compile(r"(top|authority|child|site) [1-9]")
Table = dict[str, typing.Any]


def drawn(key: str) -> str | list[str]:
    """A value of the key's form."""
    good = TEXTS[key][0]
    return random.sample(good, random.randint(0, 2)) if key in LISTS else random.choice(good)


def table(kind: str) -> Table:
    return {key: drawn(key) for key in OWN[kind]}


def configuration() -> Table:
    """A configuration whose tables are right, if not their shape."""
    top = table("top")
    top["authority"] = [table("authority") for _each in range(random.randint(0, 3))]
    for authority in top["authority"]:
        for below in random.sample(["child", "site"], random.randint(0, 2)):
            authority[below] = [table(below) for _each in range(random.randint(0, 3))]
    return top


def tables_of(value: typing.Any) -> list[Table]:
    """All tables of a value that have a key."""
    if isinstance(value, list):
        return [table for each in value for table in tables_of(each)]
    if not isinstance(value, dict) or not value:
        return []
    return [value, *(table for each in value.values() for table in tables_of(each))]


def damage(where: Table) -> None:
    """Takes a key away, or gives it a value that is of another kind or not of its form."""
    key = random.choice(list(where))
    how = random.randrange(4)
    if how == 0:
        del where[key]
    elif how == 1 and isinstance(where[key], list) and random.randrange(2):
        where[key] = [*where[key], 1]
    elif how == 1 or key not in TEXTS:
        where[key] = random.choice([1, True, [1], "text", {}, [[]]])
    elif key in LISTS:
        where[key] = [random.choice(random.choice(TEXTS[key])) for _each in range(random.randint(1, 4))]
    else:
        where[key] = random.choice(TEXTS[key][1])


def text_of(value: typing.Any) -> str:
    """A value in TOML, tables inline."""
    if isinstance(value, dict):
        return "{" + ", ".join(f"{key} = {text_of(each)}" for key, each in value.items()) + "}"
    if isinstance(value, list):
        return "[" + ", ".join(map(text_of, value)) + "]"
    if isinstance(value, bool):
        return str(value).lower()
    return f'"{value}"' if isinstance(value, str) else str(value)


def of_another_kind(key: str) -> str:
    if key not in TEXTS:
        return f"2 Field: %s{key} is no array of tables"
    return f"2 Field: %s{key} is missing, or no {'array of texts' if key in LISTS else 'text'}"


def fault_of_key(where: Table, key: str) -> str | None:
    """The fault of one key, in the words of `ddtd`, with a gap for the place."""
    value, good = where.get(key), TEXTS[key][0]
    texts = value if key in LISTS else [value]
    if not isinstance(texts, list) or not all(isinstance(text, str) for text in texts):
        return of_another_kind(key)
    wrong = next((text for text in texts if text not in good), None)
    if wrong is None:
        return None
    return f"3 Value: %s{key} {'has' if key in LISTS else 'is'} {wrong or 'an empty text'}"


def faults(where: Table, kind: str, role: str, place: tuple[str, ...] = ()) -> typing.Iterator[str]:
    """The faults of a table and of those in it, each with its place, in the order of examination."""
    at = "".join([", ".join(place), ": "] if place else [])
    for key in OWN[kind]:
        if fault := fault_of_key(where, key):
            yield fault % at
    if kind in ("child", "site"):
        return
    inner = BELOW[role] if kind == "authority" else "authority"
    tables = where.get(inner, [])
    if not isinstance(tables, list) or not all(isinstance(each, dict) for each in tables):
        yield of_another_kind(inner) % at
        return
    for number, each in enumerate(tables, 1):
        yield from faults(each, inner, role, (*place, f"{inner} {number}"))


def place_of(fault: str) -> str:
    """The kind of table that a fault is in."""
    return PLACE.findall("top 1" + fault)[-1]


def wanted(top: Table) -> str | None:
    """The fault that `ddtd` is to name. Without a role the top table has one, before its authorities."""
    role = top.get("kind")
    return next(faults(top, "top", role if role in ("node", "ms") else "node"), None)


def is_right(said: str, want: str | None) -> bool:
    return want == said if want else said.startswith(("good: ", "4 Shape: "))


def said_of(path: pathlib.Path) -> str:
    """What `ddtd check` says last, without the file's name: a verdict on the one stream, or one fault on the other."""
    ended = subprocess.run([DDTD, "check", path.name], cwd=path.parent, capture_output=True, text=True, check=False)
    lines = ended.stderr.splitlines() if ended.returncode else ended.stdout.splitlines()[-1:]
    is_whole = len(lines) == 1 and ended.returncode in (0, 2)
    return lines[0].removeprefix(f"{path.name}: ") if is_whole else f"{ended.stdout}{ended.stderr}"


def drawn_text() -> str:
    """A configuration in TOML, damaged at up to four values."""
    top = configuration()
    for _each in range(random.randint(0, 4)):
        if where := tables_of(top):
            damage(random.choice(where))
    return "".join(f"{key} = {text_of(value)}\n" for key, value in top.items())


def main(count: int, seed: int) -> int:
    random.seed(seed)
    places: collections.Counter[str] = collections.Counter()
    with tempfile.TemporaryDirectory() as folder:
        path = pathlib.Path(folder, "a.toml")
        for text in filter(None, (drawn_text() for _each in range(count))):
            path.write_text(text)
            want, said = wanted(tomllib.loads(text)), said_of(path)
            if not is_right(said, want):
                print(f"{text}ddtd says:   {said}\nit is to be: {want}")
                return 1
            places[place_of(want) if want else "none"] += 1
    if missing := {"none", *OWN} - set(places):
        print(f"no fault was in {', '.join(sorted(missing))}")
        return 1
    print(f"{places.total()} configurations, 0 differ")
    return 0


if __name__ == "__main__":
    sys.exit(main(int(sys.argv[1]), int(sys.argv[2]) if len(sys.argv) > 2 else 1))
