#!/usr/bin/env python3
"""Makes NOTICES: tools/make_notices.py, with --check compares it, with --test tries itself

The programs contain crates of the Rattle toolchain: those that crates.txt names for them and for the crates below, and
those below these. Of each crate that has a file of a licence the notices have its text; of a crate that has several, by
choice, that of the MIT License. Wants rt in PATH, whose page `rt doc` tells where the toolchain is.

With --check the status is 1 where NOTICES has another text than it would be given.
"""
from __future__ import annotations

import pathlib
import subprocess
import sys
import tempfile

ROOT = pathlib.Path(__file__).resolve().parent.parent
NOTICES = ROOT / "NOTICES"
PROGRAMS = ("ddt", "ddtplan", "ddtd")
HEAD = """The programs ddt, ddtplan and ddtd contain crates of the Rattle toolchain. Most are ports of Rust crates, and are
under the licences of these, whose texts follow. Where a crate may be used under the MIT License or another, it is used
under the MIT License here.
"""
RULE = "=" * 72


def toolchain() -> pathlib.Path:
    """The folder of the toolchain."""
    page = subprocess.run(["rt", "doc"], capture_output=True, text=True, check=True).stdout.splitlines()[0]
    return pathlib.Path(page).parent


def named_below(crates: str, programs: tuple[str, ...]) -> set[str]:
    """The crates that these programs stand on and that are none of the tree, by crates.txt."""
    heads = (line.partition(":") for line in crates.splitlines() if line and not line.startswith("#"))
    below = {name.strip(): rest.split() for name, _, rest in heads}
    found, left = set(programs), list(programs)
    while left:
        new = set(below.get(left.pop(), [])) - found
        found |= new
        left += new
    return found - below.keys()


def contained(kit: pathlib.Path, named: set[str]) -> set[str]:
    """These crates, the standard library, and the crates of the toolchain that they stand on."""
    every = named | {"std"}
    return every | {each.name for name in every for each in (kit / f"rlibs/{name}.rlib/below").glob("*")}


def licences(kit: pathlib.Path, crate: str) -> list[pathlib.Path]:
    """The licences that a crate is used under."""
    folder = kit / "rattle" / crate
    files = sorted(file for kind in ("LICENSE*", "COPYRIGHT*", "NOTICE*") for file in folder.glob(kind))
    has_choice = any(file.name == "LICENSE-MIT" for file in files)
    return [file for file in files if not (has_choice and file.name == "LICENSE-APACHE")]


def notices(kit: pathlib.Path, crates: set[str]) -> str:
    """The text of the notices: each licence once, after the crates that are under it."""
    texts: dict[str, list[str]] = {}
    without = []
    for crate in sorted(crates):
        found = licences(kit, crate)
        for file in found:
            texts.setdefault(f"{file.read_text().strip()}\n", []).append(crate)
        if not found:
            without.append(crate)
    parts = [HEAD]
    if without:
        parts.append(f"Without a licence of their own, as parts of the toolchain: {', '.join(without)}.\n")
    parts += [f"{RULE}\n{', '.join(names)}\n{RULE}\n\n{text}" for text, names in texts.items()]
    return "\n".join(parts)


CRATES = "# A group.\nlow: one\nddt: low two\nddt_tests: ddt three\n"
WANTED = f"""{HEAD}
Without a licence of their own, as parts of the toolchain: std, two.

{RULE}
four
{RULE}

all by four

{RULE}
one
{RULE}

MIT, by one
"""


def tested() -> int:
    """How many cases come to something else than they should."""
    with tempfile.TemporaryDirectory() as name:
        kit = pathlib.Path(name)
        texts = {"one/LICENSE-MIT": "MIT, by one\n", "one/LICENSE-APACHE": "A\n", "four/LICENSE": "\nall by four\n\n"}
        for file, text in texts.items():
            (kit / "rattle" / file).parent.mkdir(parents=True, exist_ok=True)
            (kit / "rattle" / file).write_text(text)
        (kit / "rlibs/two.rlib/below/four").mkdir(parents=True)
        named = named_below(CRATES, ("ddt",))
        crates = contained(kit, named)
        cases = [
            (named, {"one", "two"}),
            (crates, {"one", "two", "std", "four"}),
            (notices(kit, crates), WANTED),
        ]
    wrong = [case for case in cases if case[0] != case[1]]
    for found, wanted in wrong:
        print(f"found {found!r}\nwanted {wanted!r}")
    print(f"{len(cases) - len(wrong)} passed, {len(wrong)} failed")
    return len(wrong)


def main(words: list[str]) -> int:
    if words not in ([], ["--check"], ["--test"]):
        sys.exit(__doc__)
    if words == ["--test"]:
        return 1 if tested() else 0
    kit = toolchain()
    text = notices(kit, contained(kit, named_below((ROOT / "crates.txt").read_text(), PROGRAMS)))
    if not words:
        NOTICES.write_text(text)
    elif NOTICES.read_text() != text:
        print("NOTICES is not what crates.txt and the toolchain make it: run tools/make_notices.py")
        return 1
    return 0


if __name__ == "__main__":
    sys.exit(main(sys.argv[1:]))
