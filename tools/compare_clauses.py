#!/usr/bin/env python3
"""Compares the contracts of two states of this repository: tools/compare_clauses.py OLD [NEW]

OLD and NEW are commits; without NEW, the second is the work tree. Of each public function, and each function of a
trait, it compares the clauses word for word, with spaces folded. Crates of tests are left out. Prints what moved to
another file, what is new, and then, as failures, each clause that is gone or changed and each new `requires`. The last
line is `N the same, M failed`: N functions have all their clauses as before. The status is 1 if one failed.
"""
from __future__ import annotations

import io
import pathlib
import re
import subprocess
import sys
import tarfile
import typing

ROOT = pathlib.Path(__file__).resolve().parent.parent
SOURCE = re.compile(r"crates/(?!\w+_tests/)(\w+)/src/.*\.rt$")
COMMENT = re.compile(r"//[^\n]*")
HEAD = re.compile(
    r"^(?P<indent> *)(?:impl\b(?P<impl>[^{;]*)\{|(?:pub )?trait (?P<trait>\w+)"
    r"|(?P<public>pub )?(?:(?:const|unsafe|final) )*fn (?P<name>\w+))",
    re.M,
)
CLAUSE = re.compile(r"\b(requires|ensures)(\*?)(?: (\w[\w-]*))? \{")


class Contract(typing.NamedTuple):
    """Where a function is, and its clauses."""

    file: str
    clauses: tuple[str, ...]


def end_of(text: str, start: int) -> int:
    """The place after the brace that closes the one at `start`."""
    depth = 0
    for place in range(start, len(text)):
        depth += {"{": 1, "}": -1}.get(text[place], 0)
        if depth == 0:
            return place + 1
    return len(text)


def clauses_at(text: str, start: int) -> tuple[str, ...]:
    """The clauses of the function whose head begins here."""
    found = []
    while True:
        opening = re.compile(r"[{;]").search(text, start)
        clause = CLAUSE.search(text, start)
        if not clause or not opening or clause.start() > opening.start():
            return tuple(found)
        end = end_of(text, clause.end() - 1)
        found.append(re.sub(r"\s+", " ", text[clause.start() : end]))
        start = end


def type_of(head: str) -> str:
    """The type of an `impl`, with its trait if it has one."""
    head = re.sub(r"^\s*<(?:[^<>]|<[^<>]*>)*>", "", head.split(" where ")[0])
    return re.sub(r"\s+", " ", re.sub(r"<.*>|'\w+", "", head)).strip()


def contracts_in(file: str, text: str) -> typing.Iterator[tuple[str, Contract]]:
    """The public functions of a file, and those of traits, by the name with the type."""
    text, of, ends = COMMENT.sub("", text), "", 0
    for head in HEAD.finditer(text):
        if head.start() >= ends:
            of = ""
        if head["impl"] is not None or head["trait"]:
            of = type_of(head["impl"]) if head["impl"] is not None else f"trait {head['trait']}"
            ends = end_of(text, text.index("{", head.start()))
        elif head["public"] or " for " in of or of.startswith("trait "):
            yield "::".join(filter(None, [of, head["name"]])), Contract(file, clauses_at(text, head.end()))


def files_at(commit: str | None) -> typing.Iterator[tuple[str, str]]:
    """The sources of a commit, or of the work tree."""
    if commit is None:
        for path in sorted(ROOT.glob("crates/*/src/**/*.rt")):
            yield str(path.relative_to(ROOT)), path.read_text()
        return
    packed = subprocess.run(["git", "-C", ROOT, "archive", commit, "crates"], capture_output=True, check=True).stdout
    with tarfile.open(fileobj=io.BytesIO(packed)) as archive:
        for member in archive:
            if member.isfile() and member.name.endswith(".rt"):
                data = archive.extractfile(member)
                yield member.name, data.read().decode() if data else ""


def contracts_of(commit: str | None) -> dict[str, list[Contract]]:
    """All contracts, by name."""
    found: dict[str, list[Contract]] = {}
    for file, text in files_at(commit):
        if SOURCE.match(file):
            for name, contract in contracts_in(file, text):
                found.setdefault(name, []).append(contract)
    return found


def nearest(before: Contract, after: list[Contract]) -> Contract | None:
    """The contract that a function of this name has now: one of the same clauses, or of the same file."""
    same = [each for each in after if each.clauses == before.clauses]
    return next((each for each in [*(it for it in same if it.file == before.file), *same]), None) or next(
        (each for each in after if each.file == before.file), None
    )


def compared(old: dict[str, list[Contract]], new: dict[str, list[Contract]]) -> tuple[int, list[str], list[str]]:
    """How many have all their clauses, what moved, and what failed."""
    same, moved, failed = 0, [], []
    for name, contracts in sorted(old.items()):
        for before in contracts:
            after = nearest(before, new.get(name, []))
            if after is None and before.clauses:
                failed.append(f"{before.file}: {name} is gone, with {len(before.clauses)} clauses")
            elif after is not None:
                gone = [clause for clause in before.clauses if clause not in after.clauses]
                more = [it for it in after.clauses if it not in before.clauses and it.startswith("requires")]
                failed += [f"{before.file}: {name} lacks `{clause}`" for clause in gone]
                failed += [f"{before.file}: {name} has more: `{clause}`" for clause in more]
                same += not gone and not more
                if after.file != before.file and before.clauses:
                    moved.append(f"{name}: {before.file} -> {after.file}")
    return same, moved, failed


def main(words: list[str]) -> int:
    if len(words) not in (1, 2):
        sys.exit(__doc__)
    old, new = contracts_of(words[0]), contracts_of(words[1] if words[1:] else None)
    same, moved, failed = compared(old, new)
    added = [name for name, contracts in sorted(new.items()) if name not in old and any(it.clauses for it in contracts)]
    for title, lines in (("moved", moved), ("new", added), ("failed", failed)):
        print("".join(f"{title}: {line}\n" for line in lines), end="")
    print(f"{same} the same, {len(failed)} failed")
    return 1 if failed else 0


if __name__ == "__main__":
    sys.exit(main(sys.argv[1:]))
