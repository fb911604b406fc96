"""The ledger attacks/LEDGER: what the prover said of each edit, and of which texts.

A line is CRATE NAME VERDICT OWN BELOW. VERDICT is `goal` where a goal refused the edit, `other` where a type, a name or
a limit did, `proves` where nothing did and the edit names a test that finds it, or `passed` where it names none. OWN
and BELOW are the first 16 hexadecimal digits of an SHA-256, each of the texts from which that verdict follows.

A proof of a function stands on its own body and on the contracts of what it calls. So the texts are the edit, the
functions or else the files that it changes, and the contracts and definitions that these name, or that one of them
names in turn. A text without a name, such as a type or an impl, always counts. The bodies of other functions that have
a contract don't, nor do proofs, laws, tactics, comments, imports and layout. OWN is of what the edit's own crate has of
these texts, BELOW of what all crates below have, by crates.txt; of their contracts the public ones count.
"""
from __future__ import annotations

import collections
import functools
import hashlib
import pathlib
import re
import typing

import rounds

# Imports, and which modules there are.
IMPORT = re.compile(r"^(?:(?:pub |ghost )?use|(?:pub(?:\(crate\))? )?mod) [^;]*;\n", re.M)
TACTIC = re.compile(r"^ *#\[tactic\((?:.|\n)*?\)\]\n", re.M)
COMMENT = re.compile(r"^ *(?://|--).*\n", re.M)
# A definition that is only used by its name. The variants of a `data` are used by theirs.
DEFINITION = re.compile(r"^(?:(?:abbrev|pub|record|unfoldable) )+(\w+) [(:{]")
DEFINITION_IMPORT = re.compile(r"^(?:pub )?use [^{\n]*(?:\{[^}]*\})?.*\n?", re.M)
WORD = re.compile(r"\w+")


class Line(typing.NamedTuple):
    """A line of the ledger. Lines are sorted by crate and name."""

    crate: str
    name: str
    verdict: str
    own: str
    below: str


class Edit(typing.Protocol):
    """An edit of a crate, whose folder this is."""

    crate: pathlib.Path
    name: str
    text: str


# The last line of each edit, by its crate and name.
Ledger = dict[tuple[str, str], Line]


def read(root: pathlib.Path) -> Ledger:
    file = root / "attacks/LEDGER"
    lines = [Line(*text.split()) for text in file.read_text().splitlines()] if file.exists() else []
    return {(line.crate, line.name): line for line in lines}


def write(root: pathlib.Path, lines: list[Line], edits: list[Edit]) -> None:
    """Adds lines, each in place of an older one. Of the others those of these edits stay."""
    ledger = read(root) | {(line.crate, line.name): line for line in lines}
    known = {(edit.crate.name, edit.name) for edit in edits}
    kept = sorted(line for key, line in ledger.items() if key in known)
    (root / "attacks/LEDGER").write_text("".join(f"{' '.join(line)}\n" for line in kept))


class Part(typing.NamedTuple):
    """A text that counts where one that counts has its name; or always, if that is empty."""

    name: str
    text: str


def line_of(edit: Edit, verdict: str) -> Line:
    """The line of an edit that was just tried."""
    return Line(edit.crate.name, edit.name, verdict, *checksums(edit))


def checksums(edit: Edit) -> tuple[str, str]:
    """The checksums of an edit: of its own crate's texts, and of those of the crates below."""
    seeds = [edit.text, *(changed_text(edit.crate, change) for change in rounds.changes_of(edit.text))]
    own, below = parts_of(edit.crate, True), parts_below(edit.crate)
    counted = counting(seeds, [*own, *below])
    return checksum([*seeds, *(part.text for part in own if part in counted)]), checksum(
        [part.text for part in below if part in counted]
    )


def changed_text(crate: pathlib.Path, change: rounds.Change) -> str:
    """The function that a change is in the body of, if it has a contract; or else the whole file."""
    file = crate / change.file
    text = COMMENT.sub("", file.read_text()) if file.is_file() else ""
    if not change.file.startswith("src/") or rounds.function_at(change.file, text, change.old) is None:
        return text
    head = [head for head in rounds.HEAD.finditer(text) if head.start() <= text.find(change.old)][-1]
    return text[head.start() : rounds.end_of(text, head.start(), head[1])[1]]


def counting(seeds: list[str], parts: list[Part]) -> set[Part]:
    """The parts that count with these texts."""
    by_name = collections.defaultdict(set)
    for part in parts:
        by_name[part.name].add(part)
    counted, left = set(by_name[""]), [*seeds, *(part.text for part in by_name[""])]
    while left:
        new = set().union(*(by_name[word] for word in words_of(left.pop()) if word in by_name)) - counted
        counted |= new
        left += [part.text for part in new]
    return counted


@functools.cache
def words_of(text: str) -> frozenset[str]:
    return frozenset(WORD.findall(text))


def checksum(texts: list[str]) -> str:
    """The first digits of the SHA-256 of these texts, each after its size, without their layout."""
    total = hashlib.sha256()
    for text in texts:
        content = " ".join(text.split()).encode()
        total.update(f"{len(content)}\n".encode() + content)
    return total.hexdigest()[:16]


@functools.cache
def parts_below(crate: pathlib.Path) -> list[Part]:
    return [part for each in crates_below(crate) for part in parts_of(each, False)]


def crates_below(crate: pathlib.Path) -> list[pathlib.Path]:
    """The crates of the tree that this one stands on, by crates.txt, in the order of their names."""
    lines = (crate.parent.parent / "crates.txt").read_text().splitlines()
    heads = (line.partition(":") for line in lines if line and not line.startswith("#"))
    named = {name.strip(): rest.split() for name, _, rest in heads}
    found, left = set(), [crate.name]
    while left:
        new = set(named.get(left.pop(), [])) & named.keys() - found
        found |= new
        left += new
    return [crate.parent / name for name in sorted(found)]


@functools.cache
def parts_of(crate: pathlib.Path, is_own: bool) -> list[Part]:
    """A crate's definitions without its laws, and its contracts: the public ones, or all if it is the edit's own."""
    specs = [file for file in sorted((crate / "specs").rglob("*.antt")) if "laws" not in file.relative_to(crate).parts]
    definitions = [definitions_of(file.read_text()) for file in specs if file.name != "laws.antt"]
    sources = [contracts_of(file.read_text(), is_own) for file in sorted((crate / "src").rglob("*.rt"))]
    return [part for parts in [*definitions, *sources] for part in parts]


def definitions_of(text: str) -> list[Part]:
    """The blocks of a file of definitions. One that begins otherwise than a definition has no name."""
    blocks = re.split(r"\n\s*\n", DEFINITION_IMPORT.sub("", COMMENT.sub("", text)))
    found = [(DEFINITION.match(block), block) for block in blocks if block.strip()]
    return [Part(match[1] if match else "", block) for match, block in found]


def contracts_of(source: str, is_own: bool) -> list[Part]:
    """The contracts of a source, and as a last part what else it has: no imports, and no bodies of such functions.

    Unless it is the edit's own crate, a contract that is private is left out. What a trait or its impl has is no
    contract of its own, since it is called without its name.
    """
    source = TACTIC.sub("", IMPORT.sub("", COMMENT.sub("", source)))
    heads = list(rounds.HEAD.finditer(source))
    contracts, rest, at = [], [], 0
    for head, after in zip(heads, [each.start() for each in heads[1:]] + [len(source)]):
        begin, end = rounds.end_of(source, head.start(), head[1])
        is_of_trait = bool(head[1]) and rounds.owner_of(source, head.start())[1]
        has_contract = is_of_trait or re.search(r"^ *ensures", source[head.start() : begin], re.M) is not None
        # A function that is only declared has no body, and one within a body is gone with it.
        if head.start() < at or not begin < end or begin > after or not has_contract:
            continue
        rest.append(source[at : begin if is_of_trait else head.start()])
        if not is_of_trait and (is_own or head[0].lstrip().startswith("pub fn")):
            contracts.append(Part(head[2], source[head.start() : begin]))
        at = source.find("\n", end) + 1 or len(source)
    return [*contracts, Part("", re.sub(r"\n\n+", "\n", "".join([*rest, source[at:]])))]


class State(typing.NamedTuple):
    """An edit beside its line: `missing` or `changed`; `below` where only a crate below changed; or `tried`."""

    edit: Edit
    state: str


def state_of(edit: Edit, line: Line | None) -> State:
    """Whether an edit was tried as it is now."""
    if line is None:
        return State(edit, "missing")
    own, below = checksums(edit)
    if line.own != own:
        return State(edit, "changed")
    return State(edit, "tried" if line.below == below else "below")


def states(root: pathlib.Path, edits: list[Edit]) -> list[State]:
    """What the ledger knows of these edits. What was read of the crates before is read again."""
    parts_below.cache_clear()
    parts_of.cache_clear()
    ledger = read(root)
    return [state_of(edit, ledger.get((edit.crate.name, edit.name))) for edit in edits]


def told(found: list[State]) -> list[str]:
    """A line for each edit that is missing or changed, and a last one that counts them all."""
    lines = [f"{it.edit.crate.name} {it.edit.name} {it.state}" for it in found if it.state in ("missing", "changed")]
    older = collections.Counter(it.edit.crate.name for it in found if it.state == "below")
    named = ", ".join(f"{crate} {count}" for crate, count in sorted(older.items()))
    tried = len(found) - len(lines) - older.total()
    last = f"{tried} tried as they are, {len(lines)} not, {older.total()} over older contracts of crates below"
    return [*lines, f"{last}: {named}" if named else last]
