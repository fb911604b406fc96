#!/usr/bin/env python3
"""Makes two pages from the sources: tools/make_pages.py [FOLDER], or --test

- CONTRACTS.md: of each library crate the public constants, types and calls, with their comments, public fields and
  clauses. A public call is a function that lib.rt names in `pub use`, or a `pub fn` of a type that it names there, or a
  function of a trait that it names there. Of a type's impl of a trait that others know, what it states is shown. Tests
  and programs give nothing to others.
- DEFINITIONS.md: the public definitions of each crate's specs, with their comments, lemmas aside.

The pages go into FOLDER, which is out/ of the tree if it isn't given. Links of other pages in FOLDER that lead to
sources of the tree then lead to these pages. With --test it tries what is taken from a small source.
"""
from __future__ import annotations

import dataclasses
import difflib
import pathlib
import re
import sys
import textwrap
import typing

ROOT = pathlib.Path(__file__).resolve().parent.parent

MADE = "<!-- What follows is made from the sources. -->"
HEADS = {
    "CONTRACTS.md": """# Contracts

Every public constant, type and call of the libraries, in the order in which data passes them, with its comment and its
clauses. [DEFINITIONS.md](DEFINITIONS.md) has the words of the clauses. `docs/READING_CLAUSES.md` says how to read both.
""",
    "DEFINITIONS.md": """# Definitions

The words that contracts use, each with its comment and its text, by crate and file. [CONTRACTS.md](CONTRACTS.md) has
the clauses, and types of the code. `docs/READING_CLAUSES.md` says how to read both.
""",
}
# A link from a page to a source: the crate, the part and the path without its ending.
SOURCE = re.compile(r"\]\(\.\./crates/(\w+)/(src|specs)/([\w/]+)\.\w+\)")

# Tests, and what they work on.
TESTS = re.compile(r"ddt_examples|tests_\w+|\w+_tests")

EXPORT = re.compile(r"^pub use ([^;]+);", re.MULTILINE)
DECLARATION = re.compile(r"pub (?:const )?(fn|const|type|struct|enum|trait) (\w+)")
IMPL = re.compile(r"impl\b(?:<.*?>(?= ))? ?(?:([\w:]+)(?:<.*>)? for )?([\w:]+)")
CALL = re.compile(r"(pub )?(?:const )?fn (\w+)")
CLAUSE_OPENS = re.compile(r"\b(?:requires|ensures)(?: +\w+)? *$")
PRIVATE_TRAIT = re.compile(r"^(?:pub\(crate\) |pub )?trait (\w+)", re.MULTILINE)
# What an impl proves, beside what it states.
PROOF = re.compile(r"ghost (use|coded|inverse|inverse_ok|laws|total|matches_\w+|respects_eq)\b")

DEFINITION = re.compile(r"^ *(abbrev pub|unfoldable pub|pub record|pub data)\b", re.MULTILINE)
NO_DEFINITIONS = re.compile(r"Lib|laws|\w*Lemmas")


# -- Sources --------------------------------------------------------------------------------------------------------


@dataclasses.dataclass
class Item:
    """An item of a source: its comment, its attributes, and its text from its first line on."""

    comment: list[str] = dataclasses.field(default_factory=list)
    attributes: list[str] = dataclasses.field(default_factory=list)
    lines: list[str] = dataclasses.field(default_factory=list)

    @property
    def text(self) -> str:
        return "\n".join(self.lines).rstrip()

    def inner(self) -> list[Item]:
        """The items between the braces of an impl, a trait or a struct."""
        begin = next((number for number, line in enumerate(self.lines) if line.endswith("{")), len(self.lines))
        return items_of(textwrap.dedent("\n".join(self.lines[begin + 1 :]).rpartition("}")[0]))

    def head(self) -> str:
        """The text before a body or the end of the declaration, with all clauses."""
        depth, text = 0, self.text
        for place, mark in enumerate(text):
            opens_clause = CLAUSE_OPENS.search(text, max(0, place - 80), place)
            if depth == 0 and (mark == ";" or mark == "{" and not opens_clause):
                return text[:place].rstrip()
            depth += (mark in "([{") - (mark in ")]}")
        return text


def items_of(text: str) -> list[Item]:
    """The items of a file, or of what stands between braces: each begins at the margin and ends before the next."""
    items, item = [], Item()
    for line in text.splitlines():
        begins = line.startswith(("#[", "///")) or line[:1].isalpha() and not line.startswith("where")
        if begins and item.lines:
            items.append(item)
            item = Item()
        if line.startswith("///") and not item.lines:
            item.comment.append(line[3:].removeprefix(" "))
        elif line.startswith("#[") and not item.lines:
            item.attributes.append(line)
        elif item.lines or begins:
            item.lines.append(line)
    return [*items, item] if item.lines else items


def exports_of(crate: pathlib.Path) -> set[str]:
    """The names that the crate gives to others. The crate of a program gives none."""
    exported: set[str] = set()
    library = crate / "src/lib.rt"
    for names in EXPORT.findall(library.read_text()) if library.exists() else []:
        exported.update(re.findall(r"\b[A-Za-z_]\w*\b(?=\s*(?:[,}]|$))", names))
    return exported


def crates() -> list[pathlib.Path]:
    """The crates but those of tests, in the order in which data passes them."""
    names = re.findall(r"^(\w+):", (ROOT / "crates.txt").read_text(), re.MULTILINE)
    return [ROOT / "crates" / name for name in names if not TESTS.fullmatch(name)]


def sources_of(crate: pathlib.Path) -> list[pathlib.Path]:
    return [file for file in sorted((crate / "src").rglob("*.rt")) if not {"tests", "tests.rt"} & set(file.parts)]


# -- The page of contracts ------------------------------------------------------------------------------------------


def section(title: str, comment: list[str], code: str) -> str:
    said = "\n".join(comment)
    return "\n\n".join(part for part in (f"#### {title}", said, f"```rust\n{code}\n```") if part)


def sections_of(item: Item, exported: set[str], private: set[str]) -> typing.Iterator[str]:
    """What the page has of an item: nothing, or a section for it and for each of its calls."""
    text = item.text
    if (found := DECLARATION.match(text)) and found[2] in exported:
        yield section(found[2], item.comment, declared(item, found[1]))
        if found[1] == "trait":
            yield from calls_of(item, found[2], is_trait=True)
    elif (found := IMPL.match(text)) and not found[1] and found[2] in exported:
        yield from calls_of(item, found[2], is_trait=False)
    elif found and found[1] and found[1] not in private and {found[1], found[2]} & exported:
        stated = [part.text for part in item.inner() if is_stated(part)]
        if stated:
            code = textwrap.indent("\n\n".join(stated), "    ")
            yield section(f"`{item.head().splitlines()[0]}`", item.comment, f"{item.head()} {{\n{code}\n}}")


def is_stated(part: Item) -> bool:
    if CALL.match(part.text):
        part.lines = part.head().splitlines()
        return "ensures" in part.text
    return part.text.startswith("ghost") and not PROOF.match(part.text)


def calls_of(item: Item, owner: str, is_trait: bool) -> typing.Iterator[str]:
    for part in item.inner():
        found = CALL.match(part.text)
        if found and (is_trait or found[1]):
            yield section(f"{owner}::{found[2]}", part.comment, part.head())


def declared(item: Item, kind: str) -> str:
    """The code of a declaration: the head of a function, the public fields of a struct, what a trait leaves open."""
    if kind == "fn":
        return item.head()
    if kind not in ("struct", "trait") or not item.inner():
        return "\n".join([*item.attributes, item.text])
    parts = [part for part in item.inner() if is_shown(part, kind)]
    lines = [line for part in parts for line in (*(f"/// {line}".rstrip() for line in part.comment), part.text)]
    if kind == "struct" and len(parts) < len(item.inner()):
        lines.append("// private fields")
    return "\n".join([*item.attributes, f"{item.head()} {{", textwrap.indent("\n".join(lines), "    "), "}"])


def is_shown(part: Item, kind: str) -> bool:
    if kind == "struct":
        return part.text.startswith("pub ")
    return not CALL.match(part.text) and not part.text.startswith("ghost use")


def contracts_of(crate: pathlib.Path) -> typing.Iterator[str]:
    exported = exports_of(crate)
    texts = {file: file.read_text() for file in sources_of(crate)}
    private = {name for text in texts.values() for name in PRIVATE_TRAIT.findall(text)} - exported
    for file, text in texts.items():
        sections = [part for item in items_of(text) for part in sections_of(item, exported, private)]
        if sections:
            yield f"### {crate.name}: {file.relative_to(crate / 'src')}"
            yield "\n".join(re.findall(r"^//! ?(.*)", text, re.MULTILINE))
            yield from sections


# -- The page of definitions ----------------------------------------------------------------------------------------


def specs_of(crate: pathlib.Path) -> list[pathlib.Path]:
    """The files that define words, with the statements of laws behind them."""
    files = [*sorted((crate / "specs").glob("*.antt")), crate / "specs/laws/Statements.antt"]
    return [file for file in files if file.exists() and not NO_DEFINITIONS.fullmatch(file.stem)]


def definitions_of(crate: pathlib.Path) -> typing.Iterator[str]:
    for file in specs_of(crate):
        text = file.read_text()
        parts = [part.strip("\n") for part in re.split(r"\n\s*\n", text)]
        shown = [part for part in parts if DEFINITION.search(part) or part.startswith(("-- ----", "module "))]
        if shown:
            head = re.match(r"(--.*\n)*", text)[0].strip()
            yield f"### {crate.name}: {file.relative_to(crate / 'specs').with_suffix('')}"
            yield "```text\n" + "\n\n".join([head, *shown]) + "\n```"


# -- Both -----------------------------------------------------------------------------------------------------------


def pages() -> dict[str, str]:
    """Each page by its name."""
    makers = {"CONTRACTS.md": contracts_of, "DEFINITIONS.md": definitions_of}
    made = {}
    for name, maker in makers.items():
        parts = [HEADS[name].rstrip(), MADE]
        for crate in crates():
            if own := list(maker(crate)):
                parts += [f"## {crate.name}", *own]
        made[name] = "\n\n".join(part for part in parts if part) + "\n"
    return made


def led_to_pages(text: str) -> str:
    """A page whose links to sources lead to the made pages."""

    def heading(link: re.Match[str]) -> str:
        page, end = ("CONTRACTS.md", "rt") if link[2] == "src" else ("DEFINITIONS.md", "")
        return f"]({page}#{link[1]}-{link[3].replace('/', '').lower()}{end})"

    return SOURCE.sub(heading, text)


def write(folder: pathlib.Path) -> list[pathlib.Path]:
    """Writes the pages into a folder, and leads the links of others there to them. The files of the pages."""
    folder.mkdir(parents=True, exist_ok=True)
    made = {folder / name: text for name, text in pages().items()}
    for file in sorted(folder.glob("*.md")):
        text = file.read_text()
        if file not in made and led_to_pages(text) != text:
            file.write_text(led_to_pages(text))
    for file, text in made.items():
        file.write_text(text)
    return list(made)


# What is shown of this is SHOWN: no private field, call or trait, and no body.
SAMPLE = """
/// A counter.
#[derive(Drop)]
pub struct Counter {
    /// What it has.
    pub count: u8,
    held: u8,
}

impl<'a, T: Secret> Counter {
    /// Adds some.
    pub fn add<F>(&mut self, by: u8, each: F) -> Option<u8>
    where
        F: Fn(u8) -> bool,
        requires { by < 9 }
        // Nothing else.
        ensures sum { (x : {y}) →
            result ≡ x }
    {
        if by > 0 { None } else { Some(1) }
    }

    fn hidden() {}
}

impl Secret for Counter {
    ghost key = { 1 };
}

impl Known for Counter {
    ghost laws = { refl };

    ghost key = { 2 };

    fn get(&self) -> u8
        ensures { result ≡ 2 }
    {
        2
    }

    fn none(&self) {}
}

pub fn unknown() {}
"""
SHOWN = """#### Counter

A counter.

```rust
#[derive(Drop)]
pub struct Counter {
    /// What it has.
    pub count: u8,
    // private fields
}
```

#### Counter::add

Adds some.

```rust
pub fn add<F>(&mut self, by: u8, each: F) -> Option<u8>
where
    F: Fn(u8) -> bool,
    requires { by < 9 }
    // Nothing else.
    ensures sum { (x : {y}) →
        result ≡ x }
```

#### `impl Known for Counter`

```rust
impl Known for Counter {
    ghost key = { 2 };

    fn get(&self) -> u8
        ensures { result ≡ 2 }
}
```"""


LINKS = "[a](../crates/low/src/rules/b.rt), [c](../crates/low/specs/Rules.antt), [d](../crates.txt)"
LED = "[a](CONTRACTS.md#low-rulesbrt), [c](DEFINITIONS.md#low-rules), [d](../crates.txt)"


def tested() -> int:
    """How many cases come to something else than they should."""
    parts = [part for item in items_of(SAMPLE) for part in sections_of(item, {"Counter"}, {"Secret"})]
    cases = [("\n\n".join(parts), SHOWN), (led_to_pages(LINKS), LED)]
    wrong = [case for case in cases if case[0] != case[1]]
    for found, wanted in wrong:
        print("\n".join(difflib.unified_diff(wanted.splitlines(), found.splitlines(), lineterm="")))
    print(f"{len(cases) - len(wrong)} passed, {len(wrong)} failed")
    return len(wrong)


def main(words: list[str]) -> int:
    if words == ["--test"]:
        return 1 if tested() else 0
    if len(words) > 1 or words[:1] and words[0].startswith("-"):
        sys.exit(__doc__)
    write(pathlib.Path(words[0]) if words else ROOT / "out")
    return 0


if __name__ == "__main__":
    sys.exit(main(sys.argv[1:]))
