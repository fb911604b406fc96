"""Edits of different functions that are tried in one check, and what the prover says of each.

A proof of a function stands on its own body and on the contracts of what it calls. So an edit of a body, with the
proof of this function, leaves all other functions as they are, and many such edits can be made at once. An edit goes
into a round only if each text that it changes lies in the body of a function with a contract, or in the file of its
answers, and if no other edit of the round changes this function.
"""
from __future__ import annotations

import pathlib
import re
import tempfile
import typing

HEAD = re.compile(r"^( *)(?:pub(?:\(crate\))? )?fn (\w+)", re.M)
PLACE = re.compile(r"(?:note: )?(?:\./)?(?P<file>\S+?):(?P<line>\d+):\d+: (?P<said>.*)")
# What a proof file says of a name that an edit took away, and what tells that a text can't be read.
LACKING = re.compile(r"has no field|is not in scope|has no `|was not admitted")
UNREAD = re.compile(r"is not in scope|has no field|is no name|operand is missing|expected the end|cannot continue")


class Function(typing.NamedTuple):
    """A function of a crate: its file below src without the ending, its name, and the type that has it, if one.

    The prover names a function by its module, or by its type and the module of this, which may be another file's.
    """

    file: str
    owner: str
    name: str

    @property
    def said(self) -> re.Pattern[str]:
        """The line that ends what the prover says of it, with the verdict."""
        above = rf"(?:\w+::)*{self.owner}\w*" if self.owner else "::".join(pathlib.PurePath(self.file).parts)
        return re.compile(rf"fn \w+::{above}::{self.name}: (.*)")

    @property
    def answers(self) -> re.Pattern[str]:
        """The path of the file of its answers."""
        above = rf"(?:\w+/)*{self.owner}\w*" if self.owner else re.escape(self.file)
        # A plus stands before the name of a function that calls itself.
        return re.compile(rf"proofs/{above}/\+?{self.name}/Answers\.antt")


class Change(typing.NamedTuple):
    """A text of a file, and what takes its place."""

    file: str
    old: str
    new: str


def changes_of(text: str) -> list[Change]:
    """The changes of an edit, in its order."""
    changes, path, old = [], "", ""
    for line in text.splitlines():
        sign, _, rest = line.partition(" ")
        if sign == "file:":
            path = rest.strip()
        elif sign == "old:":
            old = rest
        elif sign == "new:":
            changes.append(Change(path, old, rest))
    return changes


def applied(texts: dict[str, str], changes: list[Change]) -> dict[str, str] | None:
    """These texts with these changes, or None where one of them has no place, or more than one."""
    texts = dict(texts)
    for change in changes:
        if texts[change.file].count(change.old) != 1:
            return None
        texts[change.file] = texts[change.file].replace(change.old, change.new)
    return texts


def end_of(source: str, begin: int, indent: str) -> tuple[int, int]:
    """Where the body of a function begins and ends. Its head has a line that is or ends with a brace."""
    opened = re.compile(rf"^{indent}\{{$|^{indent}\S.* \{{$", re.M).search(source, begin)
    closed = re.compile(rf"^{indent}\}}$", re.M).search(source, opened.end() if opened else begin)
    if not opened or not closed:
        return begin, begin
    return opened.end(), closed.start()


def owner_of(source: str, begin: int) -> tuple[str, bool]:
    """The type of the impl that a place lies in, and whether the impl is of a trait."""
    found = None
    for found in re.finditer(r"^impl(?:<.*?>)? (?:(?P<trait>[\w<>: ,&']+) for )?(?P<type>\w+)", source[:begin], re.M):
        pass
    if not found:
        return "", False
    return found["type"], found["trait"] is not None


def function_at(file: str, source: str, old: str) -> Function | None:
    """The function whose body has this text, if its contract is known: it has clauses, or its trait has."""
    place = source.find(old)
    heads = [head for head in HEAD.finditer(source) if head.start() <= place]
    if not heads or place < 0:
        return None
    head = heads[-1]
    begin, end = end_of(source, head.start(), head[1])
    owner, is_of_trait = owner_of(source, head.start()) if head[1] else ("", False)
    has_clauses = is_of_trait or re.search(r"^ *ensures", source[head.start() : begin], re.M) is not None
    if not begin <= place < place + len(old) <= end or not has_clauses:
        return None
    return Function(file.removeprefix("src/").removesuffix(".rt"), owner, head[2])


def functions_of(crate: pathlib.Path, text: str) -> set[Function] | None:
    """The functions whose bodies and answers an edit changes, or None if it changes something else."""
    functions: set[Function] = set()
    for change in changes_of(text):
        if change.file.startswith("src/"):
            function = function_at(change.file, (crate / change.file).read_text(), change.old)
            if function is None:
                return None
            functions.add(function)
    for change in changes_of(text):
        of_them = any(function.answers.fullmatch(change.file) for function in functions)
        if not change.file.startswith("src/") and not of_them:
            return None
    return functions or None


def rounds_of(crate: pathlib.Path, texts: dict[str, str]) -> tuple[list[list[str]], list[str]]:
    """Rounds of edits by their names, and those that can't be tried with others."""
    rounds: list[tuple[set[Function], list[str]]] = []
    alone = []
    for name, text in texts.items():
        functions = functions_of(crate, text)
        if functions is None:
            alone.append(name)
            continue
        free = next((each for each in rounds if not each[0] & functions), None)
        if free is None:
            free = (set(), [])
            rounds.append(free)
        free[0].update(functions)
        free[1].append(name)
    return [names for _, names in rounds], alone


def lines_of(said: str, function: Function, sources: dict[str, str]) -> list[str]:
    """What a check said of a function: errors in its answers, and notes from its first comment or attribute on."""
    file = f"src/{function.file}.rt"
    source = sources[file]
    spans = []
    for head in HEAD.finditer(source):
        if head[2] == function.name and (not head[1] or owner_of(source, head.start())[0] == function.owner):
            _, end = end_of(source, head.start(), head[1])
            begin = source.rfind("\n\n", 0, head.start()) + 1
            spans.append((source[:begin].count("\n") + 1, source[:end].count("\n") + 1))
    lines = []
    for line in said.splitlines():
        place = PLACE.match(line)
        if not place:
            continue
        is_note = place["file"] == file and any(begin <= int(place["line"]) <= end for begin, end in spans)
        if is_note or (function.answers.fullmatch(place["file"]) and ": error" in line):
            lines.append(line)
    return lines


def is_refused_by_goal(
    said: str, crate: pathlib.Path, edit: str, sources: dict[str, str], goal: re.Pattern[str]
) -> bool:
    """Whether the first thing that a check with this edit says of a function that it changes is a goal left open."""
    files = {change.file for change in changes_of(edit)}
    for function in functions_of(crate, edit) or ():
        verdicts = set(function.said.findall(said))
        lines = lines_of(said, function, sources)
        if any(is_unread(line, files) for line in lines) or len(verdicts) != 1:
            return False
        first = next((line for line in lines if not (LACKING.search(line) and "proofs/" in line)), "")
        if "proved" not in verdicts and goal.search(first):
            return True
    return False


def is_unread(line: str, files: set[str]) -> bool:
    """Whether a text of one of these files couldn't be read, or waited for another that was refused."""
    place = PLACE.match(line)
    if not place or place["file"] not in files or not place["said"].startswith("error: "):
        return False
    named = re.match(r"error: `[^`]*`: (.*)", place["said"])
    return named is None or UNREAD.search(re.sub(r"`[^`]*`", "", named[1])) is not None


# -- Its own cases --------------------------------------------------------------------------------------------------

SOURCE = """/// It has a contract.
#[tactic(auto)]
pub fn half(n: u8) -> u8
    ensures { result ≡ n / 2 }
{
    n / 2
}

/// It has none.
fn more(n: u8) -> u8 {
    n + 1
}

impl Shown for Word {
    fn shown(&self) -> u8 {
        self.letters
    }
}

impl Word {
    fn len(&self) -> u8
        ensures { result ≡ self.len }
    {
        self.len()
    }
}
"""
HALF, SHOWN, LEN = Function("word", "", "half"), Function("word", "Word", "shown"), Function("word", "Word", "len")
# What an edit changes, and the functions whose proofs are others for it, if it can be tried with others.
EDITS = [
    ("old: n / 2\nnew: n", None),
    ("old:     n / 2\nnew: n", {HALF}),
    ("old: n + 1\nnew: n", None),
    ("old: self.letters\nnew: 0", {SHOWN}),
    ("old: self.len()\nnew: 0", {LEN}),
    ("old: ≡ self.len\nnew: ≡ 0", None),
    ("old: self.len()\nnew: 0\nold: self.letters\nnew: 0", {LEN, SHOWN}),
    ("old: self.len()\nnew: 0\nfile: proofs/word/Word/len/Answers.antt\nold: a\nnew: b", {LEN}),
    ("old: self.len()\nnew: 0\nfile: proofs/word/half/Answers.antt\nold: a\nnew: b", None),
]
GOAL = re.compile("it is not proved that|no proof of")
LEN_EDIT = "file: src/word.rt\nold: self.len()\nnew: 0"
ANSWERS = "./proofs/word/Word/len/Answers.antt"
# What a check says with an edit of `len`, the verdict on `len`, and whether a goal of it was left open.
SAID = [
    ("note: src/word.rt:23:5: it is not proved that it ends", "no proof", True),
    (f"{ANSWERS}:1:2: error: `returns`: no proof of `a`", "not proved", True),
    (f"{ANSWERS}:1:2: error: `returns`: two types differ", "not proved", False),
    ("note: src/word.rt:4:1: it is not proved that it ends", "not proved; it calls half", False),
    ("note: src/word.rt:23:5: it is not proved that it ends", "proved", False),
    ("src/word.rt:23:5: error: no such name", "", False),
]


def results() -> typing.Iterator[tuple[object, object]]:
    """What each case comes to, and what it is to come to."""
    with tempfile.TemporaryDirectory() as name:
        crate = pathlib.Path(name)
        (crate / "src").mkdir()
        (crate / "src/word.rt").write_text(SOURCE)
        for text, wanted in EDITS:
            yield functions_of(crate, f"file: src/word.rt\n{text}"), wanted
        others = {"shown": EDITS[3][0], "more": EDITS[2][0]}
        texts = {"one": LEN_EDIT, "two": LEN_EDIT} | {name: f"file: src/word.rt\n{it}" for name, it in others.items()}
        yield rounds_of(crate, texts), ([["one", "shown"], ["two"]], ["more"])
        for line, verdict, wanted in SAID:
            said = f"{line}\n" + (f"fn low::word::Word::len: {verdict}\n" if verdict else "")
            yield is_refused_by_goal(said, crate, LEN_EDIT, {"src/word.rt": SOURCE}, GOAL), wanted
