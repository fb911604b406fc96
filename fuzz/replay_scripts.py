#!/usr/bin/env python3
"""Compares `ddt replay` with a plain resolver over lists, on scripts drawn by lot.

Usage: fuzz/replay_scripts.py --program PATH [--count N] [--seed N] [--replaced], or fuzz/replay_scripts.py --rows

Draws N scripts (20,000 where no number is given), five to a register; most registers are drawn too, and the others are
those in examples/. With --replaced one to three further registers stand behind each, most with the same root locators:
the same register but for a site's ETR or for a zone's group, or another one; scripts then replace one by another. What
the program prints on both streams, and its status, must be what the plain resolver of
plain_replay.py says. A few identifiers of each register go through `ddt assign` and `ddt lookup` as well. The first
that differ are printed, scripts made shorter before, and the status is then 1. The same seed draws the same registers
and scripts. At the end stands how often what was met, as the plain resolver counts it.

The plain resolver must first give the lines of some worked scripts; with --rows this is all that is done.
"""
from __future__ import annotations

import argparse
import collections
import multiprocessing
import pathlib
import random
import subprocess
import sys
import tempfile
import typing

# No compiled copies of the imports below are left in the folder.
sys.dont_write_bytecode = True

from drawn_replays import draw_further, draw_register, draw_script, draw_words, draw_xeids  # noqa: E402
from plain_replay import (  # noqa: E402
    Path,
    Printed,
    Words,
    printed_assign,
    printed_lookup,
    printed_replay,
    read_register,
    write_xeid,
)
from worked_replays import EXAMPLES, test_rows  # noqa: E402

SCRIPTS_PER_REGISTER = 5
# One register in so many is an example, and the others are drawn.
EXAMPLE_EVERY = 20
MOST_SHOWN = 3
PROCESSES = 2


def printed_by(command: list[str]) -> Printed:
    try:
        done = subprocess.run(command, stdin=subprocess.DEVNULL, capture_output=True, timeout=120, check=False)
    except subprocess.TimeoutExpired:
        return Printed("", "still running after two minutes", 124)
    return Printed(done.stdout.decode("latin-1"), done.stderr.decode("latin-1"), done.returncode)


class Difference(typing.NamedTuple):
    command: str
    registers: list[str]
    script: str
    wanted: Printed
    found: Printed

    def __str__(self) -> str:
        texts = {register_name(at): text for at, text in enumerate(self.registers)} | {"script": self.script}
        texts |= {"wanted": self.wanted.output, "wanted on standard error": self.wanted.refusal}
        texts |= {"printed": self.found.output, "printed on standard error": self.found.refusal}
        parts = [f"---- {name}\n{text}" for name, text in texts.items()]
        statuses = f"status {self.found.status}, wanted {self.wanted.status}"
        return "\n".join([f"==== ddt {self.command}: {statuses}", *parts])


def register_name(at: int) -> str:
    return f"register{at or ''}.csv"


class Trial(typing.NamedTuple):
    """A program, the texts of registers, and a folder for the files that the program reads."""

    program: str
    registers: list[str]
    folder: pathlib.Path

    def paths(self) -> list[str]:
        """The files of the registers, as they are to be."""
        paths = [self.folder / register_name(at) for at in range(len(self.registers))]
        for path, text in zip(paths, self.registers):
            path.write_text(text)
        return [str(path) for path in paths]

    def printed(self, command: str, words: list[str]) -> Printed:
        return printed_by([self.program, command, self.paths()[0], *words])

    def printed_replay(self, words: Words, script: bytes) -> Printed:
        path = self.folder / "script"
        path.write_bytes(script)
        return self.printed("replay", [str(path), *self.paths()[1:], *words.options()])

    def wanted(self, words: Words, script: bytes) -> tuple[Printed, collections.Counter[str]]:
        registers = dict(zip(self.paths(), map(read_register, self.registers)))
        return printed_replay(registers, words, script)

    def differs(self, words: Words, script: bytes) -> bool:
        return self.wanted(words, script)[0] != self.printed_replay(words, script)

    def shorter(self, words: Words, script: bytes) -> bytes:
        """The script without each part that the difference doesn't need, large parts first."""
        lines = script.split(b"\n")
        size, at = len(lines) // 2, 0
        while size > 0:
            rest = lines[:at] + lines[at + size :]
            if self.differs(words, b"\n".join(rest)):
                lines = rest
            else:
                at += size
            if at >= len(lines):
                size, at = size // 2, 0
        return b"\n".join(lines)

    def difference(self, words: Words, script: bytes) -> Difference:
        script = self.shorter(words, script)
        wanted, _ = self.wanted(words, script)
        further = [register_name(at) for at in range(1, len(self.registers))]
        command = " ".join(["replay register.csv script", *further, *words.options()])
        return Difference(command, self.registers, script.decode("latin-1"), wanted, self.printed_replay(words, script))


class Compared(typing.NamedTuple):
    """What was met, and how often; what differs among scripts, and among assignments and lookups."""

    met: collections.Counter[str]
    scripts: list[Difference]
    lookups: list[Difference]


def compare_script(trial: Trial, draw: random.Random, xeids: list[Path], compared: Compared) -> None:
    registers = [read_register(text) for text in trial.registers]
    words = draw_words(draw, registers[0])
    script = draw_script(draw, registers, words, xeids)
    wanted, met = trial.wanted(words, script)
    compared.met.update(met)
    compared.met["scripts"] += 1
    if trial.printed_replay(words, script) != wanted:
        compared.scripts.append(trial.difference(words, script))


def compare_words(trial: Trial, command: str, words: list[str], wanted: Printed, compared: Compared) -> None:
    found = trial.printed(command, words)
    compared.met["assignments and lookups"] += 1
    if found != wanted:
        shown = " ".join([command, "register.csv", *words])
        compared.lookups.append(Difference(shown, trial.registers[:1], "", wanted, found))


def compare_lookup(trial: Trial, draw: random.Random, xeids: list[Path], compared: Compared) -> None:
    """One assignment, and the lookup of several identifiers by one resolver."""
    register = read_register(trial.registers[0])
    words = draw_words(draw, register)
    several = draw.choices(xeids, k=5)
    texts = [write_xeid(xeid) for xeid in several]
    compare_words(trial, "assign", texts[:1], printed_assign(register, several[0]), compared)
    compare_words(trial, "lookup", texts + words.options(), printed_lookup(register, words, several), compared)


class Task(typing.NamedTuple):
    """A register by its number among those of the seed, how many scripts it gets, and whether others replace it."""

    program: str
    seed: int
    number: int
    scripts: int
    replaced: bool


def compare(task: Task) -> Compared:
    draw = random.Random(f"{task.seed} {task.number}")
    examples = sorted(EXAMPLES.glob("*.csv"))
    turn, place = divmod(task.number, EXAMPLE_EVERY)
    register = examples[turn % len(examples)].read_text() if place == 0 else draw_register(draw)
    registers = [register]
    if task.replaced:
        registers += [draw_further(draw, register) for _ in range(draw.choice([1, 1, 2, 3]))]
    xeids = draw_xeids(draw, read_register(draw.choice(registers)))
    compared = Compared(collections.Counter(), [], [])
    with tempfile.TemporaryDirectory() as folder:
        trial = Trial(task.program, registers, pathlib.Path(folder))
        compare_lookup(trial, draw, xeids, compared)
        for _ in range(task.scripts):
            compare_script(trial, draw, xeids, compared)
    return compared


def compare_all(tasks: list[Task]) -> Compared:
    """All tasks, or those up to the one that brings the last difference that is shown."""
    every = Compared(collections.Counter(), [], [])
    with multiprocessing.Pool(PROCESSES) as pool:
        for compared in pool.imap_unordered(compare, tasks):
            every.met.update(compared.met)
            every.met["registers"] += 1
            every.scripts.extend(compared.scripts)
            every.lookups.extend(compared.lookups)
            for difference in compared.scripts + compared.lookups:
                print(difference, flush=True)
            if len(every.scripts + every.lookups) >= MOST_SHOWN:
                break
    return every


def tell(compared: Compared) -> None:
    met = compared.met
    totals = {name: met.pop(name, 0) for name in ("registers", "scripts", "assignments and lookups")}
    for name, times in sorted(met.items()):
        print(f"{times:9} {name}")
    lookups = totals["assignments and lookups"] - len(compared.lookups)
    print(f"{lookups} assignments and lookups agree, {len(compared.lookups)} differ")
    scripts = totals["scripts"] - len(compared.scripts)
    print(f"{scripts} scripts over {totals['registers']} registers agree, {len(compared.scripts)} differ")


def main() -> int:
    parser = argparse.ArgumentParser()
    parser.add_argument("--rows", action="store_true")
    parser.add_argument("--program")
    parser.add_argument("--count", type=int, default=20000)
    parser.add_argument("--seed", type=int, default=1)
    parser.add_argument("--replaced", action="store_true")
    given = parser.parse_args()
    test_rows()
    if given.rows:
        return 0
    if given.program is None:
        parser.error("the program is missing: --program PATH")
    print(f"seed {given.seed}", flush=True)
    starts = range(0, given.count, SCRIPTS_PER_REGISTER)
    sizes = [min(SCRIPTS_PER_REGISTER, given.count - start) for start in starts]
    tasks = [Task(given.program, given.seed, number, size, given.replaced) for number, size in enumerate(sizes)]
    compared = compare_all(tasks)
    tell(compared)
    return 1 if compared.scripts or compared.lookups else 0


if __name__ == "__main__":
    sys.exit(main())
