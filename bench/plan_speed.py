#!/usr/bin/env python3
"""Prints how fast ddtplan is over registers of 65,535 rows, and how much memory it takes: bench/plan_speed.py [SHAPE..]

For each shape of tools/make_register.py: the seconds of `ddtplan blocks`, the blocks that it wrote, how many that is a
second, and its memory; then the seconds and the memory of `ddtplan diff` from the register to one of which ten rows
were changed, and how many lines that wrote. Ten sites lose their ETRs; where there are no such sites, ten zones are
gone. Times are the shortest of three runs, into /dev/null. Memory is the most that the process had, in megabytes.

DDTPLAN names the program; by default it is what release/program finds.
"""
from __future__ import annotations

import os
import pathlib
import subprocess
import sys
import tempfile
import time

HERE = pathlib.Path(__file__).resolve().parent
ROWS = 65535
SHAPES = ["nested", "flat", "groups", "sites", "locators"]
RUNS = 3


def program() -> str:
    found = os.environ.get("DDTPLAN")
    if found:
        return found
    return subprocess.run(
        [HERE.parent / "release" / "program", "ddtplan"], capture_output=True, text=True, check=True
    ).stdout.strip()


def changed(lines: list[str]) -> list[str]:
    """The register with ten other rows."""
    sites = [n for n, line in enumerate(lines) if line.startswith("site,") and not line.endswith(",")]
    if len(sites) >= 10:
        for n in sites[-10:]:
            lines[n] = lines[n][: lines[n].rindex(",") + 1]
        return lines
    zones = [n for n, line in enumerate(lines) if line.startswith(("ms,", "node,[")) and n > 0]
    gone = set(zones[-10:])
    return [line for n, line in enumerate(lines) if n not in gone]


def run(words: list[str]) -> tuple[float, float]:
    """The seconds and the megabytes of a run."""
    started = time.monotonic()
    with open(os.devnull, "w", encoding="ascii") as nothing:
        child = subprocess.Popen(words, stdout=nothing)
        _, status, usage = os.wait4(child.pid, 0)
    if os.waitstatus_to_exitcode(status) not in (0, 1):
        raise RuntimeError(f"{words} ended with {status}")
    return time.monotonic() - started, usage.ru_maxrss / 1000


def best(words: list[str]) -> tuple[float, float]:
    return min(run(words) for _ in range(RUNS))


def lines_of(words: list[str]) -> int:
    return subprocess.run(words, capture_output=True, check=False).stdout.count(b"\n")


def main() -> int:
    ddtplan = program()
    print("shape      blocks s   blocks  a second   MB   diff s  lines   MB")
    with tempfile.TemporaryDirectory() as room:
        for shape in sys.argv[1:] or SHAPES:
            old, new = f"{room}/old.csv", f"{room}/new.csv"
            text = subprocess.run(
                [HERE.parent / "tools" / "make_register.py", shape, str(ROWS)],
                capture_output=True,
                text=True,
                check=True,
            ).stdout
            pathlib.Path(old).write_text(text)
            pathlib.Path(new).write_text("\n".join(changed(text.splitlines())) + "\n")
            seconds, memory = best([ddtplan, "blocks", old])
            count = lines_of([ddtplan, "blocks", old])
            diff_seconds, diff_memory = best([ddtplan, "diff", old, new])
            lines = lines_of([ddtplan, "diff", old, new])
            print(
                f"{shape:9} {seconds:9.2f} {count:8} {count / seconds:9.0f} {memory:5.0f}"
                f" {diff_seconds:8.2f} {lines:6} {diff_memory:4.0f}"
            )
    return 0


if __name__ == "__main__":
    sys.exit(main())
