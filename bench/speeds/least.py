#!/usr/bin/env python3
"""Runs words of the program `speeds` so often, and prints each of its lines with its least time: least.py RUNS WORD..

A last line has the least of the largest resident sizes of the processes. Wants GNU time (Debian: time): to the child of
a large process the system counts the size of that process as well, and Python's is 14 MB.
"""
import re
import subprocess
import sys
import tempfile

TIMES = re.compile(r"(.*) in (\d+) ms, (\d+) ns each")


def run(words):
    """The lines that the words print, as name, milliseconds and nanoseconds, and the largest resident size in KB."""
    with tempfile.NamedTemporaryFile("r") as size:
        timed = ["time", "-q", "-f", "%M", "-o", size.name, *words]
        ran = subprocess.run(timed, stdout=subprocess.PIPE, text=True)
        if ran.returncode:
            sys.exit(ran.stdout or f"status {ran.returncode}")
        lines = [TIMES.fullmatch(line).groups() for line in ran.stdout.splitlines()]
        return [(name, int(millis), int(nanos)) for name, millis, nanos in lines], int(size.read())


def main(words):
    runs = [run(words[1:]) for _ in range(int(words[0]))]
    for same in zip(*(lines for lines, _size in runs)):
        name, millis, nanos = min(same, key=lambda line: line[2])
        print(f"{name} in {millis} ms, {nanos} ns each")
    print(f"resident: {min(size for _lines, size in runs) / 1024:.1f} MB", flush=True)


main(sys.argv[1:])
