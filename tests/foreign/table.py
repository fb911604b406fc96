"""Prints the table of the rows that were run, and each cell that isn't as expected. The status is 1 if there is one.

usage: table.py FOLDER ROW...
"""
import json
import pathlib
import shutil
import subprocess
import sys

import expected
from tree import COLUMNS, ROWS, WITH_DDTPLAN, label

SHORT = {"K": "Kih", "O": "OOR", "P": "OOR/proxy", "-": "-"}
LEGEND = """
MR: who resolves (-: the ITR asks the Map-Server itself). Kih: Kihyamut. OOR: openoverlayrouter.
Up to SMR-invoked a script is the ITR, and another the site's ETR; from xTR registers on OOR's xTRs are both.
ok: as it should be. FAILS: at Kihyamut. oor: a fault of OOR itself. -: doesn't apply, or needs the ping."""


def read_row(folder, row):
    path = folder / row / "found.json"
    return json.loads(path.read_text()) if path.exists() else {"notes": ["the row has no result"]}


def applies(row, column):
    """Whether a row has this column: without a resolver there are no root and no node."""
    if column == "asked":
        return row in WITH_DDTPLAN
    return row[0] != "-" or column not in ("hole-root", "hole-node")


def mark_of(found, row, column):
    if column in found:
        return found[column]["mark"]
    return "not run" if applies(row, column) else "-"


def unexpected(row, column, mark, found):
    """What is wrong with a cell, or None."""
    why, wanted = found.get(column, {}).get("why", ""), expected.cell(row, column)
    place = f"{label(row)}: {COLUMNS[column]}"
    if wanted is None:
        needs_ping = mark == "-" and "why" in found.get(column, {})
        return None if mark == "ok" or mark == "-" and not needs_ping else f"{place} is {mark}: {why}"
    if mark == "-" or mark == "ok" and expected.is_unsure(row, column):
        return None
    if mark == "ok":
        return f"{place} is ok, but expected.py says: {wanted[2]}"
    if mark != wanted[0] or wanted[1] not in why:
        return f"{place} is {mark}: {why}. Expected was {wanted[0]}: {wanted[1]}"
    return None


def malformed(folder, rows):
    """How many LISP frames tshark finds, and how many it calls malformed; None where it isn't there."""
    if not shutil.which("tshark"):
        return None
    total = bad = 0
    for capture in (folder / row / "capture.pcap" for row in rows):
        words = ["tshark", "-r", capture, "-T", "fields", "-e", "_ws.malformed", "-Y", "lisp"]
        said = subprocess.run(words, capture_output=True, text=True, check=False).stdout.split("\n")[:-1]
        total, bad = total + len(said), bad + sum(1 for line in said if line.strip())
    return total, bad


def lines_of(folder, rows):
    """(the lines of the table, the reasons by their number, notes, faults)"""
    lines, reasons, notes, faults = [], [], [], []
    for row in rows:
        found = read_row(folder, row)
        cells = [mark_of(found, row, column) for column in COLUMNS]
        for place, (column, mark) in enumerate(zip(COLUMNS, cells)):
            faults.append(unexpected(row, column, mark, found))
            why = found.get(column, {}).get("why")
            if why and mark != "-":
                reasons += [why] if why not in reasons else []
                cells[place] = f"{mark} {reasons.index(why) + 1}"
        notes += [f"{label(row)}: {note}" for note in found["notes"]]
        lines.append([SHORT[who] for who in row] + cells)
    return lines, reasons, notes, list(filter(None, faults))


def show(lines):
    head = ["MR", "root", "node", "MS", *COLUMNS.values()]
    widths = [max(len(line[place]) for line in [head, *lines]) for place in range(len(head))]
    for line in [head, ["-" * width for width in widths], *lines]:
        print("| " + " | ".join(text.ljust(width) for text, width in zip(line, widths)) + " |")


def main():
    folder, rows = pathlib.Path(sys.argv[1]), sys.argv[2:]
    lines, reasons, notes, faults = lines_of(folder, rows)
    show(lines)
    print(LEGEND)
    for number, reason in enumerate(reasons, 1):
        print(f"{number:3}  {reason}")
    for note in notes:
        print(f"  *  {note}")
    faults += [f"expected.py has {entry}, which is no cell" for entry in expected.idle(ROWS, COLUMNS)]
    frames = malformed(folder, rows)
    print("tshark isn't here" if frames is None else f"tshark: {frames[0]} LISP frames, {frames[1]} malformed")
    if frames and (frames[1] or not frames[0]):
        faults.append("tshark finds malformed frames, or none at all")
    for one in faults:
        print(f"NOT AS EXPECTED  {one}")
    cells = sum(1 for line in lines for text in line[4:] if text != "-")
    print(f"{cells} cells, {len(faults)} not as expected")
    return 1 if faults else 0


sys.exit(main())
