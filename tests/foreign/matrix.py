"""Runs a row of the matrix, and writes the cell of each column as JSON.

usage: matrix.py list
       matrix.py ROW NAMESPACE_PREFIX FOLDER
"""
import json
import os
import pathlib
import re
import signal
import subprocess
import sys
import time

import etr
import itr
import tree
import xtrs
from net import Net
from players import Players

DDTPLAN = os.environ["DDTPLAN"]


def asked(net, players):
    """The cell of what ddtplan says of each server: all are to answer, and where all are Kihyamut's, as the register
    has it."""
    words = ["ip", "netns", "exec", net.name("itr"), DDTPLAN, "ask", "register.csv"]
    said = subprocess.run(words, cwd=net.folder, capture_output=True, text=True, timeout=120, check=False)
    (net.folder / "ask.txt").write_text(said.stdout + said.stderr)
    last = said.stdout.strip().split("\n")[-1]
    counts = re.fullmatch(r"(\d+) agree, (\d+) differ, (\d+) are silent", last)
    agree, differ, silent = (int(count) for count in counts.groups()) if counts else (0, 0, 1)
    is_ours = all(players.who[host] == "K" for host in ("root", "node", "ms"))
    if agree and not silent and not (differ and is_ours):
        return {"mark": "ok", "said": last}
    return {"mark": "FAILS", "why": f"ddtplan ask: {last or said.stderr.strip()}"}


def run(net, players, found):
    """Fills in the cells."""
    net.make()
    players.start_servers()
    players.start_resolver()
    site = etr.Etr(net)
    if not site.await_notified():
        players.notes.append(f"{players.full('ms')}'s Map-Server sent no Map-Notify for a site of the ETR")
    client, pair = itr.Itr(net, players), xtrs.Xtrs(net, players)
    has_resolver = players.who["resolver"] != "-"
    found.update(client.ask(itr.QUESTIONS if has_resolver else itr.OF_MAP_SERVER, 13))
    players.revive()
    started = time.time()
    players.start_xtrs()
    found["register"] = pair.registered(started)
    found["ping"] = pair.ping()
    needs_ping = {"mark": "-", "why": "needs the ping"}
    found["smr-xtr"] = pair.renewed() if found["ping"]["mark"] == "ok" else needs_ping
    found.update(client.ask(itr.FOR_PREFIX, 10))
    if players.row in tree.WITH_DDTPLAN:
        found["asked"] = asked(net, players)
    players.keep_counts()


def main():
    if sys.argv[1] == "list":
        print(*tree.ROWS)
        return
    row, prefix, folder = sys.argv[1:]
    pathlib.Path(folder).mkdir(exist_ok=True)
    net = Net(prefix, folder)
    players, found, start = Players(net, row), {}, time.time()
    signal.signal(signal.SIGTERM, lambda *_: sys.exit(1))
    try:
        run(net, players, found)
    except (OSError, RuntimeError, subprocess.SubprocessError) as fault:
        players.notes.append(f"{type(fault).__name__}: {fault} {getattr(fault, 'stderr', None) or ''}".strip())
    finally:
        players.stop()
        net.remove()
        found.update(notes=players.notes, seconds=round(time.time() - start, 1))
        (net.folder / "found.json").write_text(json.dumps(found, indent=1))


main()
