#!/usr/bin/env python3
"""Rolls random changes of small registers out, as `ddtplan rollout` says and with the configurations that `ddtplan
compile --from OLD --step N` writes, over plain servers and plain resolvers that keep what they hear.

fuzz/rollouts.py COUNT [SEED]

Whatever part of a step is taken, each identifier that is looked up is answered as one of the two registers says, no
server that is asked is silent, and none says that it isn't in charge. After the last step all is as the later register
says. A resolver asks the first locator of a referral set. Where it has an MS-ACK, the ITR's own request goes to the
Map-Servers, and no Map-Referral comes back. DDTPLAN names the program, by default ./ddtplan. The last line is 'N
passed, M failed'.
"""
from __future__ import annotations

import multiprocessing
import pathlib
import random
import subprocess
import sys
import tempfile
import tomllib
import typing

from plan_oracle import DDTPLAN, Register, ends, free, halves, path_of, random_path, random_rows, write

DAY, FIFTEEN, MINUTE = 86_400, 900, 60
# The roles that `make_rows` gives groups by their names.
NODES, SERVERS = ("root", "far"), ("east", "west")


class Entry(typing.NamedTuple):
    """What a resolver keeps of a prefix, until a moment: a referral's locators, or an outcome."""

    until: float
    locators: list[str]
    outcome: tuple | None


class Server:
    """What one server answers by: its configuration, over paths."""

    def __init__(self, config: dict) -> None:
        self.group, self.locators = config["name"], config["locators"]
        self.zones = {
            path_of(zone["prefix"]): (
                {path_of(child["prefix"]): child["locators"] for child in zone.get("child", [])},
                {path_of(site["prefix"]): site["etrs"] for site in zone.get("site", [])},
            )
            for zone in config.get("authority", [])
        }
        self.is_node = config["kind"] == "node"

    def answer(self, x: str) -> tuple[str, str, typing.Any]:
        """(what it is, the prefix, the locators of a referral or the outcome)"""
        covering = [zone for zone in self.zones if x.startswith(zone)]
        if not covering:
            return "not-authoritative", x, None
        zone = max(covering, key=len)
        children, sites = self.zones[zone]
        for child, locators in children.items():
            if x.startswith(child):
                return "referral", child, locators
        inside = [site for site in sites if x.startswith(site)]
        if self.is_node or not inside:
            return "hole", free(zone, x, list(children) + list(sites)), ("hole",)
        site = max(inside, key=len)
        if sites[site]:
            return "acknowledged", site, ("registered", self.group)
        below = [other for other in sites if other.startswith(site) and other != site]
        return "not-registered", free(site, x, below), ("not-registered", self.group)


class Resolver:
    """A resolver over servers by their locators, which begins at the longest prefix that it knows."""

    def __init__(self, roots: list[str]) -> None:
        self.roots, self.known = roots, {}

    def look_up(self, servers: dict[str, Server], x: str, now: float) -> tuple | str:
        """The outcome, or what went wrong."""
        found = [entry for path, entry in sorted(self.known.items(), key=lambda item: -len(item[0]))
                 if x.startswith(path) and now < entry.until]
        if found and found[0].outcome and found[0].outcome[0] != "registered":
            return found[0].outcome
        locators, last = found[0].locators if found else self.roots, -1
        while True:
            if locators[0] not in servers:
                return f"{locators[0]} is silent"
            what, prefix, said = servers[locators[0]].answer(x)
            if what == "not-authoritative":
                return f"{locators[0]} isn't in charge"
            if what == "referral" and len(prefix) <= last:
                return f"{locators[0]} leads back"
            if found and found[0].outcome and what != "referral":
                # An ITR's own request goes on to the Map-Servers that the cache knows. No Map-Referral comes of it.
                return said
            life = {"hole": FIFTEEN, "not-registered": MINUTE}.get(what, DAY)
            asked = servers[locators[0]].locators
            self.known[prefix] = Entry(now + life, said if what == "referral" else asked, None if what == "referral" else said)
            if what != "referral":
                return said
            locators, last = said, len(prefix)


def wanted(register: Register, x: str) -> tuple:
    """What a register says of an identifier: what it is, and the group."""
    zone = max((path for path in register.zones if x.startswith(path)), key=len)
    kind, _, _ = register.assignment(x)
    return (kind,) if kind == "hole" else (kind, register.zones[zone][1])


def is_accepted(path: str) -> bool:
    return subprocess.run([DDTPLAN, "blocks", "--count", path], capture_output=True, check=False).returncode == 0


def changed_rows(rng: random.Random, rows: list[str]) -> list[str]:
    """Rows of which some are moved to another group, taken out or changed; and some are added."""
    out = []
    for row in rows:
        kind, prefix, group, addresses = row.split(",")
        dice = rng.random()
        if kind in ("node", "ms") and prefix != "*":
            if dice < 0.15:
                continue
            if dice < 0.5:
                group = rng.choice(NODES if kind == "node" else SERVERS)
            elif dice < 0.6:
                kind, group = ("ms", rng.choice(SERVERS)) if kind == "node" else ("node", rng.choice(NODES))
        elif kind == "site" and dice < 0.2:
            continue
        elif kind == "site" and dice < 0.3:
            addresses = "" if addresses else "127.0.2.9"
        elif kind.startswith("group-") and dice < 0.2:
            addresses = f"127.0.{rng.randrange(3, 9)}.{len(out) + 1}"
        out.append(f"{kind},{prefix},{group},{addresses}")
    if rng.random() < 0.5:
        kind = rng.choice(["node", "ms"])
        path = random_path(rng)
        if len(path) != 33:
            from plan_oracle import text_of
            out.append(f"{kind},{text_of(path)},{rng.choice(NODES if kind == 'node' else SERVERS)},")
    return out


def identifiers(before: Register, after: Register, rng: random.Random) -> list[str]:
    """Identifiers at the edges of what both registers name, and beside these."""
    found = []
    for key in before.keys() | after.keys():
        found += ends(key)
        if len(key) < 33 + 32:
            found.append(ends(rng.choice(halves(key)) if len(key) != 33 + 32 else key)[0])
    return found


class Rollout:
    """A change that is under way."""

    def __init__(self, rng: random.Random, room: pathlib.Path, old: list[str], new: list[str]) -> None:
        self.rng, self.room = rng, room
        self.before, self.after = Register(old), Register(new)
        self.old, self.new = str(room / "old.csv"), str(room / "new.csv")
        (room / "out").mkdir()
        self.folder, self.now = room / "out", 0.0
        self.run("compile", self.old, str(self.folder))
        self.servers: dict[str, Server] = {}
        for group in self.before.groups:
            self.load(group, 1.0)
        roots = self.before.groups[self.before.zones[""][1]]
        self.resolvers = [Resolver(roots), Resolver(roots)]
        self.asked = identifiers(self.before, self.after, rng)

    def run(self, *words: str) -> str:
        done = subprocess.run([DDTPLAN, *words], capture_output=True, text=True, check=False)
        if done.returncode:
            raise RuntimeError(f"{words}: {done.returncode} {done.stderr}")
        return done.stdout

    def server(self, group: str) -> Server:
        return Server(tomllib.loads((self.folder / f"{group}.toml").read_text()))

    def load(self, group: str, part: float) -> None:
        """Has some of the servers of a group load what the folder has; those that are new come first."""
        server = self.server(group)
        for locator in server.locators:
            if locator not in self.servers or self.rng.random() < part:
                self.servers[locator] = server

    def stop(self, group: str) -> None:
        self.servers = {locator: server for locator, server in self.servers.items() if server.group != group}

    def leave(self, group: str) -> None:
        """The servers of a group at locators that are no longer its own are stopped."""
        own = self.server(group).locators
        self.servers = {locator: server for locator, server in self.servers.items()
                        if server.group != group or locator in own}

    def wrong(self, count: int, what: str, *, is_over: bool = False) -> str | None:
        """What is wrong with the answers to some identifiers."""
        resolvers = [Resolver(self.after.groups[self.after.zones[""][1]])] if is_over else self.resolvers
        for x in self.rng.sample(self.asked, min(count, len(self.asked))):
            for resolver in resolvers:
                told = resolver.look_up(self.servers, x, self.now)
                good = [wanted(self.after, x)] + ([] if is_over else [wanted(self.before, x)])
                if told not in good:
                    return f"{what}: {x}: {told}, and not one of {good}"
        return None

    def wait(self, seconds: int) -> str | None:
        """Waits, with answers that are cached just before the end."""
        steps = [self.rng.random() * seconds for _ in range(2)] + [seconds - 0.001]
        start = self.now
        for step in sorted(steps):
            self.now = start + step
            if found := self.wrong(12, "while waiting"):
                return found
        self.now = start + seconds
        return None

    def take(self, number: int, loads: list[str], stops: list[str]) -> str | None:
        self.run("compile", "--from", self.old, "--step", str(number), self.new, str(self.folder))
        self.rng.shuffle(loads)
        for group in loads:
            self.load(group, 0.5)
            if found := self.wrong(6, f"in step {number}"):
                return found
        for group in loads:
            self.load(group, 1.0)
            self.leave(group)
        for group in stops:
            self.stop(group)
        return self.wrong(30, f"after step {number}")

    def roll(self) -> str | None:
        """Takes all steps; what is wrong."""
        steps: dict[int, tuple[list[str], list[str]]] = {}
        todo: list[tuple[str, typing.Any]] = []
        for line in self.run("rollout", self.old, self.new).splitlines():
            match line.split("\t"):
                case ["wait", words]:
                    days = int(words.split()[0])
                    todo.append(("wait", days * (DAY + 2)))
                case ["resolvers", "roots", roots]:
                    todo.append(("roots", roots.split(";")))
                case ["step", number, word, group]:
                    if int(number) not in steps:
                        steps[int(number)] = ([], [])
                        todo.append(("step", int(number)))
                    steps[int(number)][word == "stop"].append(group)
        if found := self.wrong(30, "at the start"):
            return found
        for what, value in todo:
            found = None
            if what == "wait":
                found = self.wait(value)
            elif what == "roots":
                for resolver in self.resolvers:
                    resolver.roots = value
            else:
                found = self.take(value, *steps[value])
            if found:
                return found
        return self.wrong(60, "at the end", is_over=True)


def case(seed: int) -> tuple[str, str]:
    """(passed, failed or none, what is wrong)"""
    rng = random.Random(seed)
    old = random_rows(rng)
    new = random_rows(rng) if rng.random() < 0.3 else changed_rows(rng, old)
    with tempfile.TemporaryDirectory() as room:
        write(pathlib.Path(room) / "old.csv", old)
        new_path = write(pathlib.Path(room) / "new.csv", new)
        if not is_accepted(new_path):
            return "none", ""
        try:
            found = Rollout(rng, pathlib.Path(room), old, new).roll()
        except RuntimeError as error:
            found = str(error)
    return ("failed", f"seed {seed}: {found}") if found else ("passed", "")


def main() -> int:
    if len(sys.argv) not in (2, 3):
        print(__doc__, file=sys.stderr)
        return 2
    count, seed = int(sys.argv[1]), int(sys.argv[2]) if len(sys.argv) == 3 else 1
    passed, failures = 0, []
    with multiprocessing.Pool() as pool:
        # Some of the random changes are no accepted registers, and more are drawn for these.
        for what, found in pool.imap_unordered(case, range(seed * 1_000_000, seed * 1_000_000 + 3 * count), 16):
            passed += what == "passed"
            failures += [found] if what == "failed" else []
            if passed + len(failures) >= count:
                break
    for found in failures[:5]:
        print(found)
    print(f"{passed} passed, {len(failures)} failed")
    return 1 if failures or passed < count else 0


if __name__ == "__main__":
    sys.exit(main())
