"""Sends ddtd messages of other implementations: odd Map-Referrals to `ddtd resolve`, odd Map-Requests to `ddtd serve`
and `ddtd resolve`. Prints for each what came, what is wanted, and whether that agrees.

usage: odd.py FOLDER [-v] [WORD...]

FOLDER is for the daemons' files. Of the variants only those are sent whose names hold one of the words; -v shows their
bytes too. The status is 1 if one isn't as expected.py has it.
"""
import contextlib
import ipaddress
import os
import pathlib
import random
import re
import signal
import subprocess
import sys
import time

import apart
import expected
import fakes
import tree
import variants
from fakes import Client, told
from lisp import ACTIONS, REFERRAL
from variants import ANOTHER, ITR, RESOLVER, ROOT

DDT, DDTD = os.environ["DDT"], os.environ["DDTD"]
WITH_SETTINGS = os.environ.get("SERVE_SETTINGS") != "no"
# Kihyamut's own: a root, two Map-Servers, a resolver over them; and one over the fake servers that is never flushed.
SERVERS = {"root": "192.0.2.33", "east": "192.0.2.35", "west": "192.0.2.36"}
ASKED, LASTING = "192.0.2.22", "192.0.2.23"
ADDRESSES = (1, 2, 3, 4, 5, 6, 8, 22, 23, 33, 35, 36, 40, 97, 98, 99)
REGISTER = """kind,prefix,group,addresses
group-node,,root,192.0.2.33
group-ms,,east,192.0.2.35
group-ms,,west,192.0.2.36
node,*,root,
ms,[0]10.1.0.0/16,east,
ms,[7]10.1.0.0/16,east,
ms,[0]2001:db8:a::/48,east,
site,[0]10.1.2.0/24,,192.0.2.6
site,[7]10.1.2.0/24,,192.0.2.6
site,[0]2001:db8:a:1::/64,,192.0.2.6
site,[0]10.1.4.0/24,,
site,[0]10.1.6.0/24,,192.0.2.35
ms,[0]10.3.0.0/16,west,
site,[0]10.3.2.0/24,,192.0.2.6
"""
COMMANDS = ("ip link set lo up",
            *(f"ip addr add 192.0.2.{number}/32 dev lo" for number in ADDRESSES),
            *(f"ip addr add 2001:db8::{number}/128 dev lo nodad" for number in (1, 2, 5)))
# How long an AFI may take to be logged, since log lines are bounded.
SECONDS_TO_LOG = 11
WANTED = {"reply": "the ETR's Map-Reply", "only": "the same, and no other asked", "nothing": "nothing",
          "negative 1": "negative Map-Reply, 1 min", "negative 15": "negative Map-Reply, 15 min",
          "logged": "nothing, and the AFI logged", "MS-ACK": "MS-ACK"}


class Daemons:
    """The daemons under test, by their names."""

    def __init__(self, folder):
        self.folder, self.programs = folder, []

    def start(self, name, command, text, *words):
        path = self.folder / name
        path.with_suffix(".toml").write_text(text)
        with open(path.with_suffix(".log"), "w") as log:
            words = [DDTD, command, *words, f"{path}.toml", "--control", f"{path}.sock"]
            self.programs.append(subprocess.Popen(words, stderr=log, stdin=subprocess.DEVNULL))
        end = time.time() + 30
        while "ready" not in self.log(name):
            if self.programs[-1].poll() is not None or time.time() > end:
                raise RuntimeError(f"{name} isn't ready: {self.log(name)}")
            time.sleep(0.05)

    def start_all(self):
        register, allow, keys = (self.folder / name for name in ("register.csv", "allow", "keys"))
        register.write_text(REGISTER)
        allow.write_text(f'allow = ["{ITR}/32"]\n')
        tree.write_keys(keys, tree.SITES)
        east = ["--keys", str(keys), *(["--settings", str(allow)] if WITH_SETTINGS else [])]
        for group in SERVERS:
            words = east if group == "east" else []
            said = subprocess.run([DDT, "compile", register, group], check=True, capture_output=True, text=True)
            self.start(group, "serve", said.stdout, *words)
        for name, root, listen in (("resolver", ROOT, RESOLVER), ("asked", SERVERS["root"], ASKED),
                                   ("lasting", ROOT, LASTING)):
            self.start(name, "resolve", f'roots = ["{root}"]\nlisten = ["{listen}"]\nallow = ["{ITR}/32"]\n')

    def log(self, name):
        return (self.folder / f"{name}.log").read_text()

    def tell(self, name, word):
        words = [DDTD, "tell", self.folder / f"{name}.sock", word]
        return subprocess.run(words, capture_output=True, text=True, timeout=30, check=False).stdout

    def counts(self, name):
        """What counts lost messages and lookups."""
        lines = (line.split("=", 1) for line in self.tell(name, "stats").split() if "=" in line)
        return {count: int(number) for count, number in lines if re.match(r"num\.(dropped|gaveup|ignored)", count)}

    def received(self, name):
        """How many packets a server had."""
        return int(re.search(r"num\.received=(\d+)", self.tell(name, "stats"))[1])

    def stop(self):
        for program in self.programs:
            program.terminate()
        for program in self.programs:
            with contextlib.suppress(subprocess.TimeoutExpired):
                program.wait(5)
            program.kill()
            program.wait()


class Bench:
    def __init__(self, folder, words, verbose):
        self.words, self.verbose = [word.lower() for word in words], verbose
        self.good, self.faults, self.free, self.seen = 0, [], 0, set()
        self.daemons, self.tree = Daemons(folder), fakes.Tree()
        self.clients = {address: Client(address) for address in (ITR, ANOTHER)}

    def wants(self, name):
        return not self.words or any(word in name.lower() for word in self.words)

    def judge(self, name, came, wanted, right, says):
        """Prints a variant, and counts it. Where no RFC says what is to be done, it doesn't count."""
        mark = "-" if says.startswith("no rule") else "ok" if right else "NOT"
        excepted = expected.VARIANTS.get(name)
        self.seen.add(name)
        self.free += mark == "-"
        self.good += mark == "ok"
        if mark == "NOT" and not excepted:
            self.faults.append(f"{name}: {came}. Wanted: {wanted}")
        if mark == "ok" and excepted:
            self.faults.append(f"{name} is as asked, but expected.py says: {excepted}")
        says = f"{says}; {excepted}" if excepted else says
        print(f"{mark:4} {name:60} {came:50} {wanted:28} {says}", flush=True)

    def is_right(self, want, said, eid, took, names_afi):
        record = said["records"][0] if said and said["records"] else None
        has_locators = bool(record and record["locators"])
        if want == "MS-ACK":
            return bool(record) and said["kind"] == REFERRAL and record["action"] == ACTIONS.index("MS-ACK")
        if want in ("reply", "only"):
            return has_locators and took < 2
        if want.startswith("negative"):
            covers = bool(record) and record["prefix"] is not None and eid in record["prefix"]
            return covers and not has_locators and (record["action"], record["ttl"]) == (1, int(want.split()[1]))
        return said is None and (want == "nothing" or names_afi)

    def put(self, ask, want, daemon):
        """Asks; where the AFI is to be logged, until it is. (reply, seconds, what came, whether the AFI was named)"""
        before, counts, start = len(self.daemons.log(daemon)), self.daemons.counts(daemon), time.time()
        names_afi, said, took = False, *ask()
        while want == "logged" and said is None and not names_afi and time.time() < start + SECONDS_TO_LOG:
            names_afi = re.search("AFI|address family", self.daemons.log(daemon)[before:])
            said, took = (said, took) if names_afi else ask()
        came = told(said)
        if said is None:
            later = self.daemons.counts(daemon)
            lost = ", ".join(count[4:] for count in later if later[count] > counts.get(count, 0))
            came += f" ({lost})" if lost else ""
        return said, took, came, bool(names_afi)

    def referrals(self):
        print("\n== Map-Referrals that a root sends, to ddtd resolve: what the ITR gets")
        for number, one in enumerate(variants.REFERRALS, 20):
            if self.wants(one.name):
                self.referral(one, ipaddress.ip_address(f"10.{number}.2.3"))

    def referral(self, one, eid):
        self.tree.answers[eid] = one.make
        self.daemons.tell("resolver", "flush")
        patience = 2.5 if one.want in ("nothing", "logged") else 6.5

        def ask():
            nonce = random.getrandbits(64)
            return self.clients[ITR].ask(fakes.request(eid, nonce), nonce, RESOLVER, patience)
        said, took, came, names_afi = self.put(ask, one.want, "resolver")
        came += f", {took:.1f} s" if said else ""
        right = self.is_right(one.want, said, eid, took, names_afi)
        if one.want == "only" and any(self.tree.count(silent, f"{eid}/32") for silent in variants.SILENT):
            right, came = False, came + ", after a silent one was asked"
        self.judge(one.name, came, WANTED[one.want], right, one.says)

    def asks(self, kept, number, server, turns):
        """How often the root is asked in all, after these identifiers of one block were asked for."""
        for turn in turns:
            eid, nonce = ipaddress.ip_address(f"10.{number}.{turn + 2}.3"), random.getrandbits(64)
            self.tree.answers[eid] = kept.make
            self.clients[ITR].ask(fakes.request(eid, nonce), nonce, server, 3)
        return self.tree.count(ROOT, f"10.{number}.0.0/16")

    def caching(self):
        print("\n== What ddtd resolve remembers: how often it asks the root for two identifiers")
        for number, kept in enumerate(variants.KEPT, 100):
            if self.wants(kept.name):
                self.daemons.tell("resolver", "flush")
                seen = self.asks(kept, number, RESOLVER, (0, 1))
                self.judge(kept.name, f"{seen}", f"{kept.asks}", seen == kept.asks, kept.says)

    def lasting(self, since):
        kept = variants.KEPT_A_MINUTE
        if self.wants(kept.name):
            time.sleep(max(0, since + 65 - time.time()))
            seen = self.asks(kept, 109, LASTING, (1,))
            self.judge(kept.name, f"{seen}", f"{kept.asks}", seen == kept.asks, kept.says)

    def requests(self):
        print("\n== Map-Requests: with bit D to a Map-Server (ddtd serve), without it to ddtd resolve")
        for one in variants.REQUESTS:
            if one.server and self.wants(f"serve: {one.name}"):
                # A hole is the root's to tell.
                self.request(f"serve: {one.name}", one, one.server, "root" if one.eid == variants.HOLE else "east")
            if one.resolver and self.wants(f"resolve: {one.name}"):
                self.request(f"resolve: {one.name}", one, one.resolver, "asked")

    def request(self, name, one, want, daemon):
        client, server = self.clients[ITR if daemon == "asked" else ANOTHER], SERVERS.get(daemon, ASKED)
        nonces = []

        def ask():
            nonces.append(random.getrandbits(64))
            message = fakes.variant(one, nonces[-1], daemon != "asked")
            if self.verbose:
                print("     " + message.hex())
            return client.ask(message, nonces[-1], server, 1.2 if want in ("nothing", "logged") else 2.5)
        said, took, came, names_afi = self.put(ask, want, daemon)
        right = self.is_right(want, said, one.target, took, names_afi)
        if want == "nothing" and self.tree.is_forwarded(nonces):
            right, came = False, "went on to the ETR"
        self.judge(name, came, WANTED[want], right, one.says)

    def ports(self):
        """An ITR that asks from a port of the system's choice."""
        name = "resolve: ephemeral inner source port"
        if self.wants(name):
            client, nonce = Client(ITR, 0), random.getrandbits(64)
            eid = ipaddress.ip_address(variants.SITE)
            said, took = client.ask(fakes.request(eid, nonce, port=client.port), nonce, ASKED, 2.5)
            self.judge(name, told(said), WANTED["reply"], self.is_right("reply", said, eid, took, False), "9301 5.8")

    def direct(self):
        print("\n== Map-Requests without bit D to ddtd serve")
        for one in variants.DIRECT:
            if self.wants(one.name):
                self.direct_one(one)

    def direct_one(self, one):
        prefix, nonce = ipaddress.ip_network(one.prefix), random.getrandbits(64)
        eid, before = prefix.network_address, self.daemons.received(one.server)
        message = fakes.request(eid, nonce, length=prefix.prefixlen)
        said, took = self.clients[one.sender].ask(message, nonce, SERVERS[one.server], 2)
        right, came = self.is_right(one.want, said, eid, took, False), told(said)
        again = self.daemons.received(one.server) - before - 1
        if one.want == "nothing" and (again or self.tree.is_forwarded([nonce])):
            right, came = False, f"it went on, and came back {again} times"
        self.judge(one.name, came, WANTED[one.want], right, one.says)

    def run(self):
        self.daemons.start_all()
        since = time.time()
        self.asks(variants.KEPT_A_MINUTE, 109, LASTING, (0,))
        self.referrals()
        self.caching()
        self.requests()
        self.ports()
        self.direct()
        self.lasting(since)
        print("\nok: as the RFC asks; NOT: it isn't; -: no RFC has a rule. In parentheses: the counts that went up.")
        if not self.words:
            idle = expected.VARIANTS.keys() - self.seen
            self.faults += [f"expected.py has {name}, which isn't sent" for name in idle]
        for fault in self.faults:
            print(f"NOT AS EXPECTED  {fault}")
        print(f"{self.good} variants as the RFCs ask, {self.free} without a rule, {len(self.faults)} not as expected")
        return 1 if self.faults else 0


def main():
    signal.signal(signal.SIGTERM, lambda *_: sys.exit(1))
    apart.own_namespace()
    for command in COMMANDS:
        subprocess.run(command.split(), check=True)
    folder = pathlib.Path(sys.argv[1])
    folder.mkdir(exist_ok=True)
    bench = Bench(folder, [word for word in sys.argv[2:] if word != "-v"], "-v" in sys.argv[2:])
    try:
        return bench.run()
    finally:
        bench.daemons.stop()


sys.exit(main())
