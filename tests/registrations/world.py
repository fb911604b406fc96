"""A tree of ddtd in a network namespace of this process: a root, a node, a Map-Server whose sites have keys, and a
Map-Resolver; xTRs and an ITR, which are sockets; and what was found not to be as it should."""
import contextlib
import ipaddress
import os
import pathlib
import random
import re
import select
import signal
import subprocess
import sys
import time

import apart
import lisp
import reading
import registers
import tree

DDT, DDTD = os.environ["DDT"], os.environ["DDTD"]
ROOT, NODE, MS, RESOLVER, ITR, SECOND = (f"192.0.2.{number}" for number in range(1, 7))
# xTRs are at 192.0.2.11 to 192.0.2.59.
XTR = "192.0.2.11"
REGISTER = f"""kind,prefix,group,addresses
group-node,,root,{ROOT}
group-node,,node,{NODE}
group-ms,,ms,{MS}
node,*,root,
node,[0]10.0.0.0/8,node,
node,[7]10.0.0.0/8,node,
node,[0]2001:db8:8::/45,node,
ms,[0]10.1.0.0/16,ms,
ms,[7]10.1.0.0/16,ms,
ms,[0]2001:db8:a::/48,ms,
site,[0]10.1.1.0/24,,
site,[0]10.1.2.0/24,,
site,[0]10.1.3.0/24,,192.0.2.99
site,[0]10.1.4.0/24,,192.0.2.99
site,[7]10.1.1.0/24,,
site,[0]2001:db8:a:1::/64,,
"""
SETTINGS = f'roots = ["{ROOT}"]\nlisten = ["{RESOLVER}"]\nallow = ["{ITR}/32"]\n'
ONE, TWO, THREE, FOUR = (ipaddress.ip_network(f"10.1.{number}.0/24") for number in (1, 2, 3, 4))
SIX = ipaddress.ip_network("2001:db8:a:1::/64")


def listed_key(prefix, key, **more):
    """A table of the file of keys."""
    prefix = prefix if prefix.startswith("[") else f"[0]{prefix}"
    words = {"prefix": prefix, "id": key.id, "algorithm": registers.HASHES[key.algorithm],
             "secret": key.secret.decode()} | more
    return tree.table("key", **words)


class Checks:
    """Counts what is as it should be, and prints what isn't."""

    def __init__(self, part):
        self.part, self.passed, self.failed = part, 0, 0

    def same(self, what, wanted, got):
        if wanted == got:
            self.passed += 1
            return
        self.failed += 1
        print(f"{self.part}: {what}:\n  wanted {wanted}\n  got    {got}", flush=True)

    def holds(self, what, is_so, got=""):
        self.same(what, True, is_so if is_so is True else f"it isn't so: {got}")

    def end(self):
        print(f"{self.part}: {self.passed} passed, {self.failed} failed")
        return 1 if self.failed or not self.passed else 0


def until(wanted, ask, seconds=5):
    """What is asked for, once it is what is wanted, or after so many seconds."""
    end = time.monotonic() + seconds
    while (got := ask()) != wanted and time.monotonic() < end:
        time.sleep(0.05)
    return got


class Xtr:
    """The socket of an xTR, at port 4342."""

    def __init__(self, address, port=lisp.PORT):
        self.address, self.socket = address, apart.bound(address, port)

    def send(self, message):
        self.socket.sendto(message, (MS, lisp.PORT))

    def heard(self, seconds=0.4, patience=0):
        """What comes in this time; it begins with the first message, or when there was the patience to wait for it."""
        select.select([self.socket], [], [], patience)
        found, end = [], time.monotonic() + seconds
        while select.select([self.socket], [], [], max(0, end - time.monotonic()))[0]:
            found.append(self.socket.recv(65535))
        return found

    def told(self, message, seconds=5):
        """Sends a message, and waits for one that comes back; None where none does. What came before is let go."""
        self.heard(0)
        self.send(message)
        ready = select.select([self.socket], [], [], seconds)[0]
        return self.socket.recv(65535) if ready else None


class World:
    def __init__(self, part, folder):
        apart.own_namespace()
        self.folder, self.programs, self.checks = pathlib.Path(folder), {}, Checks(part)
        self.folder.mkdir(parents=True, exist_ok=True)
        self.ip("link", "set", "lo", "up")
        for number in (*range(1, 7), *range(11, 60)):
            self.ip("addr", "add", f"192.0.2.{number}/32", "dev", "lo")
        self.keys, self.kept = self.folder / "keys.toml", self.folder / "registrations"
        self.write("register.csv", REGISTER)
        for group in ("root", "node", "ms"):
            said = subprocess.run([DDT, "compile", self.folder / "register.csv", group], check=True,
                                  capture_output=True, text=True)
            self.write(f"{group}.toml", said.stdout)
        self.write("resolver.toml", SETTINGS)
        self.itr = apart.bound(ITR)

    def ip(self, *words):
        subprocess.run(["ip", *words], check=True, capture_output=True)

    def write(self, name, text):
        (self.folder / name).write_text(text)

    def write_keys(self, *tables):
        self.keys.touch(mode=0o600)
        self.keys.write_text("".join(tables))

    def start(self, name, command, *words):
        """Starts a daemon, and waits until it is ready. Its log is what it says from now on."""
        log = self.folder / f"{name}.log"
        with log.open("w") as out:
            words = [DDTD, command, f"{name}.toml", "--control", f"{name}.sock", *words]
            self.programs[name] = subprocess.Popen(words, cwd=self.folder, stdin=subprocess.DEVNULL, stderr=out)
        end = time.monotonic() + 30
        while "<5>ready" not in log.read_text():
            if self.programs[name].poll() is not None or time.monotonic() > end:
                raise RuntimeError(f"{name} isn't ready: {log.read_text()}")
            time.sleep(0.02)

    def start_server(self, *words):
        self.start("ms", "serve", "--keys", "keys.toml", "--registrations", "registrations", *words)

    def start_tree(self):
        self.start("root", "serve")
        self.start("node", "serve")
        self.start_server()
        self.start("resolver", "resolve")

    def end(self, name, number=signal.SIGTERM):
        """Ends a daemon by a signal; its status."""
        program = self.programs.pop(name)
        program.send_signal(number)
        return program.wait(20)

    def refused(self, *words):
        """The status of a ddtd that is to refuse, and what it says."""
        said = subprocess.run([DDTD, *words], cwd=self.folder, capture_output=True, text=True, timeout=20, check=False)
        return said.returncode, (said.stdout + said.stderr).strip()

    def log(self, name="ms"):
        return (self.folder / f"{name}.log").read_text()

    def site_lines(self, prefix):
        """What the log says of a site."""
        return re.findall(rf"^<5>({re.escape(prefix)} .*)$", self.log(), re.MULTILINE)

    def tell(self, *words):
        said = subprocess.run([DDTD, "tell", "ms.sock", *words], cwd=self.folder, capture_output=True, text=True,
                              timeout=20, check=False)
        return said.stdout

    def sites(self):
        """What is told of sites, without how many seconds are left."""
        return re.sub(r" left=\d+", "", self.tell("sites"))

    def left(self):
        """How many seconds are left, of each registration."""
        return [int(number) for number in re.findall(r" left=(\d+)", self.tell("sites"))]

    def site(self, prefix):
        """The first line that is told of a site."""
        return next((line for line in self.sites().splitlines() if line.startswith(prefix + " ")), "")

    def counts(self):
        """What is counted of Map-Registers, without what is zero."""
        found = re.findall(r"num\.register\.(\w+)=(\d+)", self.tell("stats"))
        return {name: int(number) for name, number in found if number != "0"}

    def rise(self, before):
        """By how much counts are above those of before, without what hasn't changed."""
        now = self.counts()
        return {name: now[name] - before.get(name, 0) for name in now if now[name] != before.get(name, 0)}

    def asked(self, eid, nonce, *, instance=0, server=MS, ddt=1):
        """An ITR's Map-Request for an identifier, as it sends it."""
        address = ipaddress.ip_address(eid)
        message = lisp.map_request(nonce, lisp.eid_of(instance, address), address.max_prefixlen, [ITR])
        # The inner addresses are the ITR's and the EID's; those of an IPv6 packet are only looked at for their form.
        inner = ITR if address.version == 4 else "2001:db8::5"
        return lisp.encapsulated(lisp.packet(inner, address, message), 0x80 | ddt << 2)

    def answer(self, eid, *, instance=0, server=MS, seconds=3):
        """What is answered for an identifier: of a Map-Server the action of its Map-Referral, of a resolver, which
        passes a request on where there is an ETR, its TTL; `nothing` where nothing is."""
        nonce, end = random.getrandbits(64), time.monotonic() + seconds
        self.itr.sendto(self.asked(eid, nonce, instance=instance, ddt=int(server == MS)), (server, lisp.PORT))
        while select.select([self.itr], [], [], max(0, end - time.monotonic()))[0]:
            said = reading.read(self.itr.recv(65535))
            if said and said["nonce"] == nonce:
                record = said["records"][0]
                return lisp.ACTIONS[record["action"]] if server == MS else f"negative, TTL {record['ttl']}"
        return "nothing"

    def goes_to(self, xtrs, eid, **words):
        """(what is answered, the addresses of the xTRs to which the request goes on)"""
        for xtr in xtrs:
            xtr.heard(0)
        answer = self.answer(eid, **words)
        went = [xtr.address for xtr in xtrs if any(is_request(message) for message in xtr.heard(0.1))]
        return answer, went

    def stop(self):
        for program in self.programs.values():
            program.kill()
        for program in self.programs.values():
            with contextlib.suppress(subprocess.TimeoutExpired):
                program.wait(5)


def is_request(message):
    said = reading.read(message)
    return bool(said) and said["kind"] == lisp.REQUEST


def run(part, work):
    """Runs a part in a world of its own, in the folder that the first word names."""
    signal.signal(signal.SIGTERM, lambda *_: sys.exit(1))
    world = World(part, sys.argv[1])
    try:
        work(world, world.checks)
    finally:
        world.stop()
    sys.exit(world.checks.end())
