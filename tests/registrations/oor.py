"""Two xTRs of openoverlayrouter, whose addresses are in no register, register and ping each other: oor.py FOLDER

The tree is Kihyamut's: a root, a node, a Map-Server and a Map-Resolver, each in a network namespace of its own. Each
site has an EID-prefix of IPv4, one of IPv6, and one of instance 7.
"""
import ipaddress
import pathlib
import re
import signal
import socket
import struct
import subprocess
import sys
import time

import apart
import lisp
import net
import players
import tree
from registers import sha1
from tree import V4, V6
from world import DDT, DDTD, Checks, listed_key, until

# (instance, the EID-prefix of west, that of south)
SITES = ((0, "10.1.9.0/24", "10.1.10.0/24"), (0, "2001:db8:a:9::/64", "2001:db8:a:10::/64"),
         (7, "10.1.19.0/24", "10.1.20.0/24"))
HOSTS = {"west": ("10.1.9.9", "2001:db8:a:9::9", "10.1.19.9"), "south": ("10.1.10.9", "2001:db8:a:10::9", "10.1.20.9")}
PREFIXES = [f"[{instance}]{prefix}" for instance, *prefixes in SITES for prefix in prefixes]
REGISTER = f"""kind,prefix,group,addresses
group-node,,root,{V4['root']} {V6['root']}
group-node,,node,{V4['node']} {V6['node']}
group-ms,,east,{V4['ms']} {V6['ms']}
node,*,root,
node,[0]10.0.0.0/8,node,
node,[7]10.0.0.0/8,node,
node,[0]2001:db8:8::/45,node,
ms,[0]10.1.0.0/16,east,
ms,[7]10.1.0.0/16,east,
ms,[0]2001:db8:a::/48,east,
""" + "".join(f"site,{prefix},,\n" for prefix in PREFIXES)
# openoverlayrouter writes its key-type in 16 bits: the Key ID is 0, and the Algorithm ID 1.
KEY = sha1(0, tree.KEY)
ETRS = {prefix: V4["south" if place % 2 else "west"] for place, prefix in enumerate(PREFIXES)}
# What is told of each site, and the last line.
TOLD = {f"{prefix} registered {etr}\n  from {etr} {etr}/1\n" for prefix, etr in ETRS.items()}
TOLD.add(f"sites={len(PREFIXES)} registered={len(PREFIXES)}\n")


def configuration(host):
    place = 1 if host == "west" else 2
    text = tree.oor_xtr(SITES[0][place], V4["resolver"], False)
    for site in SITES[1:]:
        interface = tree.block("rloc-iface", interface="eth0", ip_version=4, priority=1, weight=100)
        text += f"database-mapping {{\n  eid-prefix = {site[place]}\n  iid = {site[0]}\n  ttl = 10\n{interface}}}\n"
    return text


class Lab:
    def __init__(self, folder):
        self.folder = pathlib.Path(folder)
        self.folder.mkdir(parents=True, exist_ok=True)
        self.net, self.checks = net.Net("registrations", folder), Checks("oor")
        self.players = players.Players(self.net, "KKKK")

    def start(self):
        (self.folder / "register.csv").write_text(REGISTER)
        keys = self.folder / "keys.toml"
        keys.touch(mode=0o600)
        keys.write_text("".join(listed_key(prefix, KEY, replay="any") for prefix in PREFIXES))
        for host, group in players.GROUPS.items():
            said = subprocess.run([DDT, "compile", self.folder / "register.csv", group], check=True,
                                  capture_output=True, text=True)
            words = ["--keys", "keys.toml"] if host == "ms" else []
            self.players.start_ddtd(host, "serve", said.stdout, *words)
        self.players.start_ddtd("resolver", "resolve", tree.SETTINGS)
        for host, addresses in HOSTS.items():
            for address in addresses:
                self.net.ip("-n", self.net.name(host), "addr", "replace", address, "dev", "lo")
            self.players.start_oor(host, configuration(host))

    def tell(self, word):
        words = [DDTD, "tell", self.folder / "ms.sock", word]
        said = subprocess.run(words, capture_output=True, text=True, timeout=20, check=False)
        return re.sub(r" left=\d+", "", said.stdout)

    def sites(self):
        return set(re.findall(r"^\S.*\n(?: .*\n)*", self.tell("sites"), re.MULTILINE))

    def counts(self):
        found = re.findall(r"num\.register\.(\w+)=(\d+)", self.tell("stats"))
        return {name: int(number) for name, number in found if number != "0"}


class Echo:
    """Echo requests from a host of a site to one of the other."""

    def __init__(self, namespace, source, target):
        self.target, self.count = target, 0
        is_v4 = "." in source
        self.kinds, self.head = ((8, 0), 20) if is_v4 else ((128, 129), 0)
        family, protocol = (socket.AF_INET, socket.IPPROTO_ICMP) if is_v4 else (socket.AF_INET6, socket.IPPROTO_ICMPV6)
        with apart.Within(namespace):
            self.socket = socket.socket(family, socket.SOCK_RAW, protocol)
        self.socket.bind((source, 0))
        self.socket.settimeout(0.5)

    def is_answered(self):
        self.count += 1
        rest = struct.pack("!HH", 77, self.count) + b"registered"
        checksum = lisp.checksum(bytes([self.kinds[0], 0, 0, 0]) + rest)
        body = struct.pack("!BBH", self.kinds[0], 0, checksum) + rest
        try:
            self.socket.sendto(body, (self.target, 0))
            while True:
                data = self.socket.recv(2000)[self.head:]
                if data[0] == self.kinds[1] and data[4:] == rest:
                    return True
        except OSError:
            return False


def notified(lab):
    """The nonces of the xTRs' Map-Registers that got a Map-Notify each: for how many prefixes."""
    frames = lab.net.since(0)
    told = {frame.said["nonce"] for frame in frames if frame.said["kind"] == lisp.NOTIFY}
    return len({(record["instance"], record["prefix"]) for frame in frames if frame.said["kind"] == lisp.REGISTER
                and frame.said["nonce"] in told for record in frame.said["records"]})


def pinged(lab):
    for place in range(len(SITES)):
        for source, target in (("west", "south"), ("south", "west")):
            echo = Echo(lab.net.name(source), HOSTS[source][place], HOSTS[target][place])
            came = until(True, echo.is_answered, 20)
            lab.checks.same(f"an echo from {HOSTS[source][place]} to {HOSTS[target][place]}", True, came)


def asked(lab, instance, eid):
    """The locators and the prefix of the Map-Reply that an ITR gets through the resolver."""
    address, nonce = ipaddress.ip_address(eid), time.time_ns()
    with apart.Within(lab.net.name("itr")):
        itr = apart.bound(V4["itr"])
    itr.settimeout(1)
    message = lisp.map_request(nonce, lisp.eid_of(instance, address), address.max_prefixlen, [V4["itr"]])
    itr.sendto(lisp.encapsulated(lisp.packet(V4["itr"], address, message)), (V4["resolver"], lisp.PORT))
    try:
        said = net.reading.read(itr.recv(65535))
    except TimeoutError:
        return None
    finally:
        itr.close()
    record = said["records"][0]
    return str(record["prefix"]), [str(locator) for locator in record["locators"]]


def work(lab, checks):
    lab.net.make()
    lab.start()
    checks.same("how many EID-prefixes are notified", len(PREFIXES), until(len(PREFIXES), lambda: notified(lab), 20))
    checks.same("what is told of sites", TOLD, until(TOLD, lab.sites, 2))
    counts = lab.counts()
    checks.same("what is counted", {"taken", "notified"}, set(counts))
    checks.holds("each that is taken is notified", counts.get("taken") == counts.get("notified"), counts)
    pinged(lab)
    # A Map-Reply of the xTR's for its EID-prefix of an instance: it was found under that instance alone.
    answer = ("10.1.20.0/24", [V4["south"]])
    checks.same("an EID of instance 7", answer, until(answer, lambda: asked(lab, 7, "10.1.20.9"), 10))
    log = (lab.folder / "ms.log").read_text()
    for prefix, etr in ETRS.items():
        line = f"<5>{prefix} registered {etr}\n"
        checks.same(f"how often the log says that {prefix} is registered", 1, log.count(line))


def main():
    signal.signal(signal.SIGTERM, lambda *_: sys.exit(1))
    lab = Lab(sys.argv[1])
    try:
        work(lab, lab.checks)
    finally:
        lab.players.stop()
        lab.net.remove()
    return lab.checks.end()


sys.exit(main())
