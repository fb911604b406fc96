"""Makes the tree that bench/daemon.sh asks a resolver for, and the same tree for DNS.

usage: tree.py FOLDER           writes register.csv, resolver.toml, names, and the zones and settings of nsd and unbound
       tree.py FOLDER items     reads what `ddtplan blocks` prints of the register, and writes items

Each of 65,536 identifiers 10.X.Y.0 has a name yY.xX.ten. The root leads to ten, and ten to 256 zones X of two groups of
Map-Servers. Y below 200 is a site, which has an ETR where Y is even; the others are holes, and names that aren't there.
"""
from __future__ import annotations

import ipaddress
import pathlib
import sys

ZONES, SITES = 256, 200
ROOT, TEN, SERVERS = "127.0.0.1", "127.0.1.1", ("127.0.2.1", "127.0.2.2")
ETR, ITR, RESOLVER = "127.0.3.1", "127.0.4.1", "127.0.0.53"
DNS = {"root": "127.0.5.1", "ten": "127.0.5.2", "below": "127.0.5.3"}
DNS_RESOLVER = "127.0.5.53"


def register() -> list[str]:
    rows = ["kind,prefix,group,addresses", f"group-node,,root,{ROOT}", f"group-node,,ten,{TEN}"]
    rows += [f"group-ms,,g{number},{server}" for number, server in enumerate(SERVERS)]
    rows += ["node,*,root,", "node,[0]10.0.0.0/8,ten,"]
    rows += [f"ms,[0]10.{x}.0.0/16,g{x % len(SERVERS)}," for x in range(ZONES)]
    rows += [f"site,[0]10.{x}.{y}.0/24,,{'' if y % 2 else ETR}" for x in range(ZONES) for y in range(SITES)]
    return rows


def zone(origin: str, server: str, lines: list[str]) -> list[str]:
    below = origin if origin == "." else f".{origin}"
    return [f"$ORIGIN {origin}", "$TTL 86400", f"@ SOA ns{below} host{below} 1 3600 600 86400 900", f"@ NS ns{below}",
            f"ns{below} A {server}", *lines]


def nsd(folder: pathlib.Path, name: str, zones: list[str]) -> list[str]:
    lines = ["server:", " server-count: 1", f" ip-address: {DNS[name]}@53", " do-ip6: no", ' username: ""',
             ' chroot: ""', ' database: ""', f' zonesdir: "{folder}"', f' pidfile: "{folder}/{name}.pid"',
             f' xfrdfile: "{folder}/{name}.xfrd"', f' zonelistfile: "{folder}/{name}.list"', " rrl-ratelimit: 0",
             "remote-control:", " control-enable: no"]
    for each in zones:
        lines += ["zone:", f" name: {each}", f" zonefile: {each.strip('.') or 'root'}.zone"]
    return lines


def unbound(folder: pathlib.Path) -> list[str]:
    return ["server:", ' username: ""', ' chroot: ""', f' directory: "{folder}"', f' pidfile: "{folder}/unbound.pid"',
            f" interface: {DNS_RESOLVER}", " access-control: 127.0.0.0/8 allow", " do-ip6: no", " do-daemonize: no",
            " do-not-query-localhost: no", " module-config: iterator", " num-threads: 1", " num-queries-per-thread: 4096",
            " outgoing-range: 8192", " qname-minimisation: no", " msg-cache-size: 256m", " rrset-cache-size: 512m",
            " so-rcvbuf: 4m", " use-syslog: no", f' root-hints: "{folder}/hints"', "remote-control:",
            " control-enable: no"]


def items(folder: pathlib.Path) -> list[str]:
    """For each identifier its block, its outcome and the length of the outcome's prefix."""
    lines = []
    for line in sys.stdin:
        block, outcome = line.rstrip("\n").split("\t")
        kind, prefix = outcome.split()[:2]
        if not block.startswith("[0]10."):
            continue
        length = prefix.rpartition("/")[2]
        for part in ipaddress.ip_network(block[3:]).subnets(new_prefix=24):
            lines.append(f"0 {part.network_address} 24 {kind} {length}")
    return lines


def main(words: list[str]) -> int:
    folder = pathlib.Path(words[0]).resolve()
    files: dict[str, list[str]] = {}
    if words[1:] == ["items"]:
        files["items"] = items(folder)
    else:
        names = [f"x{x}.ten." for x in range(ZONES)]
        files["register.csv"] = register()
        files["resolver.toml"] = [f'roots = ["{ROOT}"]', f'listen = ["{RESOLVER}"]', f'allow = ["{ITR}/32"]']
        files["names"] = [f"y{y}.x{x}.ten" for x in range(ZONES) for y in range(256)]
        files["root.zone"] = zone(".", DNS["root"], ["ten. NS ns.ten.", f"ns.ten. A {DNS['ten']}"])
        delegations = [f"{name} NS ns.{name}\nns.{name} A {DNS['below']}" for name in names]
        files["ten.zone"] = zone("ten.", DNS["ten"], delegations)
        for name in names:
            sites = [f"y{y} A {ETR}" for y in range(SITES)]
            files[f"{name.strip('.')}.zone"] = zone(name, DNS["below"], sites)
        files["root.nsd"] = nsd(folder, "root", ["."])
        files["ten.nsd"] = nsd(folder, "ten", ["ten."])
        files["below.nsd"] = nsd(folder, "below", names)
        files["hints"] = [". 86400 NS ns.", f"ns. 86400 A {DNS['root']}"]
        files["unbound.conf"] = unbound(folder)
    for name, lines in files.items():
        (folder / name).write_text("\n".join(lines) + "\n")
    return 0


if __name__ == "__main__":
    sys.exit(main(sys.argv[1:]))
