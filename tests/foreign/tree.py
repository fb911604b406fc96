"""The tree that the rows of the matrix build: its hosts, its register, and what each program is configured with."""
import ipaddress

# Who is resolver, root, node and Map-Server. K: Kihyamut; O: openoverlayrouter; P: openoverlayrouter, which answers for
# the ETRs, by proxy; -: nobody, so that the ITR asks the Map-Server itself.
ROWS = ("KKKK", "KOOK", "KOKK", "KKOK", "KKKO", "KOOO", "KKKP", "OKKK", "OOOK", "OKKO", "OKKP", "---K", "---O", "OOOO")
FULL = {"K": "Kihyamut", "O": "OOR", "P": "OOR", "-": "none"}
HOSTS = ("itr", "resolver", "root", "node", "ms", "etr", "west", "south")
V4 = {name: f"192.0.2.{number}" for number, name in enumerate(HOSTS, 1)}
V6 = {name: f"2001:db8::{number}" for number, name in enumerate(HOSTS, 1)}
NAMES = {address: name for table in (V4, V6) for name, address in table.items()}
# A column of the table, and its head.
COLUMNS = {"ipv4": "IPv4 site", "ipv6": "IPv6 site", "instance": "instance 7", "absent": "not registered",
           "hole-root": "hole of root", "hole-node": "hole of node", "hole-ms": "hole of MS", "smr": "SMR-invoked",
           "register": "xTR registers", "ping": "xTRs ping", "smr-xtr": "xTR after SMR", "asked": "ddtplan ask"}
# Where ddtplan asks: 10 seconds, so only in a tree of each implementation.
WITH_DDTPLAN = ("KKKK", "KOOO")
ABSENT = ("absent", "hole-root", "hole-node", "hole-ms")

REGISTER = """kind,prefix,group,addresses
group-node,,root,192.0.2.3 2001:db8::3
group-node,,node,192.0.2.4 2001:db8::4
group-ms,,east,192.0.2.5 2001:db8::5
node,*,root,
node,[0]10.0.0.0/8,node,
node,[7]10.0.0.0/8,node,
node,[0]2001:db8:8::/45,node,
ms,[0]10.1.0.0/16,east,
ms,[7]10.1.0.0/16,east,
ms,[0]2001:db8:a::/48,east,
site,[0]10.1.2.0/24,,192.0.2.6
site,[7]10.1.2.0/24,,192.0.2.6
site,[0]2001:db8:a:1::/64,,192.0.2.6
site,[0]10.1.4.0/24,,
site,[0]10.1.9.0/24,,192.0.2.7
site,[0]10.1.10.0/24,,192.0.2.8
"""
SETTINGS = """roots = ["192.0.2.3"]
listen = ["192.0.2.2", "2001:db8::2"]
allow = ["192.0.2.1/32", "192.0.2.7/32", "192.0.2.8/32", "2001:db8::/64"]
"""
# Whom a Map-Server of Kihyamut answers that asks without the bit D.
ANYBODY = 'allow = ["0.0.0.0/0", "::/0"]\n'

# The sites of the ETR, and all that are registered.
SITES = ((0, "10.1.2.0/24"), (7, "10.1.2.0/24"), (0, "2001:db8:a:1::/64"))
XTR_SITES = ((0, "10.1.9.0/24"), (0, "10.1.10.0/24"))
REGISTERED = [(instance, ipaddress.ip_network(prefix)) for instance, prefix in SITES + XTR_SITES]
# The sites that have a key at a Map-Server, one of them without an ETR.
KEYED_SITES = (*SITES, (0, "10.1.4.0/24"), *XTR_SITES)
ZONES = (("0.0.0.0/0", 0), ("0.0.0.0/0", 7), ("::/0", 0))
NODE = (("10.0.0.0/8", 0), ("10.0.0.0/8", 7), ("2001:db8:8::/45", 0))
SERVED = (("10.1.0.0/16", 0), ("10.1.0.0/16", 7), ("2001:db8:a::/48", 0))
KEY = "password"
HEAD = "debug = 3\nmap-request-retries = 2\n"


def is_oor(player):
    return player in ("O", "P")


def label(row):
    resolver, root, node, ms = row
    if resolver == "-":
        return f"ITR asks {FULL[ms]}'s MS"
    proxy = " by proxy" if ms == "P" else ""
    return f"MR {FULL[resolver]}, root {FULL[root]}, node {FULL[node]}, MS {FULL[ms]}{proxy}"


def block(name, **values):
    """A block of openoverlayrouter's configuration."""
    lines = "".join(f"    {key.replace('__', '-')} = {value}\n" for key, value in values.items())
    return f"{name} {{\n{lines}}}\n"


def table(name, **values):
    """A table of an array of them in a TOML file."""
    lines = "".join(f"{key} = {spelled(value)}\n" for key, value in values.items())
    return f"[[{name}]]\n{lines}\n"


def spelled(value):
    return f'"{value}"' if isinstance(value, str) else str(value).lower()


def write_keys(path, sites):
    """The keys of Kihyamut's Map-Server. openoverlayrouter writes its key-type in 16 bits: the Key ID is 0, and the
    Algorithm ID 1. Its nonces are random."""
    words = {"id": 0, "algorithm": "sha1", "secret": KEY, "replay": "any"}
    path.touch(mode=0o600)
    path.write_text("".join(table("key", prefix=f"[{instance}]{prefix}", **words) for instance, prefix in sites))


def oor_node(zones, children, kind, server):
    servers = f"{{ {V4[server]}, {V6[server]} }}"
    own = [block("ddt-auth-site", eid__prefix=prefix, iid=instance) for prefix, instance in zones]
    below = [block("ddt-deleg-site", eid__prefix=prefix, iid=instance, delegation__type=kind, deleg__nodes=servers)
             for prefix, instance in children]
    return HEAD + "control-iface = eth0\noperating-mode = DDT\n" + "".join(own + below)


def oor_resolver():
    return HEAD + "control-iface = eth0\noperating-mode = DDT-MR\nddt-root-addresses = { 192.0.2.3 }\n"


def oor_ms(proxy):
    words = {"key__type": 1, "key": KEY, "accept__more__specifics": "false", "ddt__ms__peers__complete": "true",
             "proxy__reply": "true" if proxy else "false"}
    text = "".join(block("lisp-site", eid__prefix=prefix, iid=instance, **words) for instance, prefix in KEYED_SITES)
    return HEAD + "control-iface = eth0\noperating-mode = MS\n" + text


def oor_xtr(prefix, resolver, proxy):
    mapping = f"database-mapping {{\n  eid-prefix = {prefix}\n  iid = 0\n  ttl = 10\n"
    interface = block("rloc-iface", interface="eth0", ip_version=4, priority=1, weight=100)
    server = block("map-server", address=V4["ms"], key__type=1, key=KEY, proxy__reply="on" if proxy else "off")
    head = HEAD + "operating-mode = xTR\nnat_traversal_support = off\nencapsulation = LISP\n"
    probing = block("rloc-probing", rloc__probe__interval=0)
    return f"{head}{probing}map-resolver = {{ {resolver} }}\n{server}{mapping}{interface}}}\n"
