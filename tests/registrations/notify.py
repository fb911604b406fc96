"""The Map-Notifies that are sent, and nothing else: notify.py FOLDER"""
import itertools
import shutil
import struct
import subprocess

import lisp
from registers import USE_TTL, WANT_NOTIFY, map_notify, map_register, mapping, sha1, sha256
from world import MS, ONE, SIX, TWO, Xtr, listed_key, run

# A secret for each length of a code that there is.
KEYS = sha256(1, "sixteen bytes"), sha1(2, "twelve bytes", 12), sha1(3, "all twenty")
IDS = (1 << 127 | 5, 1 << 63 | 9)
# An LCAF of type 3 (AS number) in the place of a locator's address.
ODD = lisp.lcaf(3, struct.pack("!I", 65001) + lisp.plain("192.0.2.11"))
RECORDS = ([mapping(ONE, ["192.0.2.11"])], [mapping(ONE, ["2001:db8::1", (ODD, 7), "192.0.2.1"]), mapping(TWO, [])],
           [mapping(SIX, [f"192.0.2.{number}" for number in range(1, 9)]), mapping(ONE, [], instance=7)],
           [mapping(ONE, ["192.0.2.11"], minutes=0)])


def by_openssl(secret, algorithm, covered):
    said = subprocess.run(["openssl", "dgst", f"-{algorithm}", "-mac", "HMAC", "-macopt", f"hexkey:{secret.hex()}",
                           "-binary"], input=covered, capture_output=True, check=True)
    return said.stdout


def judge(checks, what, message, notify, key):
    """A Map-Notify is what the Map-Register asks for, and bears the code that openssl computes."""
    checks.same(f"its bytes, {what}", map_notify(message, key).hex(), notify.hex())
    checks.holds(f"it is no longer than the Map-Register, {what}", len(notify) <= len(message))
    if shutil.which("openssl"):
        covered = notify[:16] + bytes(key.length) + notify[16 + key.length:]
        code = by_openssl(key.secret, {1: "sha1", 2: "sha256"}[key.algorithm], covered)[:key.length]
        checks.same(f"its code by openssl, {what}", code.hex(), notify[16:16 + key.length].hex())


def capture(path, messages):
    """A capture of messages from the Map-Server to the xTR, as packets without Ethernet."""
    with path.open("wb") as out:
        out.write(struct.pack("<IHHiIII", 0xA1B2C3D4, 2, 4, 0, 0, 65535, 101))
        for message in messages:
            data = lisp.packet(MS, "192.0.2.11", message)
            out.write(struct.pack("<IIII", 0, 0, len(data), len(data)) + data)


def by_tshark(path):
    """For each message of a capture whether tshark takes it for a good Map-Notify."""
    said = subprocess.run(["tshark", "-r", path, "-T", "fields", "-e", "lisp.type", "-e", "_ws.malformed",
                           "-e", "_ws.expert.message"], capture_output=True, text=True, check=True)
    return [line.rstrip("\n").split("\t") == ["4", "", ""] for line in said.stdout.splitlines()]


def inspected(world, notifies):
    if not shutil.which("tshark"):
        print("notify: NOT RUN, Map-Notifies as tshark reads them: there is no tshark")
        return
    # The last one is cut, so that tshark has to find something.
    capture(world.folder / "notifies.pcap", [*notifies, notifies[0][:-3]])
    found = by_tshark(world.folder / "notifies.pcap")
    world.checks.same("what tshark says of each", [True] * len(notifies) + [False], found)


def work(world, checks):
    prefixes = ("10.1.1.0/24", "10.1.2.0/24", "[7]10.1.1.0/24", "2001:db8:a:1::/64")
    world.write_keys(*(listed_key(prefix, key) for prefix in prefixes for key in KEYS))
    world.start_server()
    xtr, others = Xtr("192.0.2.11"), [Xtr("192.0.2.11", 5000), Xtr("192.0.2.12")]
    notifies, cases = [], itertools.product(KEYS, (None, IDS), (0, WANT_NOTIFY, WANT_NOTIFY | USE_TTL), RECORDS)
    before, wanted = world.counts(), {"taken": 0, "notified": 0}
    for nonce, (key, ids, bits, records) in enumerate(cases, 2**63):
        what = f"Algorithm ID {key.algorithm}, {key.length} bytes, bits {bits}, {len(records)} records, nonce {nonce}"
        message = map_register(nonce, records, key, bits=bits, xtr=ids)
        # One of three comes from a port of its own, and its Map-Notify goes to port 4342 all the same.
        (others[0] if nonce % 3 == 0 else xtr).send(message)
        heard = xtr.heard(0.05, 5 if bits & WANT_NOTIFY else 0)
        checks.same(f"how many come, {what}", bits & WANT_NOTIFY, len(heard))
        wanted = {"taken": wanted["taken"] + 1, "notified": wanted["notified"] + len(heard)}
        for notify in heard:
            judge(checks, what, message, notify, key)
        notifies += heard
    checks.same("what is counted", wanted, world.rise(before))
    checks.same("what others hear", [[], []], [other.heard() for other in others])
    inspected(world, notifies)


run("notify", work)
