"""Map-Registers that are dropped in silence, each counted by its reason: silence.py FOLDER"""
import dataclasses
import ipaddress
import time

import lisp
from registers import map_register, mapping, sha1, sha256
from world import ONE, SIX, TWO, Xtr, listed_key, run, until

KEY, ANY, SECOND = sha256(1, "of the first site"), sha1(2, "any nonce"), sha256(1, "of the second site")
KEYS = (listed_key("10.1.1.0/24", KEY), listed_key("10.1.1.0/24", ANY, replay="any"),
        listed_key("10.1.2.0/24", SECOND), listed_key("2001:db8:a:1::/64", KEY))
GOOD = [mapping(ONE, ["192.0.2.11"])]
ABSENT = mapping(ipaddress.ip_network("10.1.77.0/24"), ["192.0.2.11"])
FLOOD = 6000
NINE = [f"192.0.2.{number}" for number in range(1, 10)]


def resigned(message, change, key=KEY):
    """The message with other bytes, and the code that these have."""
    changed = change(message[:16], message[16 + key.length:])
    return changed[0] + key.code(changed[0] + bytes(key.length) + changed[1]) + changed[1]


def good(nonce, records=None, key=KEY, **words):
    return map_register(nonce, GOOD if records is None else records, key, **words)


def sized(size, nonce):
    """One of so many bytes, with an LCAF in the place of an address."""
    most = size - len(good(nonce, [mapping(ONE, [lisp.lcaf(4, b"")])]))
    return good(nonce, [mapping(ONE, [lisp.lcaf(4, bytes(most))])])


def malformed():
    """Datagrams that are no Map-Register, though most bear a right code."""
    base = good(2**60)
    yield "one byte", base[:1]
    yield "cut", base[:-1]
    yield "only a head", base[:16]
    yield "a code of 65,535 bytes", base[:14] + b"\xff\xff" + base[16:]
    yield "a byte more", resigned(base, lambda head, rest: (head, rest + b"\0"))
    yield "two records said", resigned(base, lambda head, rest: (head[:3] + b"\2" + head[4:], rest))
    yield "no record said", resigned(base, lambda head, rest: (head[:3] + b"\0" + head[4:], rest))
    yield "nine locators said", resigned(base, lambda head, rest: (head, rest[:4] + b"\x09" + rest[5:]))
    yield "a mask length of 33", resigned(base, lambda head, rest: (head, rest[:5] + b"\x21" + rest[6:]))
    yield "the bit I without IDs", resigned(base, lambda head, rest: (b"\x32" + head[1:], rest))
    yield "IDs without the bit I", resigned(base, lambda head, rest: (head, rest + bytes(24)))
    mac = lisp.record(10, 24, 0, b"\x40\x05" + bytes(6), [lisp.locator("192.0.2.11")])
    yield "an EID of AFI 16389", good(2**60, [mac])


def refused():
    """(reason, name, datagram) of what isn't malformed."""
    yield "norecord", "no record", good(2**60, [])
    yield "nosite", "no such site", good(2**60, [ABSENT])
    yield "nosite", "a longer prefix", good(2**60, [mapping(ipaddress.ip_network("10.1.1.0/25"), [])])
    yield "nosite", "another instance", good(2**60, [mapping(ONE, [], instance=7)])
    yield "nosite", "one of two isn't there", good(2**60, [GOOD[0], ABSENT])
    yield "nokey", "another Key ID", good(2**60, key=sha256(9, "of the first site"))
    yield "nokey", "another algorithm", good(2**60, key=sha1(1, "of the first site"))
    yield "wrongcode", "another secret", good(2**60, key=SECOND)
    yield "wrongcode", "a neighbour's prefix", good(2**60, [mapping(TWO, ["192.0.2.11"])])
    yield "wrongcode", "the second is a neighbour's", good(2**60, [GOOD[0], mapping(TWO, ["192.0.2.11"])])
    # As HMAC-SHA-256-128 has codes of 16 bytes, one of 12 is none.
    yield "wrongcode", "a shorter code", good(2**60, key=dataclasses.replace(KEY, length=12))
    yield "wrongcode", "no code", good(2**60, key=dataclasses.replace(KEY, length=0))
    yield "wrongcode", "a bit is flipped", good(2**60)[:-1] + bytes([good(2**60)[-1] ^ 1])
    yield "replayed", "the same again", good(1000)
    yield "replayed", "an older nonce", good(7)
    yield "toomany", "nine ETRs", good(2**60, [mapping(ONE, NINE)])
    yield "toolong", "1,501 bytes", sized(1501, 2**60)
    yield "toolong", "60,000 bytes", sized(60000, 2**60)


def is_silent(world, xtr, reason, name, message, sites):
    """Nothing comes back, one is counted, and what is registered stays."""
    before = world.counts()
    xtr.send(message)
    rise = until({reason: 1}, lambda: world.rise(before))
    world.checks.same(f"the count of {name}", {reason: 1}, rise)
    world.checks.same(f"the answer to {name}", [], xtr.heard(0.05))
    world.checks.same(f"what is registered after {name}", sites, world.sites())


def crowded(world):
    """The ninth xTR of a site, and the thirty-third last nonce."""
    xtr = Xtr("192.0.2.12")
    for number in range(1, 9):
        message = good(5, [mapping(TWO, [(f"192.0.2.{number}", number)])], SECOND, xtr=(number, 0))
        world.checks.holds(f"xTR {number} registers", xtr.told(message) is not None)
    ninth = good(5, [mapping(TWO, ["192.0.2.9"])], SECOND, xtr=(9, 0))
    is_silent(world, xtr, "toomany", "a ninth xTR", ninth, world.sites())
    for number in range(1, 33):
        message = good(5, [mapping(SIX, [], minutes=0)], xtr=(number, 0))
        world.checks.holds(f"xTR {number} withdraws", xtr.told(message) is not None)
    last = good(5, [mapping(SIX, ["192.0.2.9"])], xtr=(33, 0))
    is_silent(world, xtr, "toomany", "a thirty-third nonce", last, world.sites())


def flooded(world):
    """More than 1,000 in a second from one source, while another is served."""
    xtr, other, before = Xtr("192.0.2.13"), Xtr("192.0.2.14"), world.counts()
    begin = time.monotonic()
    # As many at a time as a socket has room for, so that none is lost on the way.
    for sent in range(200, FLOOD + 1, 200):
        for nonce in range(sent - 200, sent):
            xtr.send(good(nonce, key=ANY, bits=0))
        until(sent, lambda: sum(world.rise(before).values()))
    took = time.monotonic() - begin
    world.checks.holds("another source", other.told(good(1, key=ANY)) is not None)
    rise = world.rise(before)
    taken, limited = rise.get("taken", 0) - 1, rise.get("limited", 0)
    world.checks.same("all are counted", FLOOD, taken + limited)
    world.checks.holds("a thousand a second are taken at most", taken <= 1000 * (took + 2), (taken, took))
    # A machine that sends fewer a second has none over the rate.
    world.checks.holds("some are over the rate", limited > 0 or FLOOD / took < 1000, (taken, limited, took))
    world.checks.same("what the flood hears", [], xtr.heard(0.05))


def work(world, checks):
    world.write_keys(*KEYS)
    world.start_server()
    xtr = Xtr("192.0.2.11")
    checks.same("at the start nothing is counted", {}, world.counts())
    checks.holds("a good one is taken", xtr.told(good(1000)) is not None)
    sites = world.sites()
    for name, message in malformed():
        is_silent(world, xtr, "malformed", name, message, sites)
    for reason, name, message in refused():
        is_silent(world, xtr, reason, name, message, sites)
    checks.holds("1,500 bytes are taken", xtr.told(sized(1500, 1001)) is not None)
    checks.holds("a new nonce is taken", xtr.told(good(1002)) is not None)
    crowded(world)
    flooded(world)


run("silence", work)
