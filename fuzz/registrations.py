#!/usr/bin/env python3
"""Sends good and mutated Map-Registers to a running Map-Server: fuzz/registrations.py PROGRAM [COUNT [SEED]]

PROGRAM is the program itself: `release/program ddtd` prints its path. DDT names that of `ddt`. COUNT datagrams
(1,000,000) go to `PROGRAM serve` from many addresses. A tenth are good Map-Registers: of both algorithms, 1 to 5
records, locators of both families and LCAFs, with and without IDs, the bits T and M, and a TTL of 0. The others were
made of such by flipping, setting, cutting, adding or splicing bytes; by a code of another key, or over less than the
message; by a neighbour's prefix, or wrong lengths, with a code made anew; or they are sent once more.

All that comes back is compared with what plain_registrar.py says of the same datagrams: for each one that is taken and
asks for it one Map-Notify, else nothing. After each batch, what `tell` says of sites and of counts is compared with the
plain registrar's. Every 40 seconds the server is started anew, so that no registration is ever over.

Prints how many were taken, and dropped for each reason, and then `N passed, M failed`: a datagram passes if its answer
is right, a batch if what is told after it is. Sends to 127.0.0.0/8 alone.
"""
from __future__ import annotations

import collections
import dataclasses
import ipaddress
import os
import pathlib
import random
import re
import select
import socket
import struct
import subprocess
import sys
import tempfile
import time

import plain_registrar
from plain_registrar import Address, Key, Prefix, Registrar, Site

PORT, SERVER = 4342, "127.0.1.1"
# Good messages come from few xTRs, so that these meet again; the others from so many that none sends 1,000 a second.
FEW, ALL = 4, 96
SOURCES = [f"127.9.0.{number}" for number in range(1, ALL + 1)]
BATCH, TOLD_EACH, EPOCH = 100, 4, 40
# At that rate an xTR sends some 700 a second.
MOST_A_SECOND = 6000
# No key may be the one that another was meant for.
SECRETS = [f"secret {number}".encode() for number in range(5)]
REGISTER = f"""kind,prefix,group,addresses
group-node,,root,127.0.0.1
group-ms,,ms,{SERVER}
node,*,root,
ms,[0]10.1.0.0/16,ms,
ms,[7]10.1.0.0/16,ms,
ms,[0]2001:db8:a::/48,ms,
"""
# An EID-prefix, whether it is of the configuration that its ETR is used again, and its keys: the Key ID, the Algorithm
# ID, the number of the secret, and whether nonces increase.
SITES = (
    ("[0]10.1.1.0/24", False, ((1, 2, 0, True), (0, 1, 1, False))),
    ("[0]10.1.2.0/24", False, ((1, 2, 0, True), (2, 2, 2, True))),
    ("[0]10.1.3.0/24", True, ((1, 2, 0, True),)),
    ("[0]10.1.4.0/24", False, ()),
    ("[0]10.1.4.128/25", False, ((0, 1, 1, False), (1, 1, 3, True))),
    ("[7]10.1.1.0/24", False, ((1, 2, 0, True), (0, 1, 1, False))),
    ("[0]2001:db8:a:1::/64", True, ((1, 2, 0, True), (0, 1, 1, False), (255, 2, 4, False))),
    ("[0]2001:db8:a:2::/127", False, ((1, 2, 2, True),)),
    # For the last message of a batch alone.
    ("[0]10.1.250.0/24", False, ((9, 1, 3, False),)),
)
# One more key, whose sites are those inside a prefix.
WIDE, WIDE_KEY, INSIDE = "[0]10.1.4.0/24", (3, 2, 4, True), ("[0]10.1.4.0/24", "[0]10.1.4.128/25")
ABSENT = ("[0]10.1.5.0/24", "[1]10.1.1.0/24", "[0]10.1.1.0/25", "[0]2001:db8:a:3::/64")


def address_of(text: str) -> Address:
    found = ipaddress.ip_address(text)
    return found.version, int(found)


def prefix_of(text: str) -> Prefix:
    instance, _, block = text.removeprefix("[").partition("]")
    network = ipaddress.ip_network(block)
    return int(instance), network.version, int(network.network_address), network.prefixlen


NEIGHBOURS = [prefix_of(text) for text in (*(site[0] for site in SITES[:-1]), *ABSENT)]


# -- Good Map-Registers ----------------------------------------------------------------------------------------------


@dataclasses.dataclass
class Good:
    """A Map-Register and the key under which it is authentic."""

    data: bytes
    key: Key
    length: int


def written_eid(prefix: Prefix) -> tuple[int, bytes]:
    instance, version, number, length = prefix
    address = struct.pack("!H", 1 if version == 4 else 2) + number.to_bytes(4 if version == 4 else 16, "big")
    if not instance:
        return length, address
    return length, struct.pack("!HHBBHI", 16387, 0, 2, 32, 4 + len(address), instance) + address


def drawn_locator(lot: random.Random) -> bytes:
    head = struct.pack("!BBBBH", lot.choice((0, 1, 1, 2, 3, 254, 255)), 100, 255, 0, lot.choice((1, 1, 1, 1, 5, 0, 6)))
    kind = lot.random()
    if kind < 0.6:
        return head + b"\0\1" + bytes([192, 0, 2, lot.randrange(24)])
    if kind < 0.85:
        return head + b"\0\2" + bytes.fromhex("20010db8") + bytes(11) + lot.randbytes(1)
    body = lot.randbytes(lot.randrange(30))
    return head + struct.pack("!HHBBH", 16387, 0, lot.randrange(20), 0, len(body)) + body


def drawn_record(lot: random.Random, prefix: Prefix) -> bytes:
    length, eid = written_eid(prefix)
    count = lot.choice((0, *(1, 1, 2, 2, 3) * 5, 8, 12))
    minutes = lot.choice((0, 0, 0, 1, 10, 1440, 1441, 2**32 - 1))
    flags = lot.choice((0, 0x1000, lot.getrandbits(16)))
    head = struct.pack("!IBBHH", minutes, count, length, flags, lot.getrandbits(16))
    return head + eid + b"".join(drawn_locator(lot) for _ in range(count))


def signed(data: bytes, key: Key, length: int) -> bytes:
    """The message with the code that it has under a key."""
    rest = data[16 + length :]
    return data[:16] + key.code(data[:16] + bytes(length) + rest, length) + rest


class Maker:
    """Makes Map-Registers by lot."""

    def __init__(self, lot: random.Random, sites: list[Site]) -> None:
        self.lot, self.sites, self.nonce = lot, sites, 2**40
        self.keys = [key for site in sites for key in site.keys]
        self.old: collections.deque[Good] = collections.deque(maxlen=64)

    def good(self) -> Good:
        lot = self.lot
        key = lot.choice(lot.choice(self.sites).keys)
        mine = [site.prefix for site in self.sites if any(other == key for other in site.keys)]
        count = lot.choice((1, 1, 1, 2, 3, 5))
        records = b"".join(drawn_record(lot, lot.choice(mine)) for _ in range(count))
        ids = struct.pack("!QQQ", 0, lot.randrange(FEW - 1), 7) if lot.random() < 0.5 else b""
        self.nonce += lot.randrange(-2, 5)
        first, third = 0x30 | lot.choice((0, 0, 8, 4)) | (2 if ids else 0), lot.choice((0, 1, 1, 8, 9, 9, 0x15, 0xE7))
        length = lot.choice(plain_registrar.LENGTHS[key.algorithm])
        front = struct.pack("!BBBBQ", first, lot.choice((0, 255)), third, count, self.nonce)
        head = front + struct.pack("!BBH", key.id, key.algorithm, length)
        made = Good(signed(head + bytes(length) + records + ids, key, length), key, length)
        self.old.append(made)
        return made

    def drawn(self) -> tuple[str, bytes]:
        """A datagram and the address that it is sent from."""
        lot = self.lot
        if len(self.old) < 8 or lot.random() < 0.1:
            return SOURCES[lot.randrange(FEW)], self.good().data
        way = lot.choice(WAYS)
        source = SOURCES[lot.randrange(FEW)] if way in SIGNED else lot.choice(SOURCES)
        return source, way(self, lot.choice(self.old))

    # -- Mutated ones

    def flipped(self, good: Good) -> bytes:
        data = bytearray(good.data)
        for _ in range(self.lot.randrange(1, 4)):
            data[self.lot.randrange(4, len(data))] ^= 1 << self.lot.randrange(8)
        return bytes(data)

    def set_to(self, good: Good) -> bytes:
        data = bytearray(good.data)
        for _ in range(self.lot.randrange(1, 4)):
            data[self.lot.randrange(1, len(data))] = self.lot.choice((0, 1, 255, self.lot.randrange(256)))
        return bytes(data)

    def cut(self, good: Good) -> bytes:
        return good.data[: self.lot.randrange(1, len(good.data))]

    def extended(self, good: Good) -> bytes:
        return good.data + self.lot.randbytes(self.lot.choice((1, 2, 4, 24, 60, 1500)))

    def spliced(self, good: Good) -> bytes:
        other = self.lot.choice(self.old).data
        place = self.lot.choice((16, 16 + good.length, self.lot.randrange(1, len(good.data))))
        return good.data[:place] + other[place:]

    def of_another_key(self, good: Good) -> bytes:
        key = self.lot.choice(self.keys)
        length = self.lot.choice(plain_registrar.LENGTHS[key.algorithm])
        if length != good.length:
            return good.data[:16] + key.code(good.data, length) + good.data[16 + good.length :]
        return signed(good.data, key, length)

    def over_less(self, good: Good) -> bytes:
        """Its code is of less than the message, as of all but the IDs, or of what comes after the code."""
        zeros, rest = bytes(good.length), good.data[16 + good.length :]
        covered = self.lot.choice((good.data[:16] + zeros + rest[:-24], rest, good.data[:16] + rest,
                                   good.data[:16] + zeros + rest[: self.lot.randrange(len(rest))]))
        return good.data[:16] + good.key.code(covered, good.length) + rest

    def of_a_neighbour(self, good: Good) -> bytes:
        """A record for another prefix, under its own key."""
        record = drawn_record(self.lot, self.lot.choice(NEIGHBOURS))
        front = good.data[:3] + bytes([1]) + struct.pack("!Q", self.nonce + 1) + good.data[12:16]
        front = bytes([front[0] & 0xFD]) + front[1:]
        return signed(front + bytes(good.length) + record, good.key, good.length)

    def of_wrong_lengths(self, good: Good) -> bytes:
        """A count or a length is another, and the code is made anew."""
        data, start = bytearray(good.data), 16 + good.length
        place = self.lot.choice((3, start + 4, start + 5, start + 10, start + 11, self.lot.randrange(start, len(data))))
        data[min(place, len(data) - 1)] = self.lot.choice((0, 1, 2, 8, 32, 33, 128, 129, 255))
        return signed(bytes(data), good.key, good.length)

    def of_wrong_code_length(self, good: Good) -> bytes:
        length = self.lot.choice((0, 12, 16, 20, 32, 65535, self.lot.randrange(64)))
        data = good.data[:14] + struct.pack("!H", length) + good.data[16:]
        return signed(data, good.key, length) if length <= 20 else data

    def flipped_and_signed(self, good: Good) -> bytes:
        """Bits of what follows the code are flipped, and the code is made anew: mostly a good message."""
        data, start = bytearray(good.data), 16 + good.length
        # Seldom in the last 24 bytes: what registers by other IDs is never withdrawn.
        end = len(data) if self.lot.random() < 0.02 else max(start + 10, len(data) - 24)
        data[self.lot.randrange(start, end)] ^= 1 << self.lot.randrange(8)
        data[4:12] = struct.pack("!Q", self.nonce + self.lot.randrange(3))
        data[0] &= 0x3F
        return signed(bytes(data), good.key, good.length)

    def again(self, good: Good) -> bytes:
        return good.data


WAYS = (Maker.flipped, Maker.set_to, Maker.cut, Maker.extended, Maker.spliced, Maker.of_another_key, Maker.over_less,
        Maker.of_a_neighbour, Maker.of_wrong_lengths, Maker.of_wrong_code_length, Maker.flipped_and_signed, Maker.again)
# Many of these are taken, so they come from the few xTRs.
SIGNED = (Maker.of_another_key, Maker.of_a_neighbour, Maker.of_wrong_lengths, Maker.flipped_and_signed, Maker.again)


# -- A running Map-Server --------------------------------------------------------------------------------------------


def plain_sites() -> list[Site]:
    made = []
    for text, falls_back, keys in SITES:
        all_keys = (*keys, WIDE_KEY) if text in INSIDE else keys
        listed = [Key(number, algorithm, SECRETS[secret], rises) for number, algorithm, secret, rises in all_keys]
        made.append(Site(prefix_of(text), listed, [(4, 0xC0000263)] if falls_back else [], falls_back))
    return made


def key_table(prefix: str, key: tuple[int, int, int, bool], *more: str) -> str:
    number, algorithm, secret, rises = key
    lines = ["[[key]]", f'prefix = "{prefix}"', f"id = {number}", f'algorithm = "{plain_registrar.HASHES[algorithm]}"',
             f'secret_hex = "{SECRETS[secret].hex()}"', f'replay = "{"increasing" if rises else "any"}"', *more, "", ""]
    return "\n".join(lines)


def key_tables() -> str:
    states = {True: 'static_etrs = "fallback"', False: 'static_etrs = "until_registered"'}
    text = "".join(key_table(prefix, key, states[falls_back]) for prefix, falls_back, keys in SITES for key in keys)
    return text + key_table(WIDE, WIDE_KEY, "accept_more_specifics = true")


def files_in(folder: pathlib.Path) -> None:
    """Writes the configuration and the keys."""
    rows = [f"site,{text},,{'192.0.2.99' if falls_back else ''}\n" for text, falls_back, _ in SITES]
    (folder / "register.csv").write_text(REGISTER + "".join(rows))
    with (folder / "ms.toml").open("w") as out:
        subprocess.run([os.environ["DDT"], "compile", folder / "register.csv", "ms"], stdout=out, check=True)
    (folder / "keys.toml").touch(mode=0o600)
    (folder / "keys.toml").write_text(key_tables())


class Server:
    def __init__(self, program: str, folder: pathlib.Path) -> None:
        self.folder, log = folder, folder / "log"
        with log.open("w") as out:
            words = [program, "serve", "ms.toml", SERVER, "--keys", "keys.toml", "--registrations", "registrations",
                     "--control", "control"]
            self.process = subprocess.Popen(words, cwd=folder, stderr=out)
        end = time.monotonic() + 30
        while "<5>ready" not in log.read_text():
            if self.process.poll() is not None or time.monotonic() > end:
                sys.exit(f"the Map-Server isn't ready: {log.read_text()}")
            time.sleep(0.02)

    def tell(self, word: str) -> str:
        """What the control socket says."""
        with socket.socket(socket.AF_UNIX) as control:
            control.settimeout(10)
            control.connect(str(self.folder / "control"))
            control.sendall(word.encode() + b"\n")
            return b"".join(iter(lambda: control.recv(65536), b"")).decode()

    def counts(self) -> dict[str, int]:
        found = re.findall(r"num\.register\.(\w+)=(\d+)", self.tell("stats"))
        return {name: int(number) for name, number in found if number != "0"}

    def stop(self) -> bool:
        """Whether it ran until now."""
        ran = self.process.poll() is None
        self.process.kill()
        self.process.wait()
        (self.folder / "registrations").unlink(missing_ok=True)
        return ran


def told_sites(text: str) -> list[tuple]:
    """What is told of sites: for each its prefix and ETRs, and each registration with how many seconds are left."""
    found: list[tuple] = []
    for line in text.splitlines()[:-1]:
        words = line.split()
        if words[0] == "from":
            pairs = [word.rpartition("/") for word in words[3:]]
            etrs = [(int(priority), address_of(address)) for address, _, priority in pairs]
            found[-1][3].append((words[1], int(words[2].removeprefix("left=")), etrs))
        else:
            state = " ".join(words[1:3]) if words[1] == "not" else words[1]
            listed = [address_of(word) for word in words[len(state.split()) + 1 :]]
            found.append((prefix_of(words[0]), state, listed, []))
    return sorted(found, key=lambda site: site[0])


def sender_text(sender: plain_registrar.Sender) -> str:
    return sender[1] if sender[0] == "at" else f"{sender[1][0]:032x}/{sender[1][1]:016x}"


def plain_told(registrar: Registrar, now: float) -> list[tuple]:
    found = []
    for site in registrar.sites.values():
        etrs = site.in_force()
        state = "not registered" if not etrs else "registered" if site.live else "configured"
        live = [(sender_text(one.sender), one.until - now, one.etrs) for one in site.live]
        found.append((site.prefix, state, etrs, live))
    return sorted(found, key=lambda site: site[0])


def are_same(told: list[tuple], wanted: list[tuple]) -> bool:
    """Whether both are the same, but for two seconds of what is left."""
    def rough(sites: list[tuple]) -> list[tuple]:
        return [(*site[:3], [(one[0], one[2]) for one in site[3]]) for site in sites]
    lefts = [(one[1], other[1]) for site, other_site in zip(told, wanted) for one, other in zip(site[3], other_site[3])]
    return rough(told) == rough(wanted) and all(other - 3 < one < other + 2 for one, other in lefts)


class Run:
    """The sockets of all sources, the server, and the plain registrar."""

    def __init__(self, program: str, folder: pathlib.Path, lot: random.Random) -> None:
        self.program, self.folder, self.lot = program, folder, lot
        self.sockets = {address: bound(address) for address in SOURCES}
        self.passed, self.failed, self.totals = 0, 0, collections.Counter[str]()
        self.last = 2**62
        self.begin()

    def begin(self) -> None:
        self.server, sites = Server(self.program, self.folder), plain_sites()
        self.registrar, self.maker = Registrar(sites), Maker(self.lot, sites[:-1])
        self.until = time.monotonic() + EPOCH

    def end(self) -> None:
        self.judge(self.server.stop(), "the server has ended")
        self.totals.update(self.registrar.counts)

    def judge(self, is_right: bool, what: str, count: int = 1) -> None:
        if is_right:
            self.passed += count
        else:
            self.failed += count
            if self.failed < 20 * count:
                print(what, flush=True)

    def send(self, source: str, data: bytes) -> bytes | None:
        self.sockets[source].sendto(data, (SERVER, PORT))
        return self.registrar.take(data, source, time.monotonic())

    def closing(self) -> None:
        """One more, which is taken and notified: once that comes, all before it were looked at."""
        site, source = self.registrar.sites[prefix_of(SITES[-1][0])], SOURCES[-1]
        key = site.keys[0]
        head = struct.pack("!BBBBQBBH", 0x30, 0, 1, 1, self.last, key.id, key.algorithm, 20)
        self.last += 1
        length, eid = written_eid(site.prefix)
        record = struct.pack("!IBBHH", 0, 0, length, 0, 0) + eid
        notify = self.send(source, signed(head + bytes(20) + record, key, 20))
        self.wanted[source].append(notify or b"")

    def batch(self, count: int) -> None:
        self.wanted: dict[str, list[bytes]] = {source: [] for source in SOURCES}
        drawn = [self.maker.drawn() for _ in range(count)]
        for source, data in drawn:
            # Whatever doesn't begin as a Map-Register does is for others.
            notify = self.send(source, data) if data[0] >> 4 == 3 else None
            if notify:
                self.wanted[source].append(notify)
        self.closing()
        got = self.heard()
        wrong = {one: (got[one], self.wanted[one]) for one in SOURCES if got[one] != self.wanted[one]}
        self.judge(not wrong, f"what came and what was wanted, by the sources: {wrong}", count)

    def heard(self) -> dict[str, list[bytes]]:
        """What comes to each source, until the last Map-Notify has come."""
        got: dict[str, list[bytes]] = {source: [] for source in SOURCES}
        last = self.sockets[SOURCES[-1]]
        while select.select([last], [], [], 5)[0]:
            got[SOURCES[-1]].append(last.recv(65536))
            if got[SOURCES[-1]][-1] == self.wanted[SOURCES[-1]][-1]:
                break
        for source in SOURCES[:-1]:
            got[source] = taken(self.sockets[source])
        return got

    def compare(self) -> None:
        told, wanted = told_sites(self.server.tell("sites")), plain_told(self.registrar, time.monotonic())
        odd = [pair for pair in zip(told, wanted) if not are_same([pair[0]], [pair[1]])]
        self.judge(are_same(told, wanted), f"sites, what is told and what is wanted: {odd}")
        counts = self.server.counts()
        self.judge(counts == self.registrar.counts, f"counts: got {counts}, wanted {self.registrar.counts}")

    def go(self, count: int) -> None:
        sent, batches = 0, 0
        while sent < count:
            begin = time.monotonic()
            self.batch(min(BATCH, count - sent))
            sent, batches = sent + BATCH, batches + 1
            time.sleep(max(0.0, begin + BATCH / MOST_A_SECOND - time.monotonic()))
            if batches % TOLD_EACH == 0 or sent >= count:
                self.compare()
            if time.monotonic() > self.until and sent < count:
                self.end()
                self.begin()
        self.end()


def bound(address: str) -> socket.socket:
    made = socket.socket(socket.AF_INET, socket.SOCK_DGRAM)
    made.setblocking(False)
    made.bind((address, PORT))
    return made


def taken(made: socket.socket) -> list[bytes]:
    """What came to a socket."""
    found: list[bytes] = []
    try:
        while True:
            found.append(made.recv(65536))
    except BlockingIOError:
        return found


def main(words: list[str]) -> int:
    if not 1 <= len(words) <= 3 or not all(word.isdecimal() for word in words[1:]):
        sys.exit(__doc__)
    count = int(words[1]) if len(words) > 1 else 1_000_000
    with tempfile.TemporaryDirectory() as name:
        folder = pathlib.Path(name)
        files_in(folder)
        run = Run(os.path.realpath(words[0]), folder, random.Random(int(words[2]) if len(words) > 2 else 1))
        try:
            run.go(count)
        finally:
            run.server.process.kill()
    print(" ".join(f"{reason} {number}" for reason, number in sorted(run.totals.items())))
    print(f"{run.passed} passed, {run.failed} failed")
    return 1 if run.failed or not run.totals["taken"] else 0


if __name__ == "__main__":
    sys.exit(main(sys.argv[1:]))
