#!/usr/bin/env python3
"""Sends random and mutated datagrams to a running resolver: fuzz/mutated_at_resolver.py PROGRAM [COUNT [SEED]]

PROGRAM is the program itself: `release/program ddt` prints its path. `PROGRAM loop` looks identifiers up among the
servers of the campus, whose root here has eight of them. Meanwhile its resolver is sent more than it can take:
Map-Requests of an ITR and of DDT clients, Map-Referrals of an address that is no server, all of these mutated, and
random bytes. So most replies of the servers are lost, and a run takes up to a minute. Runs follow one another until
COUNT datagrams (1,000,000) have come to a resolver.

Each line of `loop` has to be what longest match over the register assigns, or `gave-up NoReply`. Each datagram that
the ITR gets has to be the negative Map-Reply, by plain code, to a request that it has sent, and no request may have
two. Prints for each run its own memory after 5,000 datagrams and at the end, then `N passed, M failed`: so many lines
and Map-Replies were right, or runs that grew by at most 320 KB. Sends to 127.0.0.0/8 alone.

The first 5,000 are requests whose lookups fill the table of 1,024 pending ones. What grows later ends as well: the
table's index doubles once, and the cache has a hundred nodes for the forty prefixes that the servers say.
"""
from __future__ import annotations

import collections
import dataclasses
import os
import pathlib
import random
import socket
import struct
import subprocess
import sys
import tempfile
import time

import plain_replay
import plain_wire
from mutated_requests import CAMPUS, drawn_xeid, largest_datagrams, mutated, own_memory
from plain_replay import Path, Register
from plain_wire import PORT, RESOLVER

ROOTS = " ".join(f"127.0.9.{number}" for number in range(1, 9))
ITR, ITR_PORT, FORGER = "127.0.0.60", 50000, "127.0.0.99"
IDENTIFIERS, POOL, BATCH = 300, 30000, 200
ANSWERS = {"DELEGATION-HOLE", "MS-NOT-REGISTERED"}
# The first datagrams of a run fill the table of pending lookups.
WARM_UP = 5000
# In KB: two steps of the heap, of 132 KB each, and some pages.
MOST_GROWTH = 320

# -- Datagrams drawn by lot ------------------------------------------------------------------------------------------


def itr_request(nonce: bytes, xeid: Path, first: int = 0x80) -> bytes:
    """The request of the ITR, whose first byte has the bit D clear."""
    length, eid = plain_wire.written_eid(xeid)
    head = struct.pack("!BBBB8sH", 0x10, 0, 0, 1, nonce, 0)
    message = head + plain_wire.written_address(ITR) + bytes([0, length]) + eid
    return plain_wire.enclosed(plain_wire.Outer(bytes([first, 0, 0, 0]), source_port=ITR_PORT), xeid, message)


def drawn_request(lot: random.Random) -> bytes:
    """A request of the ITR; now and then one of a DDT client."""
    xeid, nonce = drawn_xeid(lot), lot.randbytes(8)
    return itr_request(nonce, xeid, 0x84 if lot.random() < 0.1 else 0x80)


def drawn_referral(lot: random.Random, register: Register) -> bytes:
    """What a server says of an identifier, with a nonce that the resolver may have used."""
    locators = [locator for group in register.locators.values() for locator in group]
    record = plain_replay.says(register, lot.choice(locators), drawn_xeid(lot))
    return plain_wire.written_referral(lot.randrange(1, 5000).to_bytes(8, "big"), record)


def drawn_datagram(lot: random.Random, register: Register) -> bytes:
    kind = lot.random()
    if kind < 0.05:
        return lot.randbytes(lot.choice((0, 1, lot.randrange(400), 1500)))
    datagram = drawn_request(lot) if kind < 0.7 else drawn_referral(lot, register)
    return datagram if lot.random() < 0.5 else mutated(lot, datagram)


# -- What the ITR is to get ------------------------------------------------------------------------------------------


def asks_for_itr(datagram: bytes) -> bool:
    """Whether a request, which it is, wants its reply at the ITR's socket."""
    udp, _ = plain_wire.udp_of(datagram[4:])
    reader = plain_wire.Reader(udp[8 + 12 :])
    reader.skip_source()
    first = reader.address(reader.number(2))
    return int.from_bytes(udp[:2], "big") == ITR_PORT and first == plain_replay.read_address(ITR)


def wanted_reply(register: Register, datagram: bytes) -> bytes | None:
    """The negative Map-Reply that the ITR may get for a datagram."""
    request = plain_wire.read_request(datagram)
    if request is None or request.is_ddt or not asks_for_itr(datagram):
        return None
    record = plain_replay.assigned(register, request.xeid)
    if record.action not in ANSWERS:
        return None
    # In place of a range of instances stand all addresses of the identifier's own instance and family.
    length, eid = plain_wire.written_eid(max(record.prefix, request.xeid[:33], key=len))
    return struct.pack("!I8sIBBHH", 0x20000001, request.nonce, record.ttl, 0, length, 0x2000, 0) + eid


def opening_datagrams(lot: random.Random) -> list[bytes]:
    """The largest, and requests for identifiers of a site. No answer to these is remembered, so each is a lookup."""
    sites = (plain_replay.read_xeid(f"[0]10.1.2.{lot.randrange(256)}") for _ in range(1500))
    return largest_datagrams(lot) + [itr_request(lot.randbytes(8), xeid) for xeid in sites]


# -- A run -----------------------------------------------------------------------------------------------------------


def bound(address: str, port: int) -> socket.socket:
    made = socket.socket(socket.AF_INET, socket.SOCK_DGRAM)
    made.setsockopt(socket.SOL_SOCKET, socket.SO_RCVBUF, 1 << 22)
    made.bind((address, port))
    made.setblocking(False)
    return made


def dropped() -> int | None:
    """How many datagrams the system has dropped at the resolver's socket; None while there is none."""
    place = f"{int.from_bytes(socket.inet_aton(RESOLVER), 'little'):08X}:{PORT:04X}"
    lines = pathlib.Path("/proc/net/udp").read_text().splitlines()
    return next((int(line.split()[-1]) for line in lines if line.split()[1] == place), None)


def wait_for_resolver(process: subprocess.Popen) -> None:
    """Waits until the resolver's socket is there, or `loop` has ended."""
    while dropped() is None and process.poll() is None:
        time.sleep(0.001)


@dataclasses.dataclass
class Flood:
    """The datagrams, the first of a run and the others, each with its reply; what was sent, and what the ITR got."""

    opening: list[tuple[bytes, bytes | None]]
    pool: list[tuple[bytes, bytes | None]]
    itr: socket.socket
    forger: socket.socket
    open_replies: collections.Counter[bytes] = dataclasses.field(default_factory=collections.Counter)
    sent: int = 0
    right: int = 0
    wrong: int = 0

    def send(self, datagrams: list[tuple[bytes, bytes | None]]) -> None:
        for _ in range(BATCH):
            datagram, reply = datagrams[self.sent % len(datagrams)]
            (self.itr if datagram[:1] >= b"\x80" else self.forger).sendto(datagram, (RESOLVER, PORT))
            self.open_replies[reply] += reply is not None
            self.sent += 1

    def hear(self) -> None:
        """Takes what came to the ITR."""
        while True:
            try:
                reply = self.itr.recv(65536)
            except BlockingIOError:
                return
            is_right = self.open_replies[reply] > 0
            self.open_replies[reply] -= is_right
            self.right += is_right
            self.wrong += not is_right


def flooded(flood: Flood, process: subprocess.Popen, most: int) -> tuple[int, int, int]:
    """Sends until so many datagrams came to the resolver, or it ended: how many came, its memory then, and at last."""
    wait_for_resolver(process)
    before, taken, first, last = flood.sent, 0, 0, 0
    while taken < most and process.poll() is None:
        flood.send(flood.pool if first else flood.opening)
        flood.hear()
        lost, size = dropped(), own_memory(process)
        if lost is not None and size:
            taken, last = flood.sent - before - lost, size
            first = first or (size if taken >= min(WARM_UP, most) else 0)
    return taken, first, last


def right_lines(register: Register, xeids: list[Path], text: str) -> int:
    """How many of the identifiers have a right line."""
    right = 0
    for xeid, line in zip(xeids, text.splitlines()):
        record = plain_replay.assigned(register, xeid)
        outcome = plain_replay.outcome_line(record.action, record.prefix, record.servers)
        right += line in (f"{plain_replay.write_xeid(xeid)} {end}" for end in (outcome, "gave-up NoReply"))
    return right


def run(program: str, lot: random.Random, flood: Flood, text: str, most: int) -> tuple[int, int, int]:
    """How many datagrams came to the resolver of a run, and how many checks passed and failed."""
    register = plain_replay.read_register(text)
    xeids = [drawn_xeid(lot) for _ in range(IDENTIFIERS)]
    with tempfile.NamedTemporaryFile("w", suffix=".csv") as file:
        file.write(text)
        file.flush()
        words = [program, "loop", file.name, *map(plain_replay.write_xeid, xeids), "--turns", "4294967295"]
        process = subprocess.Popen(words, stdout=subprocess.PIPE, text=True)
        taken, first, last = flooded(flood, process, most)
        lines = process.communicate(timeout=120)[0]
    flood.hear()
    right, stayed = right_lines(register, xeids, lines), last <= first + MOST_GROWTH
    print(f"{taken} datagrams, {first} KB of its own after {WARM_UP:,} of them, {last} KB at the end", flush=True)
    return taken, right + stayed, IDENTIFIERS - right + (not stayed) + (process.returncode not in (0, 1))


def main(words: list[str]) -> int:
    if not 1 <= len(words) <= 3 or not all(word.isdecimal() for word in words[1:]):
        sys.exit(__doc__)
    program = os.path.realpath(words[0])
    left = int(words[1]) if len(words) > 1 else 1_000_000
    lot = random.Random(int(words[2]) if len(words) > 2 else 1)
    text = CAMPUS.read_text().replace("127.0.0.1\n", f"{ROOTS}\n", 1)
    register = plain_replay.read_register(text)
    drawn = (drawn_datagram(lot, register) for _ in range(POOL))
    opening, pool = ([(each, wanted_reply(register, each)) for each in few] for few in (opening_datagrams(lot), drawn))
    flood, passed, failed = Flood(opening, pool, bound(ITR, ITR_PORT), bound(FORGER, PORT)), 0, 0
    while left > 0:
        taken, right, wrong = run(program, lot, flood, text, left)
        left, passed, failed = left - taken, passed + right, failed + wrong
    passed, failed = passed + flood.right, failed + flood.wrong
    print(f"{flood.right} negative Map-Replies; {passed} passed, {failed} failed")
    return 1 if failed or not flood.right else 0


if __name__ == "__main__":
    sys.exit(main(sys.argv[1:]))
