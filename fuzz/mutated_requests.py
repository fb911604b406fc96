#!/usr/bin/env python3
"""Sends random and mutated datagrams to running servers: fuzz/mutated_requests.py PROGRAM [COUNT [SEED]]

PROGRAM is the program itself: `release/program ddt` prints its path. The servers of examples/campus.csv run one after
the other as `PROGRAM serve`. Each gets a third of COUNT datagrams (1,000,000), of which some are good requests, some
are mutated and some are random bytes. What it sends back, and what it sends on to an ETR, is compared with what plain
code makes of the same datagram: a reader of Map-Requests and the servers of plain_replay.py, over lists.

Prints for each server its own memory after 1,000 datagrams and at the end, and then its resident size, which has the
pages of its file as well. At last stands `N passed, M failed`: a datagram passes if it alone was answered, and sent on,
as it is to be; a server if its own memory did not grow at all and it went on. A program with run-time checks keeps what
it has freed for a while, and grows. Sends to 127.0.0.0/8 alone.
"""
from __future__ import annotations

import dataclasses
import os
import pathlib
import random
import select
import socket
import struct
import subprocess
import sys
import tempfile
import time

import plain_replay
import plain_wire
from plain_replay import Path, Record
from plain_wire import PORT, RESOLVER, read_request, written_eid, written_referral, written_request

CAMPUS = pathlib.Path(__file__).resolve().parent.parent / "examples/campus.csv"
BATCH = 32
# After so many datagrams a server has met all kinds, and the largest, and has all memory that it ever takes.
WARM_UP = 1000
MOST_BYTES = 65507

# -- Requests and datagrams drawn by lot -----------------------------------------------------------------------------

INTERESTING = "0 167772160 167837696 167838208 167838464 167838720 167968768 184549376 2147483648".split()


def drawn_xeid(lot: random.Random) -> Path:
    instance = lot.choice((0, 0, 0, 0, 1, 1 << 31, lot.getrandbits(32)))
    if lot.random() < 0.2:
        address = lot.choice((0x20010DB8 << 96, lot.getrandbits(128))) | lot.getrandbits(8)
        return f"{instance:032b}6{address:0128b}"
    address = int(lot.choice(INTERESTING)) + lot.getrandbits(lot.choice((2, 10, 17)))
    return f"{instance:032b}4{address % 2**32:032b}"


def drawn_source(lot: random.Random) -> bytes:
    body = lot.randbytes(lot.randrange(12))
    lcaf = struct.pack("!H4sH", 16387, lot.randbytes(4), len(body)) + body
    return lot.choice((b"\0\0", b"\0\1" + lot.randbytes(4), b"\0\2" + lot.randbytes(16), lcaf))


def drawn_message(lot: random.Random, xeid: Path) -> bytes:
    """A Map-Request for the identifier; now and then with another mask length, or with bytes behind it."""
    count, more = lot.choice((1, 1, 1, 2, 32)), lot.random() < 0.1
    locators = [lot.choice((b"\0\1" + lot.randbytes(4), b"\0\2" + lot.randbytes(16))) for _ in range(count)]
    length, eid = written_eid(xeid)
    flags = 0x10 | more << 2 | lot.choice((0, 0, 0xB))
    head = struct.pack("!BBBB8s", flags, lot.choice((0, 7)), count - 1, 1, lot.randbytes(8))
    mask = length if lot.random() < 0.95 else lot.randrange(256)
    behind = lot.randbytes(9) if more or lot.random() < 0.03 else b""
    return head + drawn_source(lot) + b"".join(locators) + bytes([0, mask]) + eid + behind


def drawn_outer(lot: random.Random) -> plain_wire.Outer:
    first = lot.choice((0x84, 0x84, 0x84, 0x84, 0x80, 0x8C, 0x86))
    return plain_wire.Outer(
        ecm=bytes([first]) + lot.choice((b"\0\0\0", lot.randbytes(3))),
        source=lot.randbytes(16),
        source_port=lot.randrange(65536),
        port=PORT if lot.random() < 0.95 else lot.randrange(65536),
        has_sum=lot.random() < 0.8,
    )


def mutated(lot: random.Random, datagram: bytes) -> bytes:
    data = bytearray(datagram)
    for _ in range(lot.randrange(1, 4)):
        data[lot.randrange(len(data))] ^= 1 << lot.randrange(8)
    cut = lot.choice((0, 0, 1, 2, lot.randrange(len(data) + 1)))
    return bytes(data[: len(data) - cut]) + lot.randbytes(lot.choice((0, 0, 1, 4)))


def drawn_datagram(lot: random.Random) -> bytes:
    kind = lot.random()
    if kind < 0.05:
        return lot.randbytes(lot.choice((0, 1, lot.randrange(400), lot.randrange(400), 1500)))
    if kind < 0.0505:
        return lot.randbytes(lot.randrange(60000, 65508))
    xeid = drawn_xeid(lot)
    datagram = plain_wire.enclosed(drawn_outer(lot), xeid, drawn_message(lot, xeid))
    return datagram if kind < 0.6 else mutated(lot, datagram)


# -- A running server ------------------------------------------------------------------------------------------------


class Expected:
    """What a server is to send for a batch: its replies, and to each ETR what it sends on."""

    def __init__(self, register: plain_replay.Register, at: str) -> None:
        self.register, self.at = register, at
        self.known: dict[Path, Record] = {}

    def of(self, datagram: bytes) -> tuple[bytes | None, tuple[str, bytes] | None]:
        """The reply, and the ETR with what is sent on to it."""
        request = read_request(datagram)
        if request is None or not request.is_ddt:
            return None, None
        record = self.known.get(request.xeid) or plain_replay.says(self.register, self.at, request.xeid)
        if len(self.known) < 50000:
            self.known[request.xeid] = record
        forward = None
        if record.action == "MS-ACK":
            site = next(site for site in self.register.sites if site.prefix == record.prefix)
            forward = site.etrs[0], bytes([datagram[0] & 0xFB]) + datagram[1:]
        return written_referral(request.nonce, record), forward


def bound(address: str) -> socket.socket:
    made = socket.socket(socket.AF_INET, socket.SOCK_DGRAM)
    made.setsockopt(socket.SOL_SOCKET, socket.SO_RCVBUF, 1 << 22)
    made.bind((address, PORT))
    return made


def taken(made: socket.socket) -> list[bytes]:
    """What came to a socket."""
    found = []
    while select.select([made], [], [], 0)[0]:
        found.append(made.recv(65536))
    return found


def in_status(process: subprocess.Popen, name: str) -> int:
    """A size that the system tells of a process, in KB; 0 once it has ended."""
    lines = pathlib.Path(f"/proc/{process.pid}/status").read_text().splitlines()
    return next((int(line.split()[1]) for line in lines if line.startswith(name + ":")), 0)


def own_memory(process: subprocess.Popen) -> int:
    """Its heap, stack and data that are resident, in KB; the pages of its files are not among them."""
    return in_status(process, "RssAnon")


@dataclasses.dataclass
class Server:
    """A server that runs, the resolver's socket, and those of all ETRs."""

    process: subprocess.Popen
    at: str
    resolver: socket.socket
    etrs: dict[str, socket.socket]
    last: int = 0

    def send(self, datagrams: list[bytes]) -> None:
        for datagram in datagrams:
            self.resolver.sendto(datagram, (self.at, PORT))

    def closing(self) -> bytes:
        """A good request with a nonce of its own: once it is answered, all before it was looked at."""
        self.last += 1
        return written_request(self.last, plain_replay.read_xeid("[7]192.0.2.1"))

    def replies(self, closing: bytes) -> list[bytes]:
        """What comes back, up to the reply to the closing request, which is left out."""
        found: list[bytes] = []
        deadline = time.monotonic() + 5
        while time.monotonic() < deadline and select.select([self.resolver], [], [], 1)[0]:
            found.append(self.resolver.recv(65536))
            if found[-1] == closing:
                return found[:-1]
        return found + [b"the last request was not answered"]


def failures_of_batch(server: Server, expected: Expected, datagrams: list[bytes]) -> int:
    """How many datagrams of a batch were not answered, or sent on, as they are to be."""
    closing = server.closing()
    wanted = [expected.of(datagram) for datagram in datagrams]
    server.send([*datagrams, closing])
    replies = server.replies(expected.of(closing)[0])
    failed = differences(replies, [reply for reply, _ in wanted if reply is not None])
    for address, etr in server.etrs.items():
        failed += differences(taken(etr), [on[1] for _, on in wanted if on and on[0] == address])
    return min(failed, len(datagrams))


def differences(got: list[bytes], wanted: list[bytes]) -> int:
    return sum(one != other for one, other in zip(got, wanted)) + abs(len(got) - len(wanted))


def largest_datagrams(lot: random.Random) -> list[bytes]:
    """A datagram and a request of the most bytes that UDP carries over IPv4."""
    xeid = plain_replay.read_xeid("[0]10.1.2.3")
    length, eid = written_eid(xeid)
    head = struct.pack("!BBBB8sH", 0x14, 0, 0, 1, lot.randbytes(8), 0)
    message = head + plain_wire.written_address(RESOLVER) + bytes([0, length]) + eid
    behind = lot.randbytes(MOST_BYTES - len(plain_wire.enclosed(plain_wire.Outer(), xeid, message)))
    return [lot.randbytes(MOST_BYTES), plain_wire.enclosed(plain_wire.Outer(), xeid, message + behind)]


def failures_of_server(server: Server, expected: Expected, count: int, lot: random.Random) -> tuple[int, bool]:
    """How many datagrams failed, and whether the server went on and did not grow after the first thousand."""
    failed, first, sent = 0, 0, 0
    while sent < count:
        # The largest come first, so that they can't be why a server grows later.
        datagrams = [drawn_datagram(lot) for _ in range(min(BATCH, count - sent))] if sent else largest_datagrams(lot)
        failed += failures_of_batch(server, expected, datagrams)
        sent += len(datagrams)
        first = first or (own_memory(server.process) if sent >= min(WARM_UP, count) else 0)
    last, resident = own_memory(server.process), in_status(server.process, "VmRSS")
    sizes = f"{first} KB of its own after {WARM_UP:,} of them, {last} KB at the end, {resident} KB resident"
    print(f"{server.at}: {sent} datagrams, {sizes}", flush=True)
    return failed, last <= first and server.process.poll() is None


def main(words: list[str]) -> int:
    if not 1 <= len(words) <= 3 or not all(word.isdecimal() for word in words[1:]):
        sys.exit(__doc__)
    program = os.path.realpath(words[0])
    count = int(words[1]) if len(words) > 1 else 1_000_000
    lot = random.Random(int(words[2]) if len(words) > 2 else 1)
    register = plain_replay.read_register(CAMPUS.read_text())
    etrs = {site.etrs[0]: bound(site.etrs[0]) for site in register.sites if site.etrs}
    resolver, passed, failed = bound(RESOLVER), 0, 0
    for group, locators in register.locators.items():
        with tempfile.NamedTemporaryFile() as config:
            subprocess.run([program, "compile", str(CAMPUS), group], stdout=config, check=True)
            serve = [program, "serve", config.name, locators[0], "4294967295"]
            process = subprocess.Popen(serve, stdout=subprocess.DEVNULL)
            time.sleep(0.5)
            server = Server(process, locators[0], resolver, etrs)
            share = count // len(register.locators)
            wrong, stayed = failures_of_server(server, Expected(register, locators[0]), share, lot)
            process.terminate()
            process.wait()
        passed, failed = passed + share - wrong + stayed, failed + wrong + (not stayed)
    print(f"{passed} passed, {failed} failed")
    return 1 if failed or not passed else 0


if __name__ == "__main__":
    sys.exit(main(sys.argv[1:]))
