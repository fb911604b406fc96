"""Sends random and mutated datagrams to each UDP socket of a daemon on the loopback.

usage: hostile.py PID COUNT [SEED], or hostile.py flood ADDRESS SECONDS

COUNT datagrams go to each socket of the process: a quarter random bytes, the others messages of which up to eight bytes
were changed, cut off or added: an ITR's request, a request with the bit D, a Map-Referral, a negative Map-Reply. Half
come from an address that a resolver of bench/daemon.sh lets ask, half from others; half from port 4342. They are sent
at some 30,000 a second, so that the daemon takes most of them. Prints how many were sent to each socket.
The second form sends requests of ITRs that may not ask, as fast as it can. bench/daemon.sh --hostile runs both, and
judges the answers that others get meanwhile.
"""
from __future__ import annotations

import pathlib
import random
import socket
import sys
import time

sys.path.insert(0, str(pathlib.Path(__file__).resolve().parent.parent / "tests/namespaces"))
import packets  # noqa: E402

ALLOWED, OTHERS = "127.0.4.1", ["127.0.66.1", "127.0.66.2"]
BATCH, REST = 64, 0.002
REFERRAL = bytes.fromhex("600000010000000000000001000005a001081000000000010a0000000164ff00000100017f00000a")
REPLY = bytes.fromhex("2000000100000000000000010000000f00081000000000010b000000")


def sockets_of(pid: int) -> list[tuple[str, int]]:
    """The addresses and ports that the process is bound to, over IPv4."""
    inodes = {str(fd.readlink()) for fd in pathlib.Path(f"/proc/{pid}/fd").iterdir()}
    found = []
    for line in pathlib.Path("/proc/net/udp").read_text().splitlines()[1:]:
        words = line.split()
        if f"socket:[{words[9]}]" in inodes:
            address, port = words[1].split(":")
            found.append((socket.inet_ntoa(bytes.fromhex(address)[::-1]), int(port, 16)))
    return sorted(found)


def messages(lot: random.Random) -> list[bytes]:
    request = packets.encapsulated(lot.getrandbits(64), "10.1.2.3", lot.choice([0, 7]), [ALLOWED], 4342)
    return [request, bytes([request[0] | 4]) + request[1:], REFERRAL, REPLY]


def mutated(lot: random.Random, message: bytes) -> bytes:
    data = bytearray(message)
    for _ in range(lot.randint(1, 8)):
        kind = lot.randrange(4)
        place = lot.randrange(len(data) or 1)
        if kind < 2 and data:
            data[place] = lot.choice([0, 1, 255, lot.randrange(256), data[place] ^ 1 << lot.randrange(8)])
        elif kind == 2:
            del data[place:]
        else:
            data += lot.randbytes(lot.randrange(32))
    return bytes(data)


def datagram(lot: random.Random, bases: list[bytes]) -> bytes:
    if lot.randrange(4) == 0:
        return lot.randbytes(lot.choice([0, 1, 4, 12, 40, 80, 1500, lot.randrange(2000)]))
    return mutated(lot, lot.choice(bases))


def senders() -> list[socket.socket]:
    made = []
    for address in [ALLOWED, ALLOWED, *OTHERS]:
        sender = socket.socket(socket.AF_INET, socket.SOCK_DGRAM)
        sender.setblocking(False)
        try:
            sender.bind((address, 0 if len(made) % 2 else packets.CONTROL_PORT))
        except OSError:
            sender.bind((address, 0))
        made.append(sender)
    return made


def attack(lot: random.Random, target: tuple[str, int], count: int) -> int:
    bases, sent, from_where = messages(lot), 0, senders()
    pool = [datagram(lot, bases) for _ in range(50_000)]
    for number in range(count):
        if number % BATCH == 0:
            time.sleep(REST)
        try:
            lot.choice(from_where).sendto(pool[lot.randrange(len(pool))], target)
            sent += 1
        except OSError:
            pass
    for sender in from_where:
        sender.close()
    return sent


def flood(address: str, seconds: float) -> int:
    requests = [packets.encapsulated(nonce, "10.1.2.3", 0, OTHERS[0], 4343) for nonce in range(1000)]
    sent, end = 0, time.monotonic() + seconds
    with socket.socket(socket.AF_INET, socket.SOCK_DGRAM) as sender:
        sender.bind((OTHERS[0], 0))
        sender.connect((address, packets.CONTROL_PORT))
        while time.monotonic() < end:
            for request in requests:
                sender.send(request)
            sent += len(requests)
    return sent


def main(words: list[str]) -> int:
    if words[0] == "flood":
        print(f"{words[1]}: a flood of {flood(words[1], float(words[2]))} requests")
        return 0
    pid, count = int(words[0]), int(words[1])
    lot = random.Random(int(words[2]) if len(words) > 2 else 1)
    for target in sockets_of(pid):
        print(f"{target[0]}:{target[1]}: {attack(lot, target, count)} datagrams", flush=True)
    return 0


if __name__ == "__main__":
    sys.exit(main(sys.argv[1:]))
