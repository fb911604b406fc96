"""Asks the Map-Server of bench/registrations/tree.py for identifiers by lot, and judges each answer.

usage: sample.py DDT FOLDER COUNT SECONDS

COUNT identifiers are asked for within so many seconds: of the sites whose ETRs are here, of sites that don't register,
and of holes. At the end each answer is compared with what `ddt assign` says of force.csv, which takes a minute more: a
request has to come to the site's ETR as it was sent, or the Map-Reply has to be negative for that prefix. One without
an answer in 5 seconds is lost. Prints how many were right, wrong and lost; the status is 1 if one was wrong.
"""
from __future__ import annotations

import concurrent.futures
import ipaddress
import os
import pathlib
import random
import select
import socket
import struct
import subprocess
import sys
import time

sys.path.append(str(pathlib.Path(__file__).resolve().parent.parent.parent / "tests" / "foreign"))
sys.dont_write_bytecode = True
import lisp  # noqa: E402
import reading  # noqa: E402
import tree  # noqa: E402

ITR = "127.0.4.3"


def drawn(lot: random.Random) -> str:
    """Half are of sites whose ETRs are here, a quarter of sites that don't register, and a quarter of holes."""
    place = lot.choice((8, 8, 9, None))
    if place is None:
        return f"10.{lot.randrange(tree.SITES // 200)}.{lot.randrange(200, 256)}.{lot.randrange(256)}"
    number = lot.randrange(tree.SITES // 10) * 10 + place
    return tree.prefix_of(number).removesuffix("0/24") + str(lot.randrange(256))


class Sample:
    def __init__(self, count: int, lot: random.Random) -> None:
        self.eids = [drawn(lot) for _ in range(count)]
        self.itr, self.answers = bound(ITR), {}
        self.etrs = {bound(address): address for address in tree.SAMPLED}
        self.sent: list[bytes] = []

    def ask(self, seconds: float) -> None:
        begin = time.monotonic()
        for number, eid in enumerate(self.eids):
            self.hear(begin + number * seconds / len(self.eids))
            address = ipaddress.ip_address(eid)
            request = lisp.map_request(number, lisp.plain(address), 32, [ITR])
            self.sent.append(lisp.encapsulated(lisp.packet(ITR, address, request)))
            self.itr.sendto(self.sent[-1], (tree.SERVER, lisp.PORT))
        self.hear(time.monotonic() + 5)

    def hear(self, until: float) -> None:
        while (left := until - time.monotonic()) > 0:
            for one in select.select([self.itr, *self.etrs], [], [], left)[0]:
                self.take(one, one.recv(2000))

    def take(self, one: socket.socket, data: bytes) -> None:
        said = reading.read(data)
        nonce = said["nonce"] if said else -1
        if one in self.etrs:
            is_whole = 0 <= nonce < len(self.sent) and data == self.sent[nonce]
            self.answers.setdefault(nonce, []).append(f"registered at {self.etrs[one]}" if is_whole else "changed")
        else:
            record = said["records"][0]
            kind = {1: "not-registered", 15: "hole"}.get(record["ttl"], "odd")
            self.answers.setdefault(nonce, []).append(f"{kind} [0]{record['prefix']}")


def bound(address: str) -> socket.socket:
    made = socket.socket(socket.AF_INET, socket.SOCK_DGRAM)
    made.setsockopt(socket.SOL_SOCKET, socket.SO_RCVBUF, 4 << 20)
    made.bind((address, lisp.PORT))
    return made


def assigned(ddt: str, register: pathlib.Path, eid: str, etrs: dict[str, str]) -> str:
    said = subprocess.run([ddt, "assign", register, f"[0]{eid}"], capture_output=True, text=True, check=True)
    kind, prefix = said.stdout.split()[:2]
    return f"registered at {etrs[prefix]}" if kind == "registered" else f"{kind} {prefix}"


def main(words: list[str]) -> int:
    ddt, register = words[0], pathlib.Path(words[1]) / "force.csv"
    sample = Sample(int(words[2]), random.Random(1))
    sample.ask(float(words[3]))
    etrs = {f"[0]{tree.prefix_of(number)}": tree.etr_of(number) for number in range(tree.SITES)}
    with concurrent.futures.ThreadPoolExecutor(os.cpu_count()) as pool:
        wanted = list(pool.map(lambda eid: assigned(ddt, register, eid, etrs), sample.eids))
    lost = sum(number not in sample.answers for number in range(len(wanted)))
    right = sum(sample.answers.get(number) == [one] for number, one in enumerate(wanted))
    print(f"sampled {len(wanted)}, right {right}, wrong {len(wanted) - right - lost}, lost {lost}")
    return 1 if right + lost < len(wanted) or not right else 0


if __name__ == "__main__":
    sys.exit(main(sys.argv[1:]))
