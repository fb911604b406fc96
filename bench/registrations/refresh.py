"""Registers the sites of bench/registrations/tree.py, and refreshes each once in 54 seconds: refresh.py XTRS SECONDS

They are refreshed evenly. With SECONDS of 0 each site is registered once, at some 3,000 a second, and again where no
Map-Notify comes. Prints how many Map-Registers were sent, how many Map-Notifies came for them, and how many are
lacking. Each xTR has an address of its own, and asks for a Map-Notify, which is compared with the one that its
Map-Register asks for.
"""
from __future__ import annotations

import hmac
import ipaddress
import select
import socket
import struct
import sys
import time
import typing

from tree import SERVER

# Of 18,000 sites that refresh in so many seconds, 20,000 Map-Registers come in a minute.
PORT, PERIOD, AT_ONCE = 4342, 54, 3000
# So often those are sent again that weren't notified.
MOST_ROUNDS = 5


class Site(typing.NamedTuple):
    record: bytes
    secret: bytes
    xtr: str


def read_site(line: str) -> Site:
    prefix, secret, etr, xtr = line.rstrip("\n").split("\t")
    network = ipaddress.ip_network(prefix)
    head = struct.pack("!IBBHHH", 10, 1, network.prefixlen, 0x1000, 0, 1) + network.network_address.packed
    locator = struct.pack("!BBBBHH", 1, 100, 255, 0, 1, 1) + ipaddress.ip_address(etr).packed
    return Site(head + locator, secret.encode(), xtr)


def signed(first: int, site: Site, third: int, nonce: int) -> bytes:
    head = struct.pack("!BBBBQBBH", first, 0, third, 1, nonce, 1, 2, 16)
    return head + hmac.digest(site.secret, head + bytes(16) + site.record, "sha256")[:16] + site.record


class Xtrs:
    """The sockets of all xTRs, and which Map-Notifies they wait for."""

    def __init__(self, sites: list[Site]) -> None:
        self.sites, self.waiting, self.counts = sites, {}, {"sent": 0, "notified": 0, "odd": 0}
        # The records that were notified.
        self.known: set[bytes] = set()
        self.poll, self.sockets, self.named = select.epoll(), {}, {}
        # Nonces increase from one run to the next.
        self.nonce = time.time_ns()
        for xtr in {site.xtr for site in sites}:
            made = socket.socket(socket.AF_INET, socket.SOCK_DGRAM)
            made.setblocking(False)
            made.bind((xtr, PORT))
            self.sockets[xtr], self.named[made.fileno()] = made, made
            self.poll.register(made, select.EPOLLIN)

    def send(self, site: Site) -> None:
        self.nonce += 1
        self.sockets[site.xtr].sendto(signed(0x30, site, 1, self.nonce), (SERVER, PORT))
        self.waiting[self.nonce] = site
        self.counts["sent"] += 1

    def hear(self, until: float) -> None:
        """Takes what comes until this moment."""
        while True:
            for number, _ in self.poll.poll(max(0.0, until - time.monotonic())):
                self.take(self.named[number].recv(2000))
            if time.monotonic() >= until:
                return

    def take(self, data: bytes) -> None:
        nonce = int.from_bytes(data[4:12], "big")
        site = self.waiting.pop(nonce, None)
        is_right = site is not None and data == signed(0x40, site, 0, nonce)
        self.counts["notified" if is_right else "odd"] += 1
        if is_right:
            self.known.add(site.record)

    def lacking(self) -> list[Site]:
        return [site for site in self.sites if site.record not in self.known]

    def refresh(self, sites: list[Site], seconds: float, rate: float) -> None:
        """Sends those of a list in turn, evenly."""
        begin = time.monotonic()
        for number in range(int(seconds * rate)):
            self.hear(begin + number / rate)
            self.send(sites[number % len(sites)])
        self.hear(time.monotonic() + 1)

    def register_all(self) -> None:
        for _ in range(MOST_ROUNDS):
            if lacking := self.lacking():
                # Half a Map-Register more, as the product is rounded down.
                self.refresh(lacking, (len(lacking) + 0.5) / AT_ONCE, AT_ONCE)


def main(words: list[str]) -> int:
    path, seconds = words[0], float(words[1])
    with open(path) as file:
        xtrs = Xtrs([read_site(line) for line in file])
    if seconds == 0:
        xtrs.register_all()
    else:
        xtrs.refresh(xtrs.sites, seconds, len(xtrs.sites) / PERIOD)
    counts, lost = xtrs.counts, len(xtrs.lacking() if seconds == 0 else xtrs.waiting)
    print(f"Map-Registers sent {counts['sent']}, Map-Notifies {counts['notified']}, lost {lost}, wrong {counts['odd']}")
    return 1 if counts["odd"] or (seconds == 0 and lost) else 0


if __name__ == "__main__":
    sys.exit(main(sys.argv[1:]))
