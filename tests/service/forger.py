"""The owner of one delegated zone, a DDT node that lies. It knows the holes of its zone by the register.

usage: forger.py wide REGISTER MY_ADDRESS ZONE
       forger.py forge REGISTER MY_ADDRESS ZONE ROOT

wide   says of an identifier of its zone that all of IPv4 is a hole, and of one in the upper half that half of all
       instances is one
forge  answers truly, and then guesses the nonces of what the resolver asks others next: it tells it in its own name,
       and in that of ROOT, that all is a hole, or its own site. It answers for this site, as Map-Server and as ETR.
"""
import heapq
import ipaddress
import select
import socket
import struct
import sys
import time

import oracle
import packets
import referrals

NEXT_NONCES = range(1, 65)
# The seconds after a request at which the same lies are told.
ROUNDS = (0, 0.015, 0.03)
EVERYTHING = referrals.block("0.0.0.0/0")


def from_another(source, target, port, payload):
    """An IPv4 packet from the control port of another. The kernel makes the sum of its header; UDP has none here."""
    udp = struct.pack("!HHHH", packets.CONTROL_PORT, port, 8 + len(payload), 0)
    head = struct.pack("!BBHHHBBH", 0x45, 0, 28 + len(payload), 0, 0, 64, 17, 0)
    return head + socket.inet_aton(source) + socket.inet_aton(target) + udp + payload


class Forger:
    """The node at its one address, and what it still has to do."""

    def __init__(self, mode, register, mine, zone, root=None):
        self.forges, self.mine, self.root = mode == "forge", mine, root
        self.register, self.zone = oracle.Register(register), ipaddress.ip_network(zone)
        self.upper = list(self.zone.subnets())[1]
        self.node = socket.socket(socket.AF_INET, socket.SOCK_DGRAM)
        self.node.setsockopt(socket.SOL_SOCKET, socket.SO_RCVBUF, 1 << 20)
        self.node.bind((mine, packets.CONTROL_PORT))
        self.raw = socket.socket(socket.AF_INET, socket.SOCK_RAW, socket.IPPROTO_RAW)
        # When to tell lies next, and those that are told then.
        self.due = []

    def run(self):
        print("ready", flush=True)
        while True:
            patience = max(0, self.due[0][0] - time.monotonic()) if self.due else None
            if select.select([self.node], [], [], patience)[0]:
                self.answer(*self.node.recvfrom(65535))
            while self.due and self.due[0][0] <= time.monotonic():
                self.tell_lies(*heapq.heappop(self.due)[1:])

    def answer(self, request, source):
        """Answers a request, and means to forge replies to those that come after it."""
        _, nonce, eid, _, itr, port = packets.read_request(request)
        if eid not in self.zone:
            self.take_over(nonce, itr, port, source)
            return
        print(f"asked {nonce:016x} from {source[0]} port {source[1]} for {eid}", flush=True)
        self.node.sendto(referrals.map_referral(nonce, referrals.DELEGATION_HOLE, self.hole_of(eid), 15, []), source)
        for after in ROUNDS if self.forges else ():
            heapq.heappush(self.due, (time.monotonic() + after, nonce, *source))

    def hole_of(self, eid):
        """The hole that an identifier of the zone is said to lie in."""
        if self.forges:
            return referrals.block(oracle.network_of(self.register.assigned(eid)[1], eid))
        return referrals.half_of_all_instances() if eid in self.upper else EVERYTHING

    def take_over(self, nonce, itr, port, source):
        """Answers for an identifier of others: as a Map-Server, and as its ETR."""
        ack = referrals.map_referral(nonce, referrals.MS_ACK, EVERYTHING, 1440, [self.mine])
        self.node.sendto(ack, source)
        if str(itr) != source[0]:
            self.node.sendto(packets.map_reply(nonce, "0.0.0.0/0", self.mine), (str(itr), port))

    def tell_lies(self, nonce, resolver, port):
        """Replies to what the resolver may have asked others since the request of this nonce."""
        for after in NEXT_NONCES:
            guess = (nonce + after) % 2**64
            hole = referrals.map_referral(guess, referrals.DELEGATION_HOLE, EVERYTHING, 15, [])
            ack = referrals.map_referral(guess, referrals.MS_ACK, EVERYTHING, 1440, [self.mine])
            for lie in (ack, hole) if after % 2 else (hole, ack):
                self.node.sendto(lie, (resolver, port))
                self.raw.sendto(from_another(self.root, resolver, port, lie), (resolver, 0))


Forger(*sys.argv[1:]).run()
