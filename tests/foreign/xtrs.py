"""What two of openoverlayrouter's xTRs do in a row: they register, ping through each other, and renew a mapping."""
import contextlib
import ipaddress
import random
import socket
import struct
import time

import apart
import lisp
from itr import Question
from lisp import NOTIFY, REGISTER, REPLY, REQUEST
from reasons import Reasons
from tree import V4


class Xtrs:
    """Each method returns the cell of its column."""

    def __init__(self, net, players):
        self.net, self.players, self.reasons = net, players, Reasons(players)

    def registered(self, start):
        """Whether both got a Map-Notify for a Map-Register of theirs."""
        asked = set()
        while time.time() < start + 6:
            frames = self.net.since(start)
            asked, told = (nonces(frames, REGISTER, V4[host]) for host in ("west", "south"))
            notified = {frame.said["nonce"] for frame in frames if frame.said["kind"] == NOTIFY}
            if notified & asked and notified & told:
                return {"mark": "ok"}
            time.sleep(0.3)
        if not asked:
            return {"mark": "oor", "why": "OOR's xTR sends no Map-Register"}
        return self.reasons.at("ms", "sends no Map-Notify to OOR's xTRs")

    def ping(self):
        """ICMP echo requests from an identifier of the one site to one of the other, whose kernel answers."""
        start, sent = time.time(), 0
        with apart.Within(self.net.name("west")):
            icmp = socket.socket(socket.AF_INET, socket.SOCK_RAW, socket.IPPROTO_ICMP)
            icmp.bind(("10.1.9.9", 0))
        icmp.settimeout(0.5)
        while time.time() < start + 20:
            sent += 1
            self.players.revive()
            if is_echoed(icmp, sent):
                return {"mark": "ok", "sent": sent, "seconds": round(time.time() - start, 1)}
        for host, target in (("west", "10.1.10.9"), ("south", "10.1.9.9")):
            question = Question("ping", 0, ipaddress.ip_network(target))
            trail = self.net.trail(start - 1, 0, question.eid)
            if not is_answered(trail, V4[host], False):
                return self.reasons.of(question, trail)
        return {"mark": "oor", "why": "both of OOR's xTRs got their Map-Replies, but no packet came through"}

    def renewed(self):
        """An SMR from the one xTR's address to the other, which then asks for the prefix, and gets its Map-Reply."""
        start, question = time.time(), Question("smr-xtr", 0, ipaddress.ip_network("10.1.10.0/24"))
        smr = lisp.map_request(random.getrandbits(64), lisp.plain("10.1.9.0"), 24, [V4["south"]],
                               source_eid=lisp.plain("10.1.10.9"), bits=(0x11, 0, 0))
        with apart.Within(self.net.name("south")), apart.bound(V4["south"], 0) as sender:
            sender.sendto(smr, (V4["west"], lisp.PORT))
        trail = []
        while time.time() < start + 10:
            time.sleep(0.3)
            trail = self.net.trail(start, 0, question.eid)
            if is_answered(trail, V4["west"], True):
                return {"mark": "ok"}
        if not trail:
            return {"mark": "oor", "why": "OOR's xTR asks nothing after an SMR"}
        return self.reasons.of(question, trail)


def nonces(frames, kind, source):
    return {frame.said["nonce"] for frame in frames if frame.said["kind"] == kind and frame.source == source}


def is_answered(trail, host, only_invoked):
    """Whether a request of this host in a trail, or only an SMR-invoked one, got a Map-Reply."""
    asked = [one for one in trail if one.said["kind"] == REQUEST and one.source == host]
    own = {one.said["nonce"] for one in asked if one.said["invoked"] or not only_invoked}
    return any(one.said["kind"] == REPLY and one.said["nonce"] in own and one.target == host for one in trail)


def is_echoed(icmp, number):
    body = struct.pack("!BBHHH", 8, 0, 0, 77, number) + b"foreign."
    body = body[:2] + struct.pack("!H", lisp.checksum(body)) + body[4:]
    with contextlib.suppress(OSError):
        icmp.sendto(body, ("10.1.10.9", 0))
        data, where = icmp.recvfrom(2000)
        return where[0] == "10.1.10.9" and data[20] == 0
    time.sleep(0.2)
    return False
