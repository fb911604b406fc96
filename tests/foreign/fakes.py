"""Fake servers, an ETR, and the ITR that asks, all in one namespace."""
import ipaddress
import select
import threading
import time

import apart
import lisp
from lisp import ACTIONS, REFERRAL, REPLY, REQUEST, locator, map_referral, plain, record
from reading import network, read
from variants import ETR, ITR, ITR_V6, MS, PEER, ROOT, SECOND, SILENT


class Tree:
    """Servers at ROOT and SECOND, whose answer is the variant's; Map-Servers at MS and PEER; an ETR; silent servers."""

    def __init__(self):
        self.answers, self.asked, self.forwarded, self.lock = {}, [], [], threading.Lock()
        works = {ROOT: self.root, SECOND: self.root, MS: self.ms, PEER: self.ms, ETR: self.etr}
        works |= {address: lambda *_: [] for address in SILENT}
        for address, work in works.items():
            threading.Thread(target=self.serve, args=(apart.bound(address), address, work), daemon=True).start()

    def serve(self, here, address, work):
        while True:
            data, where = here.recvfrom(65535)
            said = read(data)
            if said and said["kind"] == REQUEST and said["address"] is not None:
                with self.lock:
                    self.asked.append((address, said))
                for answer, target in work(said, data, where, address):
                    here.sendto(answer, target)

    def root(self, said, _, where, address):
        make = self.answers.get(said["address"])
        return [(answer, where) for answer in make(said["nonce"], said["address"], address)] if make else []

    def ms(self, said, data, where, _):
        if not said["ddt"]:
            return []
        site = plain(network(said["address"], 24).network_address)
        ack = record(1440, 24, ACTIONS.index("MS-ACK"), site, [locator(MS, 0, 0, 0)])
        return [(map_referral(said["nonce"], [ack]), where), (bytes([data[0] & ~4]) + data[1:], (ETR, lisp.PORT))]

    def etr(self, said, _, __, ___):
        with self.lock:
            self.forwarded.append(said["nonce"])
        back = next((rloc for rloc in said["rlocs"] if rloc is not None and rloc.version == 4), None)
        length = 24 if said["address"].version == 4 else 64
        site = lisp.eid_of(said["instance"], network(said["address"], length).network_address)
        reply = lisp.map_reply(said["nonce"], [record(1440, length, 0, site, [locator(ETR, 1, 100, 5)])])
        return [(reply, (str(back), said["port"]))] if back is not None else []

    def count(self, server, prefix):
        """How often a server was asked for an identifier in a prefix."""
        inside = ipaddress.ip_network(prefix)
        with self.lock:
            return sum(1 for where, said in self.asked if where == server and said["address"] in inside)

    def is_forwarded(self, nonces):
        with self.lock:
            return any(nonce in self.forwarded for nonce in nonces)


class Client:
    def __init__(self, address, port=lisp.PORT):
        self.socket = apart.bound(address, port)

    @property
    def port(self):
        return self.socket.getsockname()[1]

    def ask(self, message, nonce, server, patience):
        """(Map-Reply or Map-Referral of this nonce or None, the seconds that it took)"""
        start = time.time()
        self.socket.sendto(message, (server, lisp.PORT))
        while time.time() < start + patience:
            if select.select([self.socket], [], [], 0.1)[0]:
                said = read(self.socket.recvfrom(65535)[0])
                if said and said["kind"] in (REPLY, REFERRAL) and said["nonce"] == nonce:
                    return said, time.time() - start
        return None, time.time() - start


def request(eid, nonce, *, length=None, port=lisp.PORT):
    """A plain request of the ITR's, its bit D clear."""
    length = eid.max_prefixlen if length is None else length
    message = lisp.map_request(nonce, plain(eid), length, [ITR])
    return lisp.encapsulated(lisp.packet(ITR if eid.version == 4 else ITR_V6, eid, message, port))


def variant(one, nonce, ddt):
    """The bytes of an odd request."""
    eid = one.target
    length = eid.max_prefixlen if one.length is None else one.length
    raw = lisp.eid_of(one.instance, eid) if one.raw is None else one.raw
    message = lisp.map_request(nonce, raw, length, one.rlocs, **one.words)
    inner = lisp.packet(ITR if eid.version == 4 else ITR_V6, eid, message)
    # The S bit of RFC 9303: here an authentication data section of 8 bytes comes before the inner packet.
    section = bytes([1, 0, 0, 8]) + bytes(8) if one.first & 8 else b""
    return lisp.encapsulated(section + inner + bytes(one.padding), one.first | ddt << 2)


def told(said):
    if said is None:
        return "nothing"
    if not said["records"]:
        return "an empty reply"
    one = said["records"][0]
    if said["kind"] == REFERRAL:
        return f"{ACTIONS[min(one['action'], 5)]} {one['prefix']}"
    return "the ETR's Map-Reply" if one["locators"] else f"negative Map-Reply {one['prefix']} ttl {one['ttl']}"
