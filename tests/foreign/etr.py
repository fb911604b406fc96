"""The ETR of three sites: registers at the Map-Server, and answers the requests that it forwards."""
import ipaddress
import select
import threading
import time

import apart
import lisp
import reading
import tree
from tree import SITES, V4


def mapping(instance, net):
    eid = lisp.eid_of(instance, net.network_address)
    return lisp.record(1440, net.prefixlen, 0, eid, [lisp.locator(V4["etr"], 1, 100, 5)])


class Etr:
    def __init__(self, net):
        self.net = net
        self.notified, self.next_register = set(), 0
        with apart.Within(net.name("etr")):
            self.socket = apart.bound(V4["etr"])
        threading.Thread(target=self.run, daemon=True).start()

    def await_notified(self):
        """Waits until each site is registered. Whether that came."""
        end = time.time() + 10
        while not self.is_registered() and time.time() < end:
            time.sleep(0.1)
        return self.is_registered()

    def is_registered(self):
        return len(self.notified) == len(SITES)

    def run(self):
        while not self.net.stopping:
            if time.time() >= self.next_register:
                self.register()
            if select.select([self.socket], [], [], 0.2)[0]:
                data, _ = self.socket.recvfrom(65535)
                self.take(reading.read(data))

    def register(self):
        self.next_register = time.time() + (60 if self.is_registered() else 2)
        for number, (instance, prefix) in enumerate(SITES):
            one = mapping(instance, ipaddress.ip_network(prefix))
            message = lisp.map_register(1000 + number, [one], tree.KEY.encode())
            self.socket.sendto(message, (V4["ms"], lisp.PORT))

    def take(self, said):
        if said and said["kind"] == lisp.NOTIFY:
            self.notified.add(said["nonce"])
        if not said or said["kind"] != lisp.REQUEST or not said["encapsulated"] or said["address"] is None:
            return
        back = next((rloc for rloc in said["rlocs"] if rloc is not None and rloc.version == 4), None)
        for instance, prefix in SITES:
            net = ipaddress.ip_network(prefix)
            is_mine = instance == said["instance"] and said["address"].version == net.version and said["address"] in net
            if is_mine and back is not None:
                reply = lisp.map_reply(said["nonce"], [mapping(instance, net)])
                self.socket.sendto(reply, (str(back), said["port"]))
