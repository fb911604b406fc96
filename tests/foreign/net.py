"""The network namespaces of a row, one for each host, at a bridge; and each LISP message that passes it."""
import contextlib
import ipaddress
import pathlib
import socket
import struct
import subprocess
import threading
import time

import apart
import reading
from lisp import PORT, REFERRAL, REPLY, REQUEST
from tree import HOSTS, V4, V6


class Frame:
    """A LISP message that was seen on the wire."""

    def __init__(self, moment, source, target, said):
        self.moment, self.source, self.target, self.said = moment, source, target, said

    def is_about(self, instance, eid):
        return self.said["kind"] == REQUEST and (self.said["instance"], self.said["address"]) == (instance, eid)


def ends(data):
    """(source, target, where its UDP header begins) of an Ethernet frame with UDP, else None."""
    kind, = struct.unpack_from("!H", data, 12)
    if kind == 0x0800 and data[23] == 17:
        return data[26:30], data[30:34], 14 + (data[14] & 15) * 4
    if kind == 0x86DD and data[20] == 17:
        return data[22:38], data[38:54], 54
    return None


class Net:
    def __init__(self, prefix, folder):
        self.prefix, self.folder = prefix, pathlib.Path(folder)
        self.stopping, self.frames, self.lock = False, [], threading.Lock()

    def name(self, host):
        return f"{self.prefix}.{host}"

    def ip(self, *words):
        subprocess.run(["ip", *words], check=True, capture_output=True, text=True)

    def make(self):
        switch = self.name("switch")
        self.ip("netns", "add", switch)
        self.ip("-n", switch, "link", "add", "br0", "type", "bridge")
        self.ip("-n", switch, "link", "set", "br0", "addrgenmode", "none", "up")
        for host in HOSTS:
            self.connect(host, switch)
        self.ip("-n", self.name("west"), "addr", "add", "10.1.9.9/32", "dev", "lo")
        self.ip("-n", self.name("south"), "addr", "add", "10.1.10.9/32", "dev", "lo")
        threading.Thread(target=self.watch, daemon=True).start()

    def connect(self, host, switch):
        there = self.name(host)
        self.ip("netns", "add", there)
        self.ip("-n", there, "link", "set", "lo", "up")
        self.ip("link", "add", "eth0", "netns", there, "type", "veth", "peer", "name", host, "netns", switch)
        self.ip("-n", switch, "link", "set", host, "addrgenmode", "none", "master", "br0", "up")
        self.ip("-n", there, "addr", "add", V4[host] + "/24", "dev", "eth0")
        self.ip("-n", there, "addr", "add", V6[host] + "/64", "dev", "eth0", "nodad")
        self.ip("-n", there, "link", "set", "eth0", "up")

    def remove(self):
        self.stopping = True
        time.sleep(0.3)
        for host in (*HOSTS, "switch"):
            with contextlib.suppress(subprocess.CalledProcessError):
                self.ip("netns", "del", self.name(host))

    def watch(self):
        """Writes each frame of port 4342 to a capture, and reads it."""
        with apart.Within(self.name("switch")):
            tap = socket.socket(socket.AF_PACKET, socket.SOCK_RAW, socket.htons(3))
        tap.settimeout(0.2)
        with open(self.folder / "capture.pcap", "wb") as capture:
            capture.write(struct.pack("<IHHiIII", 0xA1B2C3D4, 2, 4, 0, 0, 65535, 1))
            while not self.stopping:
                with contextlib.suppress(TimeoutError):
                    data, where = tap.recvfrom(65535)
                    if where[2] != socket.PACKET_OUTGOING and where[0] != "br0":
                        self.take(capture, data)

    def take(self, capture, data):
        found = ends(data)
        if not found or PORT not in struct.unpack_from("!HH", data, found[2]):
            return
        source, target, at = found
        now = time.time()
        capture.write(struct.pack("<IIII", int(now), int(now % 1 * 1e6), len(data), len(data)) + data)
        capture.flush()
        said = reading.read(data[at + 8:])
        if said:
            with self.lock:
                self.frames.append(Frame(now, *(str(ipaddress.ip_address(one)) for one in (source, target)), said))

    def since(self, start):
        with self.lock:
            return [frame for frame in self.frames if frame.moment >= start - 0.05]

    def trail(self, start, instance, eid):
        """The messages about an identifier since this moment: its requests, and the replies to their nonces."""
        found, nonces = [], set()
        for frame in self.since(start):
            if frame.is_about(instance, eid):
                nonces.add(frame.said["nonce"])
                found.append(frame)
            elif frame.said["kind"] in (REPLY, REFERRAL) and frame.said["nonce"] in nonces:
                found.append(frame)
        return found
