"""A switch between the interfaces of a namespace, which loses so many of a hundred UDP datagrams as a file says, and
keeps a capture of those that it takes.

usage: switch.py LOSS_FILE CAPTURE INTERFACE..
"""
import pathlib
import random
import select
import socket
import struct
import sys
import time

ETH_P_ALL = 3
SOL_PACKET, PACKET_VNET_HDR, PACKET_OUTGOING = 263, 15, 4
# With it the kernel hands over, and takes, a checksum that is yet to be made.
VNET_HEADER = 10
UDP = 17


def port_at(interface):
    port = socket.socket(socket.AF_PACKET, socket.SOCK_RAW, socket.htons(ETH_P_ALL))
    port.setsockopt(SOL_PACKET, PACKET_VNET_HDR, 1)
    port.bind((interface, 0))
    return port


def is_udp(frame):
    kind = frame[12:14]
    return (kind == b"\x08\0" and frame[23] == UDP) or (kind == b"\x86\xdd" and frame[20] == UDP)


class Capture:
    """Frames in a file as pcap has them."""

    def __init__(self, path):
        self.file = open(path, "wb")
        self.file.write(struct.pack("<IHHiIII", 0xA1B2C3D4, 2, 4, 0, 0, 65535, 1))

    def add(self, frame):
        now = time.time()
        head = struct.pack("<IIII", int(now), int(now % 1 * 1e6), len(frame), len(frame))
        self.file.write(head + frame)
        self.file.flush()


def main():
    loss_file, capture = pathlib.Path(sys.argv[1]), Capture(sys.argv[2])
    ports = [port_at(name) for name in sys.argv[3:]]
    known, loss, looked = {}, 0, 0.0
    while True:
        ready, _, _ = select.select(ports, [], [], 0.2)
        if time.monotonic() - looked > 0.2:
            looked, loss = time.monotonic(), int(loss_file.read_text() or 0)
        for port in ready:
            try:
                data, source = port.recvfrom(70000)
            except OSError:
                # A namespace is taken down.
                continue
            frame = data[VNET_HEADER:]
            if source[2] == PACKET_OUTGOING:
                continue
            known[frame[6:12]] = port
            if is_udp(frame):
                capture.add(frame)
                if random.random() * 100 < loss:
                    continue
            to = known.get(frame[:6])
            for other in [to] if to else ports:
                if other is not port:
                    other.send(data)


main()
