"""Stands before a server and hands on what that replies, so many milliseconds late.

usage: late.py MY_ADDRESS SERVER MILLISECONDS
"""
import collections
import select
import socket
import sys
import time

import packets


def main():
    mine, server, delay = sys.argv[1], sys.argv[2], float(sys.argv[3]) / 1000
    front, back = (socket.socket(socket.AF_INET, socket.SOCK_DGRAM) for _ in range(2))
    front.bind((mine, packets.CONTROL_PORT))
    back.bind((mine, 0))
    print("ready", flush=True)
    asked, late = {}, collections.deque()
    while True:
        patience = max(0, late[0][0] - time.monotonic()) if late else None
        ready, _, _ = select.select([front, back], [], [], patience)
        if front in ready:
            request, source = front.recvfrom(65535)
            asked[packets.read_request(request)[1]] = source
            back.sendto(request, (server, packets.CONTROL_PORT))
        if back in ready:
            reply = back.recv(65535)
            late.append((time.monotonic() + delay, reply))
        while late and late[0][0] <= time.monotonic():
            reply = late.popleft()[1]
            front.sendto(reply, asked[int.from_bytes(reply[4:12], "big")])


main()
