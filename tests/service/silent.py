"""Servers that are there and never answer: their datagrams stay in the sockets.

usage: silent.py ADDRESS..
"""
import signal
import socket
import sys

import packets

servers = [socket.socket(socket.AF_INET, socket.SOCK_DGRAM) for _ in sys.argv[1:]]
for server, address in zip(servers, sys.argv[1:]):
    server.bind((address, packets.CONTROL_PORT))
print("ready", flush=True)
signal.pause()
