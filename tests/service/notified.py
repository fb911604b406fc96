"""Prints what is sent to a Unix datagram socket, as systemd hears it: notified.py PATH"""
import socket
import sys

listener = socket.socket(socket.AF_UNIX, socket.SOCK_DGRAM)
listener.bind(sys.argv[1])
while True:
    print(listener.recv(100).decode(), end="", flush=True)
