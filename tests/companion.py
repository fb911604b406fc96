"""A server that lies: it answers each request with the same Map-Referral, but for the nonce and a TTL of a minute more.

usage: companion.py ADDRESS HEX
"""
import socket
import sys

NONCE, TTL = slice(4, 12), slice(12, 16)


def nonce_of(request: bytes) -> bytes:
    """The nonce of the Map-Request in an Encapsulated Control Message over IPv4 or IPv6."""
    begin = 4 + (20 if request[4] >> 4 == 4 else 40) + 8 + 4
    return request[begin : begin + 8]


def main() -> None:
    reply = bytearray.fromhex(sys.argv[2])
    reply[TTL] = (int.from_bytes(reply[TTL], "big") + 1).to_bytes(4, "big")
    with socket.socket(socket.AF_INET, socket.SOCK_DGRAM) as server:
        server.bind((sys.argv[1], 4342))
        while True:
            request, sender = server.recvfrom(2048)
            reply[NONCE] = nonce_of(request)
            server.sendto(reply, sender)


main()
