"""An ETR: answers each Map-Request that Map-Servers forward with one locator for the whole site.

usage: etr.py IPV4_ADDRESS IPV6_ADDRESS PREFIX=LOCATOR..
"""
import ipaddress
import select
import socket
import sys

import packets


def bound(address):
    family = socket.AF_INET6 if ":" in address else socket.AF_INET
    etr = socket.socket(family, socket.SOCK_DGRAM)
    etr.bind((address, packets.CONTROL_PORT))
    return etr


def main():
    sockets = {4: bound(sys.argv[1]), 6: bound(sys.argv[2])}
    sites = [word.split("=") for word in sys.argv[3:]]
    sites = [(ipaddress.ip_network(prefix), locator) for prefix, locator in sites]
    while True:
        ready, _, _ = select.select(list(sockets.values()), [], [])
        for etr in ready:
            data, source = etr.recvfrom(65535)
            ddt, nonce, eid, instance, itr, port = packets.read_request(data)
            print(f"from {source[0]}: D {ddt:d}, [{instance}]{eid} for {itr} port {port}", flush=True)
            for prefix, locator in sites:
                if not ddt and prefix.version == eid.version and eid in prefix:
                    reply = packets.map_reply(nonce, prefix, locator)
                    sockets[itr.version].sendto(reply, (str(itr), port))


main()
