"""An ETR of all registered sites: answers each Map-Request that a Map-Server forwards, with its own address as locator.

usage: etr.py REGISTER MY_ADDRESS
"""
import socket
import sys

import oracle
import packets


def main():
    register, mine = oracle.Register(sys.argv[1]), sys.argv[2]
    etr = socket.socket(socket.AF_INET, socket.SOCK_DGRAM)
    etr.setsockopt(socket.SOL_SOCKET, socket.SO_RCVBUF, 1 << 20)
    etr.bind((mine, packets.CONTROL_PORT))
    print("ready", flush=True)
    while True:
        ddt, nonce, eid, instance, itr, port = packets.read_request(etr.recv(65535))
        what, prefix, _ = register.assigned(eid, instance)
        if what == "registered" and not ddt and instance == 0:
            reply = packets.map_reply(nonce, oracle.network_of(prefix, eid), mine)
            etr.sendto(reply, (str(itr), port))


main()
