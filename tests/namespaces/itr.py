"""An ITR: asks a Map-Resolver for an identifier, as often as it takes, and prints what the Map-Reply says.

usage: itr.py RESOLVER MY_ADDRESS[,ADDRESS..] EID [INSTANCE] [SECONDS]

Further addresses are named as ITR-RLOCs before its own.
"""
import random
import socket
import sys
import time

import packets


def main():
    resolver, addresses, eid = sys.argv[1:4]
    mine, *others = addresses.split(",")
    instance = int(sys.argv[4]) if len(sys.argv) > 4 else 0
    patience = float(sys.argv[5]) if len(sys.argv) > 5 else 12
    family = socket.AF_INET6 if ":" in mine else socket.AF_INET
    with socket.socket(family, socket.SOCK_DGRAM) as itr:
        itr.bind((mine, 0))
        port = itr.getsockname()[1]
        nonce = random.getrandbits(64)
        request = packets.encapsulated(nonce, eid, instance, [*others, mine], port)
        end = time.time() + patience
        while time.time() < end:
            itr.sendto(request, (resolver, packets.CONTROL_PORT))
            itr.settimeout(min(1.5, max(0.01, end - time.time())))
            said = reply_to(itr, nonce)
            if said:
                print(f"[{instance}]{eid} {said}")
                return 0
    print(f"[{instance}]{eid} no reply")
    return 1


def reply_to(itr, nonce):
    """What the next Map-Reply of this nonce says, until the time is up."""
    try:
        while True:
            data, _ = itr.recvfrom(65535)
            if data[0] >> 4 == 2:
                answered, said = packets.read_reply(data)
                if answered == nonce:
                    return said
    except TimeoutError:
        return None


sys.exit(main())
