"""Map-Referrals of one record as bytes (RFC 8111, section 6.4)."""
import ipaddress
import struct

import packets

MS_ACK, DELEGATION_HOLE = 2, 4
# Priority, weight, those for multicast, and the flag R.
BEFORE_LOCATOR = bytes([1, 100, 255, 0, 0, 1])


def block(prefix):
    """The mask length and the EID of a block of instance 0."""
    network = ipaddress.ip_network(prefix)
    return network.prefixlen, packets.address(network.network_address)


def half_of_all_instances():
    """The mask length and the EID of `[0/1]*`: an LCAF of type 2 with no address in it."""
    return 0, struct.pack("!HBBBBHIH", 16387, 0, 0, 2, 1, 6, 0, 0)


def map_referral(nonce, action, prefix, ttl, locators):
    length, eid = prefix
    head = bytes([0x60, 0, 0, 1]) + struct.pack("!QIBBHH", nonce, ttl, len(locators), length, action << 13 | 1 << 12, 0)
    return head + eid + b"".join(BEFORE_LOCATOR + packets.address(locator) for locator in locators)
