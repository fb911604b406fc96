"""LISP control messages as other programs write them, spelled without anything of this project's own.

The layouts are those of RFC 9301 (Map-Request 5.2, Map-Reply 5.4, Map-Register 5.6, Encapsulated Control Message 5.8),
RFC 8111 (Map-Referral 6.4) and RFC 8060 (LCAF). What is spelled may be as odd as the caller likes.
"""
import hashlib
import hmac
import ipaddress
import struct

PORT = 4342
REQUEST, REPLY, REGISTER, NOTIFY, REFERRAL, ENCAPSULATED = 1, 2, 3, 4, 6, 8
ACTIONS = ("NODE-REFERRAL", "MS-REFERRAL", "MS-ACK", "MS-NOT-REGISTERED", "DELEGATION-HOLE", "NOT-AUTHORITATIVE")


def plain(address):
    """AFI and address; AFI 0 for None."""
    if address is None:
        return b"\0\0"
    address = ipaddress.ip_address(address)
    return struct.pack("!H", 1 if address.version == 4 else 2) + address.packed


def lcaf(kind, body, second=0):
    return struct.pack("!HBBBBH", 16387, 0, 0, kind, second, len(body)) + body


def in_instance(instance, inner, mask=32):
    """An LCAF of type 2 (Instance ID) around an AFI and address."""
    return lcaf(2, struct.pack("!I", instance) + inner, mask)


def eid_of(instance, address):
    return plain(address) if instance == 0 else in_instance(instance, plain(address))


def security_key(address):
    """An LCAF of type 11 (security key) with this address inside."""
    return lcaf(11, struct.pack("!BBBBH", 1, 0, 2, 0, 16) + bytes(range(16)) + plain(address))


def checksum(data):
    if len(data) % 2:
        data += b"\0"
    total = sum(struct.unpack(f"!{len(data) // 2}H", data))
    while total >> 16:
        total = (total & 0xFFFF) + (total >> 16)
    return 0xFFFF - total


def udp(source, target, ports, data):
    """A UDP datagram with its checksum; `ports` are the source's and the target's."""
    length = 8 + len(data)
    head = struct.pack("!HHHH", *ports, length, 0)
    tail = struct.pack("!HH", 17, length) if source.version == 4 else struct.pack("!II", length, 17)
    total = checksum(source.packed + target.packed + tail + head + data) or 0xFFFF
    return head[:6] + struct.pack("!H", total) + data


def packet(source, target, data, source_port=PORT):
    """An IP packet of the family of its addresses, with a UDP datagram to port 4342."""
    source, target = ipaddress.ip_address(source), ipaddress.ip_address(target)
    data = udp(source, target, (source_port, PORT), data)
    if source.version == 6:
        return struct.pack("!IHBB", 6 << 28, len(data), 17, 64) + source.packed + target.packed + data
    head = struct.pack("!BBHHHBBH", 0x45, 0, 20 + len(data), 0, 0, 64, 17, 0) + source.packed + target.packed
    return head[:10] + struct.pack("!H", checksum(head)) + head[12:] + data


def encapsulated(inner, first=0x80):
    return bytes([first, 0, 0, 0]) + inner


# What a Map-Request has where nothing else is said. The first of `bits` ends in A M P S, the second begins with p s I
# N, the third with Rsvd L D and ends in IRC; `second` is another record, and `behind` comes after all records.
USUAL_REQUEST = {"source_eid": plain(None), "bits": (0x10, 0, 0), "records": 1, "second": b"", "behind": b""}
# What a record has, with its Signature sections and their number.
USUAL_RECORD = {"authoritative": 1, "incomplete": 0, "signatures": b"", "signed": 0}


def map_request(nonce, eid, length, rlocs, **odd):
    """With what is other than in USUAL_REQUEST."""
    has = USUAL_REQUEST | odd
    first, second, third = has["bits"]
    head = bytes([first, second, third | len(rlocs) - 1, has["records"]]) + struct.pack("!Q", nonce)
    listed = b"".join(rloc if isinstance(rloc, bytes) else plain(rloc) for rloc in rlocs)
    return head + has["source_eid"] + listed + bytes([0, length]) + eid + has["second"] + has["behind"]


def locator(address, priority=1, weight=100, flags=1):
    address = address if isinstance(address, bytes) else plain(address)
    return struct.pack("!BBBBH", priority, weight, 255, 0, flags) + address


def record(minutes, length, action, eid, locators, **odd):
    """A record of a Map-Reply or a Map-Referral, with what is other than in USUAL_RECORD."""
    has = USUAL_RECORD | odd
    bits = action << 13 | has["authoritative"] << 12 | has["incomplete"] << 11
    head = struct.pack("!IBBHH", minutes, len(locators), length, bits, has["signed"] << 12)
    return head + eid + b"".join(locators) + has["signatures"]


def map_referral(nonce, records, behind=b""):
    return bytes([0x60, 0, 0, len(records)]) + struct.pack("!Q", nonce) + b"".join(records) + behind


def map_reply(nonce, records):
    return bytes([0x20, 0, 0, len(records)]) + struct.pack("!Q", nonce) + b"".join(records)


def map_register(nonce, records, key):
    """With the bit M (want a notify), and all 20 bytes of HMAC-SHA-1, as openoverlayrouter writes and checks it."""
    head = struct.pack("!BBBBQBBH", 0x30, 0, 1, len(records), nonce, 0, 1, 20)
    body = b"".join(records)
    return head + hmac.new(key, head + bytes(20) + body, hashlib.sha1).digest() + body
