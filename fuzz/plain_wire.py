"""Map-Referrals and encapsulated Map-Requests as bytes, by plain code.

Written from the formats alone (RFC 8111, section 6.4; RFC 9301, sections 5.2 and 5.8; RFC 8060, section 4.1), for a
reader, and shared with no crate of this repository. Prefixes and identifiers are those of plain_replay.py.
"""
from __future__ import annotations

import dataclasses
import struct

import plain_replay
from plain_replay import Path, Record

PORT = 4342
RESOLVER = "127.0.0.53"

ACTIONS = ("NODE-REFERRAL", "MS-REFERRAL", "MS-ACK", "MS-NOT-REGISTERED", "DELEGATION-HOLE", "NOT-AUTHORITATIVE")
WIDTHS = {"4": 4, "6": 16}

# -- Map-Referrals, written ------------------------------------------------------------------------------------------


def bytes_of(digits: str, size: int) -> bytes:
    return int(digits.ljust(8 * size, "0"), 2).to_bytes(size, "big")


def family_of(symbol: str) -> int:
    return 1 if symbol == "4" else 2


def written_eid(prefix: Path) -> tuple[int, bytes]:
    """The mask length, and the EID with its AFI."""
    instance = bytes_of(prefix[:32], 4)
    if len(prefix) <= 32:
        return 0, struct.pack("!HBBBBH4sH", 16387, 0, 0, 2, len(prefix), 6, instance, 0)
    family, address = family_of(prefix[32]), bytes_of(prefix[33:], WIDTHS[prefix[32]])
    length = len(prefix) - 33
    if not any(instance):
        return length, struct.pack("!H", family) + address
    return length, struct.pack("!HBBBBH4sH", 16387, 0, 0, 2, 0, 6 + len(address), instance, family) + address


def written_address(text: str) -> bytes:
    digits = plain_replay.read_address(text)
    return struct.pack("!H", family_of(digits[0])) + bytes_of(digits[1:], WIDTHS[digits[0]])


def written_referral(nonce: bytes, record: Record) -> bytes:
    length, eid = written_eid(record.prefix)
    incomplete = record.action == "NOT-AUTHORITATIVE"
    flags = ACTIONS.index(record.action) << 13 | 1 << 12 | incomplete << 11
    head = struct.pack("!I8sIBBHH", 0x60000001, nonce, record.ttl, len(record.servers), length, flags, 0)
    locators = (struct.pack("!BBBBH", 1, 100, 255, 0, 1) + written_address(server) for server in record.servers)
    return head + eid + b"".join(locators)


# -- Encapsulated Map-Requests, read ---------------------------------------------------------------------------------


class Refused(Exception):
    """These bytes are no request."""


def want(condition: bool) -> None:
    if not condition:
        raise Refused


def total(data: bytes) -> int:
    """The one's complement sum of 16-bit words."""
    number = int.from_bytes(data + b"\0" * (len(data) % 2), "big")
    return number % 0xFFFF or (0xFFFF if number else 0)


def udp_of(inner: bytes) -> tuple[bytes, bytes]:
    """What an inner IP header holds, and the pseudo-header of its UDP."""
    want(len(inner) > 0)
    if inner[0] >> 4 == 4:
        want(len(inner) >= 20)
        size = (inner[0] & 15) * 4
        want(size >= 20 and int.from_bytes(inner[2:4], "big") == len(inner) >= size + 8)
        want(total(inner[:size]) == 0xFFFF and inner[9] == 17)
        want(int.from_bytes(inner[6:8], "big") & 0x3FFF == 0)
        return inner[size:], inner[12:20] + struct.pack("!HH", 17, len(inner) - size)
    want(inner[0] >> 4 == 6 and len(inner) >= 40)
    length = int.from_bytes(inner[4:6], "big")
    want(length == len(inner) - 40 and length >= 8 and inner[6] == 17)
    return inner[40:], inner[8:40] + struct.pack("!II", length, 17)


def message_of(datagram: bytes) -> bytes:
    """The message within the ECM, IP and UDP headers."""
    want(len(datagram) >= 4 and datagram[0] >> 4 == 8 and not datagram[0] & 8)
    udp, pseudo = udp_of(datagram[4:])
    want(int.from_bytes(udp[4:6], "big") == len(udp))
    want(udp[6:8] == b"\0\0" or total(pseudo + udp) == 0xFFFF)
    want(int.from_bytes(udp[2:4], "big") == PORT)
    return udp[8:]


class Reader:
    """Bytes that are taken from the front."""

    def __init__(self, data: bytes) -> None:
        self.left = data

    def take(self, count: int) -> bytes:
        want(len(self.left) >= count)
        taken, self.left = self.left[:count], self.left[count:]
        return taken

    def number(self, count: int) -> int:
        return int.from_bytes(self.take(count), "big")

    def skip_source(self) -> None:
        family = self.number(2)
        want(family in (0, 1, 2, 16387))
        if family == 16387:
            self.take(4)
            self.take(self.number(2))
        else:
            self.take((0, 4, 16)[family])

    def address(self, family: int) -> str:
        want(family in (1, 2))
        size = (4, 16)[family - 1]
        return f"{'46'[family - 1]}{self.number(size):0{8 * size}b}"

    def xeid(self, length: int) -> Path:
        family, instance = self.number(2), 0
        if family == 16387:
            kind = self.take(4)[2]
            size = self.number(2)
            want(kind == 2)
            instance, family = self.number(4), self.number(2)
            want(family in (1, 2) and size == (10, 22)[family - 1])
        address = self.address(family)
        want(length == len(address) - 1)
        return f"{instance:032b}{address}"


@dataclasses.dataclass
class Request:
    nonce: bytes
    is_ddt: bool
    xeid: Path


def read_request(datagram: bytes) -> Request | None:
    """The request that a datagram is, if it is one."""
    try:
        reader = Reader(message_of(datagram))
        first = reader.take(4)
        nonce = reader.take(8)
        want(first[0] >> 4 == 1 and first[3] == 1)
        reader.skip_source()
        for _ in range((first[2] & 31) + 1):
            reader.address(reader.number(2))
        length = reader.take(2)[1]
        xeid = reader.xeid(length)
        want(bool(first[0] & 4) or not reader.left)
        return Request(nonce, bool(datagram[0] & 4), xeid)
    except Refused:
        return None


# -- Encapsulated Map-Requests, written ------------------------------------------------------------------------------


@dataclasses.dataclass
class Outer:
    """What stands around a Map-Request: the ECM header, the inner source and its port, the port that it is for."""

    ecm: bytes = b"\x84\0\0\0"
    source: bytes = b""
    source_port: int = PORT
    port: int = PORT
    has_sum: bool = True


def enclosed(outer: Outer, xeid: Path, message: bytes) -> bytes:
    """The message within UDP, IP of the identifier's family and the ECM header, with the right sums."""
    length, size = len(message) + 8, WIDTHS[xeid[32]]
    ends = outer.source.rjust(size, b"\0")[:size] + bytes_of(xeid[33:], size)
    tail = struct.pack("!HH", 17, length) if size == 4 else struct.pack("!II", length, 17)
    udp = struct.pack("!HHHH", outer.source_port, outer.port, length, 0) + message
    check = (0xFFFF - total(ends + tail + udp)) or 0xFFFF
    udp = udp[:6] + struct.pack("!H", check if outer.has_sum else 0) + message
    if size == 4:
        ip = struct.pack("!BBHIBBH", 0x45, 0, 20 + length, 0, 64, 17, 0) + ends
        ip = ip[:10] + struct.pack("!H", 0xFFFF - total(ip)) + ip[12:]
    else:
        ip = struct.pack("!IHBB", 6 << 28, length, 17, 64) + ends
    return outer.ecm + ip + udp


def written_request(nonce: int, xeid: Path) -> bytes:
    """The DDT Map-Request of the resolver at 127.0.0.53, as `ddt` writes it."""
    length, eid = written_eid(xeid)
    head = struct.pack("!BBBBQH", 0x10, 0, 0, 1, nonce, 0)
    message = head + written_address(RESOLVER) + bytes([0, length]) + eid
    source = written_address(RESOLVER)[2:] if xeid[32] == "4" else b""
    return enclosed(Outer(source=source), xeid, message)
