"""Map-Registers and the registrar that takes them, by plain code.

Written from the formats and rules alone (RFC 9301, sections 5.4, 5.6, 5.7 and 12.5; RFC 8060, sections 3 and 4.1), over
lists, for a reader, and shared with no crate of this repository.
"""
from __future__ import annotations

import dataclasses
import hmac
import struct
import typing

HASHES = {1: "sha1", 2: "sha256"}
# How many bytes a code has by each Algorithm ID.
LENGTHS = {1: (12, 20), 2: (16,)}
MOST_BYTES, MOST_ETRS, MOST_XTRS, MOST_NONCES, MOST_MINUTES = 1500, 8, 8, 32, 1440
MINUTES = 3

# An address is its family, 4 or 6, and its number; a prefix an instance, a family, a number and a length, where the
# family 0 stands for a range of instances.
Address = tuple[int, int]
Prefix = tuple[int, int, int, int]
# An xTR: its IDs, or the address that it sent from.
Sender = tuple[str, typing.Any]


class Refused(Exception):
    """Why a Map-Register isn't taken: the name of its count."""


def want(condition: bool, reason: str = "malformed") -> None:
    if not condition:
        raise Refused(reason)


class Reader:
    """Bytes that are taken from the front."""

    def __init__(self, data: bytes) -> None:
        self.data, self.at = data, 0

    def left(self) -> int:
        return len(self.data) - self.at

    def take(self, count: int) -> bytes:
        self.at += count
        want(self.at <= len(self.data))
        return self.data[self.at - count : self.at]

    def number(self, count: int) -> int:
        return int.from_bytes(self.take(count), "big")

    def address(self, family: int) -> Address:
        want(family in (1, 2))
        return (4, self.number(4)) if family == 1 else (6, self.number(16))

    def block(self, instance: int, family: int, length: int) -> Prefix:
        version, number = self.address(family)
        width = 32 if version == 4 else 128
        want(length <= width)
        return instance, version, number >> (width - length) << (width - length), length

    def eid(self, length: int) -> Prefix:
        """A block, or a range of instances, whose EID mask-len is ignored."""
        family = self.number(2)
        if family != 16387:
            return self.block(0, family, length)
        _, kind, mask, size = struct.unpack("!HBBH", self.take(6))
        want(kind == 2)
        instance, family = self.number(4), self.number(2)
        want(family in (0, 1, 2) and size == (6, 10, 22)[family])
        if family:
            return self.block(instance, family, length)
        want(mask <= 32 and instance % 2 ** (32 - mask) == 0)
        return instance, 0, 0, mask

    def locator(self) -> tuple[int, Address] | None:
        """The priority and the address of one that can be used: not of 255, R set, and no LCAF in its place."""
        priority, _, _, _, flags, family = struct.unpack("!BBBBHH", self.take(8))
        if family == 16387:
            self.take(4)
            self.take(self.number(2))
            return None
        address = self.address(family)
        return (priority, address) if priority != 255 and flags & 1 else None


@dataclasses.dataclass
class Record:
    prefix: Prefix
    minutes: int
    etrs: list[tuple[int, Address]]


@dataclasses.dataclass
class Message:
    """A Map-Register; `covered` is what its code is of, and `records_end` where its records end."""

    uses_ttl: bool
    wants_notify: bool
    nonce: int
    key: tuple[int, int]
    code: bytes
    covered: bytes
    records: list[Record]
    records_end: int
    ids: tuple[int, int] | None


def read_record(reader: Reader) -> Record:
    want(reader.left() >= 12)
    minutes, count, length, _, _ = struct.unpack("!IBBHH", reader.take(10))
    prefix = reader.eid(length)
    return Record(prefix, minutes, [one for one in [reader.locator() for _ in range(count)] if one])


def read_register(data: bytes) -> Message:
    """The Map-Register that a datagram is."""
    reader = Reader(data)
    first, _, bits, count, nonce, key, algorithm, length = struct.unpack("!BBBBQBBH", reader.take(16))
    want(first >> 4 == 3)
    code = reader.take(length)
    records = [read_record(reader) for _ in range(count)]
    end = reader.at
    ids = (reader.number(16), reader.number(8)) if first & 2 else None
    want(not reader.left())
    covered = data[:16] + bytes(length) + data[16 + length :]
    return Message(bool(bits & 8), bool(bits & 1), nonce, (key, algorithm), code, covered, records, end, ids)


@dataclasses.dataclass
class Key:
    id: int
    algorithm: int
    secret: bytes
    is_increasing: bool

    def code(self, covered: bytes, length: int) -> bytes:
        return hmac.digest(self.secret, covered, HASHES[self.algorithm])[:length]

    def bears(self, message: Message) -> bool:
        length = len(message.code)
        return length in LENGTHS[self.algorithm] and self.code(message.covered, length) == message.code


@dataclasses.dataclass
class Registration:
    sender: Sender
    etrs: list[tuple[int, Address]]
    # A moment, in seconds.
    until: float


@dataclasses.dataclass
class Site:
    prefix: Prefix
    keys: list[Key]
    configured: list[Address]
    falls_back: bool
    has_registered: bool = False
    live: list[Registration] = dataclasses.field(default_factory=list)
    # The last nonce by Key ID, Algorithm ID and the xTR's IDs.
    nonces: dict[typing.Any, int] = dataclasses.field(default_factory=dict)

    def in_force(self) -> list[Address]:
        """Its ETRs: those that are registered, by priority, first come first in each, each once, eight at most."""
        if not self.live:
            return [] if self.has_registered and not self.falls_back else self.configured
        ranked: list[tuple[int, Address]] = []
        for priority, address in (etr for one in self.live for etr in one.etrs):
            if all(address != other for _, other in ranked):
                ranked = sorted([*ranked, (priority, address)], key=lambda etr: etr[0])[:MOST_ETRS]
        return [address for _, address in ranked]

    def key_of(self, message: Message) -> Key:
        """The key that a message names and under which it is authentic."""
        found = [key for key in self.keys if (key.id, key.algorithm) == message.key]
        want(bool(found), "nokey")
        want(found[0].bears(message), "wrongcode")
        return found[0]

    def judge(self, message: Message, record: Record, sender: Sender) -> Key:
        """The key under which a record is taken."""
        key = self.key_of(message)
        last = self.nonces.get((*message.key, message.ids))
        if key.is_increasing:
            want(last is None or last < message.nonce, "replayed")
            want(last is not None or len(self.nonces) < MOST_NONCES, "toomany")
        is_known = any(one.sender == sender for one in self.live)
        want(len(record.etrs) <= MOST_ETRS and (is_known or len(self.live) < MOST_XTRS), "toomany")
        return key

    def change(self, message: Message, record: Record, sender: Sender, until: float, key: Key) -> None:
        places = [place for place, one in enumerate(self.live) if one.sender == sender]
        new = Registration(sender, record.etrs, until)
        if record.minutes == 0:
            self.live = [one for one in self.live if one.sender != sender]
        elif places:
            self.live[places[0]] = new
        else:
            self.live.append(new)
        self.has_registered |= record.minutes != 0
        if key.is_increasing:
            self.nonces[*message.key, message.ids] = message.nonce


class Registrar:
    """The sites that have keys, and what is counted."""

    def __init__(self, sites: list[Site]) -> None:
        self.sites = {site.prefix: site for site in sites}
        self.counts: dict[str, int] = {}

    def take(self, data: bytes, source: str, now: float) -> bytes | None:
        """Takes a datagram that begins as a Map-Register does, or drops it: the Map-Notify for it, if there is one."""
        try:
            notify = self.taken(data, source, now)
        except Refused as refused:
            self.count(str(refused))
            return None
        self.count("taken")
        if notify:
            self.count("notified")
        return notify

    def count(self, name: str) -> None:
        self.counts[name] = self.counts.get(name, 0) + 1

    def taken(self, data: bytes, source: str, now: float) -> bytes | None:
        want(len(data) <= MOST_BYTES, "toolong")
        message = read_register(data)
        want(bool(message.records), "norecord")
        sender: Sender = ("ids", message.ids) if message.ids else ("at", source)
        keys = []
        for record in message.records:
            want(record.prefix in self.sites, "nosite")
            keys.append(self.sites[record.prefix].judge(message, record, sender))
        for record, key in zip(message.records, keys):
            minutes = min(record.minutes, MOST_MINUTES) if message.uses_ttl else MINUTES
            self.sites[record.prefix].change(message, record, sender, now + 60 * minutes, key)
        return notify_for(data, message, keys[0]) if message.wants_notify else None


def notify_for(data: bytes, message: Message, key: Key) -> bytes:
    """The Map-Notify that acknowledges a Map-Register."""
    length = len(message.code)
    head, records = bytes([0x40, 0, 0]) + data[3:16], data[16 + length : message.records_end]
    return head + key.code(head + bytes(length) + records, length) + records
