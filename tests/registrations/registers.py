"""Map-Registers and the Map-Notifies that acknowledge them (RFC 9301, sections 5.6, 5.7 and 12.5), spelled by plain
Python."""
import dataclasses
import hmac
import struct

import lisp

# The bits of a Map-Register: I in the first byte, T and M in the third.
HAS_ID, USE_TTL, WANT_NOTIFY = 0x2, 0x8, 0x1
HASHES = {1: "sha1", 2: "sha256"}


@dataclasses.dataclass(frozen=True)
class Key:
    """A secret that a site shares with its ETRs, and how many bytes its codes have."""
    id: int
    algorithm: int
    secret: bytes
    length: int

    def code(self, covered):
        return hmac.digest(self.secret, covered, HASHES[self.algorithm])[:self.length]


def sha256(number, secret):
    return Key(number, 2, secret.encode(), 16)


def sha1(number, secret, length=20):
    return Key(number, 1, secret.encode(), length)


def signed(head, rest, key):
    """A message with its code, which covers all of it with zeros in the code's place."""
    return head + key.code(head + bytes(key.length) + rest) + rest


def map_register(nonce, records, key, *, bits=WANT_NOTIFY, xtr=None):
    """`xtr` is an xTR-ID and a Site-ID."""
    ids = struct.pack("!QQQ", xtr[0] >> 64, xtr[0] & 2**64 - 1, xtr[1]) if xtr else b""
    first = 0x30 | (HAS_ID if xtr else 0)
    head = struct.pack("!BBBBQBBH", first, 0, bits, len(records), nonce, key.id, key.algorithm, key.length)
    return signed(head, b"".join(records) + ids, key)


def map_notify(message, key):
    """The Map-Notify for a Map-Register, with all its records."""
    head = bytes([0x40, 0, 0]) + message[3:16]
    end = len(message) - (24 if message[0] & HAS_ID else 0)
    return signed(head, message[16 + key.length:end], key)


def mapping(prefix, locators, *, minutes=10, instance=0):
    """A record for a prefix, an ip_network. A locator is an address, with its priority where that isn't 1."""
    pairs = [one if isinstance(one, tuple) else (one, 1) for one in locators]
    listed = [lisp.locator(address, priority, 100) for address, priority in pairs]
    return lisp.record(minutes, prefix.prefixlen, 0, lisp.eid_of(instance, prefix.network_address), listed)
