"""Reads LISP control messages into dictionaries, without anything of this project's own."""
import ipaddress
import struct

from lisp import ENCAPSULATED, NOTIFY, REFERRAL, REGISTER, REPLY, REQUEST


def read(data):
    """A message as a dictionary with its kind, or None where it can't be read."""
    try:
        return read_encapsulated(data) if data[0] >> 4 == ENCAPSULATED else read_message(data)
    except (IndexError, struct.error, ValueError):
        return None


def read_encapsulated(data):
    """The message inside, with the bit D, the inner source port, and the inner addresses."""
    inner = data[4:]
    if inner[0] >> 4 == 4:
        source, target, inner = inner[12:16], inner[16:20], inner[(inner[0] & 15) * 4:]
    else:
        source, target, inner = inner[8:24], inner[24:40], inner[40:]
    found = read(inner[8:])
    if found:
        found.update(encapsulated=True, ddt=data[0] >> 2 & 1, port=struct.unpack_from("!H", inner)[0],
                     inner=(ipaddress.ip_address(source), ipaddress.ip_address(target)))
    return found


def read_message(data):
    kind = data[0] >> 4
    nonce, = struct.unpack_from("!Q", data, 4)
    found = {"kind": kind, "nonce": nonce, "ddt": 0, "encapsulated": False}
    if kind == REQUEST:
        found.update(read_request(data))
    elif kind in (REPLY, REFERRAL):
        found["records"] = read_records(data, 12, data[3])
    elif kind in (REGISTER, NOTIFY):
        length, = struct.unpack_from("!H", data, 14)
        found["records"] = read_records(data, 16 + length, data[3])
    return found


def read_request(data):
    _, _, at = read_address(data, 12)
    rlocs = []
    for _ in range((data[2] & 31) + 1):
        _, one, at = read_address(data, at)
        rlocs.append(one)
    length = data[at + 1]
    instance, address, _ = read_address(data, at + 2)
    return {"rlocs": rlocs, "instance": instance, "address": address, "length": length,
            "prefix": network(address, length), "invoked": data[1] >> 6 & 1}


def read_address(data, at):
    """(instance, address or None, where it ends) of the AFI at this place; an unread LCAF has the address None."""
    family, = struct.unpack_from("!H", data, at)
    at += 2
    if family == 0:
        return 0, None, at
    if family in (1, 2):
        end = at + (4 if family == 1 else 16)
        return 0, ipaddress.ip_address(data[at:end]), end
    if family != 16387:
        raise ValueError(f"AFI {family}")
    kind, length = data[at + 2], struct.unpack_from("!H", data, at + 4)[0]
    end = at + 6 + length
    if kind != 2:
        return 0, None, end
    instance, = struct.unpack_from("!I", data, at + 6)
    return instance, read_address(data, at + 10)[1], end


def network(address, length):
    if address is None:
        return None
    return ipaddress.ip_network((address.packed, min(length, address.max_prefixlen)), strict=False)


def read_records(data, at, count):
    found = []
    for _ in range(count):
        one, at = read_record(data, at)
        found.append(one)
    return found


def read_record(data, at):
    minutes, locators, length, bits, _ = struct.unpack_from("!IBBHH", data, at)
    instance, address, at = read_address(data, at + 10)
    listed = []
    for _ in range(locators):
        _, one, at = read_address(data, at + 6)
        listed.append(one)
    return {"ttl": minutes, "action": bits >> 13, "incomplete": bits >> 11 & 1, "instance": instance,
            "prefix": network(address, length), "length": length, "locators": listed}, at
