"""Encapsulated Map-Requests and Map-Replies as bytes (RFC 9301, sections 5.2, 5.4 and 5.8), for an ITR and an ETR."""
import ipaddress
import struct

CONTROL_PORT = 4342


def checksum(data):
    """The Internet checksum of bytes."""
    if len(data) % 2:
        data += b"\0"
    total = sum(struct.unpack(f"!{len(data) // 2}H", data))
    while total >> 16:
        total = (total & 0xFFFF) + (total >> 16)
    return 0xFFFF - total


def address(ip):
    """An address with its AFI in front."""
    ip = ipaddress.ip_address(ip)
    return struct.pack("!H", 1 if ip.version == 4 else 2) + ip.packed


def eid(ip, instance):
    """An EID with its AFI in front; outside instance 0 as an LCAF of type 2 (RFC 8060, section 4.1)."""
    if instance == 0:
        return address(ip)
    inner = struct.pack("!I", instance) + address(ip)
    return struct.pack("!HBBBBH", 16387, 0, 0, 2, 32, len(inner)) + inner


def map_request(nonce, ip, instance, itrs):
    length = ipaddress.ip_address(ip).max_prefixlen
    head = bytes([0x10, 0, len(itrs) - 1, 1]) + struct.pack("!Q", nonce)
    return head + b"\0\0" + b"".join(map(address, itrs)) + bytes([0, length]) + eid(ip, instance)


def encapsulated(nonce, ip, instance, itrs, port):
    """An ITR's request with these ITR-RLOCs as an Encapsulated Control Message, its bit D clear."""
    request = map_request(nonce, ip, instance, itrs)
    source, target = ipaddress.ip_address(itrs[0]), ipaddress.ip_address(ip)
    if source.version != target.version:
        source = ipaddress.ip_address("0.0.0.0" if target.version == 4 else "::")
    length = 8 + len(request)
    ports = struct.pack("!HHHH", port, CONTROL_PORT, length, 0)
    if target.version == 4:
        pseudo = source.packed + target.packed + struct.pack("!HH", 17, length)
        header = struct.pack("!BBHHHBBH", 0x45, 0, 20 + length, 0, 0, 64, 17, 0)
        header += source.packed + target.packed
        header = header[:10] + struct.pack("!H", checksum(header)) + header[12:]
    else:
        pseudo = source.packed + target.packed + struct.pack("!II", length, 17)
        header = struct.pack("!IHBB", 0x60000000, length, 17, 64)
        header += source.packed + target.packed
    total = checksum(pseudo + ports + request) or 0xFFFF
    return b"\x80\0\0\0" + header + ports[:6] + struct.pack("!H", total) + request


def read_address(data):
    """The address behind an AFI, its instance, and how many bytes both take."""
    afi = struct.unpack("!H", data[:2])[0]
    if afi == 0:
        return None, 0, 2
    if afi == 16387:
        instance = struct.unpack("!I", data[8:12])[0]
        ip, _, size = read_address(data[12:])
        return ip, instance, 12 + size
    size = {1: 4, 2: 16}[afi]
    return ipaddress.ip_address(data[2 : 2 + size]), 0, 2 + size


def read_request(data):
    """Of an Encapsulated Map-Request: whether D is set, nonce, EID, instance, ITR-RLOC and inner source port."""
    inner = data[4:]
    udp = inner[20:] if inner[0] >> 4 == 4 else inner[40:]
    port = struct.unpack("!H", udp[:2])[0]
    request = udp[8:]
    nonce = struct.unpack("!Q", request[4:12])[0]
    _, _, size = read_address(request[12:])
    place = 12 + size
    itr, _, size = read_address(request[place:])
    ip, instance, _ = read_address(request[place + size + 2 :])
    return bool(data[0] & 4), nonce, ip, instance, itr, port


def map_reply(nonce, prefix, locator):
    """A positive Map-Reply for a block, with one locator."""
    block = ipaddress.ip_network(prefix)
    record = struct.pack("!IBBHH", 1440, 1, block.prefixlen, 0x1000, 0)
    record += address(block.network_address) + bytes([1, 100, 255, 0, 0, 5]) + address(locator)
    return bytes([0x20, 0, 0, 1]) + struct.pack("!Q", nonce) + record


def read_reply(data):
    """Of a Map-Reply: its nonce, and a line of what it says."""
    nonce = struct.unpack("!Q", data[4:12])[0]
    ttl, count, length, flags = struct.unpack("!IBBH", data[12:20])
    ip, instance, size = read_address(data[22:])
    block = f"[{instance}]{ip}/{length}"
    if count == 0:
        return nonce, f"negative {block} action {flags >> 13} ttl {ttl}"
    locator, _, _ = read_address(data[22 + size + 6 :])
    return nonce, f"registered {block} at {locator}"
