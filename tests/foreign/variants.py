"""Messages that other implementations write: what each is to come to, and which section of an RFC says so.

A want is one of: reply, the ETR's Map-Reply within 2 seconds; only, that, and no silent server is asked; negative, a
negative Map-Reply with ACT 1 (Natively-Forward), of so many minutes; nothing; logged, nothing but a line of the log
that names the AFI; MS-ACK; or how often the root is asked.
"""
import dataclasses
import ipaddress
import struct

from lisp import in_instance, lcaf, locator, map_referral, plain, record, security_key
from reading import network

ITR, RESOLVER, ROOT, SECOND, MS, ETR, PEER = (f"192.0.2.{number}" for number in (1, 2, 3, 4, 5, 6, 8))
# A DDT client of Kihyamut's servers.
ANOTHER = "192.0.2.40"
# Servers that never answer.
SILENT = ("192.0.2.97", "192.0.2.98", "192.0.2.99")
# For IPv6's identifiers.
ITR_V6 = "2001:db8::1"
SITE, HOLE = "10.1.2.3", "11.0.0.1"
MAC = struct.pack("!H", 16389) + bytes(range(6))
SIGNATURE = struct.pack("!IIIHHBBH", 1440, 0x70000000, 0x60000000, 0x1234, 32, 2, 0, 0) + bytes(32)


@dataclasses.dataclass(frozen=True)
class Referral:
    """A Map-Referral that a root sends to ddtd resolve. `make` has its bytes, by the nonce, the identifier and the
    server that was asked."""
    name: str
    make: object
    want: str
    says: str


def one(locators, minutes=1440, action=1, length=24, **words):
    """A referral of one record, whose prefix covers the identifier."""
    def make(nonce, eid, _):
        prefix = plain(network(eid, length).network_address)
        return [map_referral(nonce, [record(minutes, length, action, prefix, locators, **words)])]
    return make


GOOD = locator(MS)


def two_records(nonce, eid, _):
    other = network(eid + 65536, 24).network_address
    first = record(1440, 24, 1, plain(network(eid, 24).network_address), [GOOD])
    return [map_referral(nonce, [first, record(15, 24, 4, plain(other), [])])]


def bytes_after(nonce, eid, where):
    return [one([GOOD])(nonce, eid, where)[0] + bytes(4)]


def wrong_nonce(nonce, eid, where):
    return one([GOOD])(nonce ^ 1, eid, where)


def twice(nonce, eid, where):
    return one([GOOD])(nonce, eid, where) * 2


def range_of_instances(nonce, _, __):
    return [map_referral(nonce, [record(15, 0, 4, in_instance(0, plain(None), 0), [])])]


def in_an_lcaf(nonce, eid, _):
    prefix = in_instance(0, plain(network(eid, 24).network_address))
    return [map_referral(nonce, [record(1440, 24, 1, prefix, [GOOD])])]


def node_then_ms(nonce, eid, where):
    """The root refers to a node at SECOND, and that one to the Map-Server."""
    if where == ROOT:
        return one([locator(SECOND, 0, 0, 0)], action=0, length=16)(nonce, eid, where)
    return one([locator(MS, 0, 0, 0)])(nonce, eid, where)


def absent_then_good(nonce, eid, where):
    """Of two Map-Servers the first has no registration."""
    if where == ROOT:
        return one([locator(SECOND), locator(MS)])(nonce, eid, where)
    return one([locator(SECOND), locator(MS)], 1, 3)(nonce, eid, where)


REFERRALS = (
    Referral("plain", one([GOOD]), "reply", "8111 6.4"),
    Referral("NODE-REFERRAL, then MS-REFERRAL", node_then_ms, "reply", "8111 7.3.2"),
    Referral("priority 0, weight 0, flags 0 (as OOR)", one([locator(MS, 0, 0, 0)]), "reply", "8111 6.4"),
    Referral("locator LCAF 11 (security key) alone", one([locator(security_key(MS))]), "reply", "8111 6.4"),
    Referral("plain locator, then LCAF 11", one([GOOD, locator(security_key(PEER))]), "reply", "8111 6.4"),
    Referral("LCAF 11, then plain locator", one([locator(security_key(PEER)), GOOD]), "reply", "8111 6.4"),
    Referral("plain locator, then LCAF 3 (AS number)",
             one([GOOD, locator(lcaf(3, struct.pack("!I", 65001) + plain(PEER)))]), "reply", "no rule (8060 4.2)"),
    Referral("plain locator, then AFI 17 (a name)", one([GOOD, locator(struct.pack("!H", 17) + b"node\0")]), "logged",
             "9301 5: unrecognized AFI"),
    Referral("SigCnt 1 and a signature section", one([GOOD], signatures=SIGNATURE, signed=1), "reply",
             "8111 6.4.1: Sig Length"),
    Referral("two records, the first covers", two_records, "reply", "8111 6.4: Record Count"),
    Referral("4 bytes after the record", bytes_after, "reply", "no rule"),
    Referral("first locator silent, priority 255", one([locator(SILENT[0], 255, 0), GOOD]), "only",
             "9301 5.4: Priority"),
    Referral("first locator silent, priority 2, second 1", one([locator(SILENT[1], 2), GOOD]), "only",
             "9301 5.4: Priority"),
    Referral("first locator silent, same priority", one([locator(SILENT[2]), GOOD]), "reply", "8111 7.3.2: next RLOC"),
    Referral("incomplete flag", one([GOOD], incomplete=1), "reply", "8111 6.4"),
    Referral("A bit clear", one([GOOD], authoritative=0), "reply", "8111 6.4"),
    Referral("TTL 0", one([GOOD], minutes=0), "reply", "8111 6.4"),
    Referral("TTL 4294967295", one([GOOD], minutes=0xFFFFFFFF), "reply", "9301 5.4: Record TTL"),
    Referral("12 locators", one([GOOD] + [locator(f"192.0.2.{number}") for number in range(200, 211)]), "reply",
             "8111 6.4: Referral Count"),
    Referral("mixed families", one([GOOD, locator("2001:db8::5")]), "reply", "8111 6.4"),
    Referral("prefix in an LCAF of instance 0", in_an_lcaf, "reply", "8060 4.1"),
    Referral("the referral twice", twice, "reply", "8111 7.3.2"),
    Referral("MS-NOT-REGISTERED at one peer, MS-ACK at the other", absent_then_good, "reply", "8111 7.3.2"),
    Referral("MS-NOT-REGISTERED, TTL 15, incomplete (as OOR)", one([locator(MS, 0, 0, 0)], 15, 3, incomplete=1),
             "negative 1", "8111 7.3.2"),
    Referral("MS-NOT-REGISTERED without a locator", one([], 1, 3), "negative 1", "8111 6.4"),
    Referral("DELEGATION-HOLE", one([], 15, 4), "negative 15", "8111 7.3.2"),
    Referral("DELEGATION-HOLE of an instance range, IID mask-len 0", range_of_instances, "negative 15", "8060 4.1"),
    Referral("another nonce", wrong_nonce, "nothing", "8111 7.3.3"),
    Referral("ACT 6, unassigned", one([GOOD], action=6), "nothing", "8111 6.4"),
    Referral("NOT-AUTHORITATIVE", one([], 0, 5, 32, incomplete=1), "nothing", "8111 7.3.2: discarded"),
)


@dataclasses.dataclass(frozen=True)
class Kept:
    """What is remembered of a referral of a 16-bit block: how often the root is asked for two identifiers in it."""
    name: str
    minutes: int
    action: int
    incomplete: int
    asks: int
    says: str

    def make(self, nonce, eid, where):
        listed = [] if self.action == 4 else [GOOD]
        return one(listed, self.minutes, self.action, 16, incomplete=self.incomplete)(nonce, eid, where)


KEPT = (
    Kept("MS-REFERRAL", 1440, 1, 0, 1, "8111 7.3.2: saved"),
    Kept("MS-REFERRAL, incomplete", 1440, 1, 1, 2, "8111 6.4: SHOULD NOT cache"),
    Kept("MS-REFERRAL, TTL 0", 0, 1, 0, 2, "8111 6.4: TTL"),
    Kept("DELEGATION-HOLE", 15, 4, 0, 1, "8111 7.3.2: saved"),
    Kept("MS-NOT-REGISTERED, incomplete", 1, 3, 1, 2, "8111 6.4: SHOULD NOT cache"),
)
KEPT_A_MINUTE = Kept("MS-NOT-REGISTERED, TTL 15, after 65 s", 15, 3, 0, 2, "8111 7.3.2: 1 minute")


@dataclasses.dataclass(frozen=True)
class Request:
    """An encapsulated Map-Request: what a server gives to it with the bit D, and what an ITR gets for it at a resolver;
    None: it isn't asked. `words` are of lisp.map_request."""
    name: str
    server: str | None
    resolver: str | None
    says: str
    eid: str = SITE
    instance: int = 0
    # None: a host.
    length: int | None = None
    # Bytes in place of the EID.
    raw: bytes | None = None
    rlocs: tuple = (ITR,)
    # The first byte of the Encapsulated Control Message, and how many bytes are after the inner packet.
    first: int = 0x80
    padding: int = 0
    words: dict = dataclasses.field(default_factory=dict)

    @property
    def target(self):
        return ipaddress.ip_address(self.eid)


def good(name, says, **words):
    return Request(name, "MS-ACK", "reply", says, **words)


def dropped(name, says, want="nothing", **words):
    return Request(name, want, want, says, **words)


NAT = lcaf(7, struct.pack("!HH", 4342, 4342) + plain(ITR) + plain(MS) + plain(None) + plain(PEER))
AS_NUMBER = lcaf(3, struct.pack("!I", 65001) + plain(ITR))
IDS = bytes(range(24))
MAPPING = record(1440, 24, 0, plain("10.9.9.0"), [locator(ITR)])

REQUESTS = (
    good("plain", "9301 5.2"),
    good("source EID IPv4 (as OOR)", "9301 5.2", words={"source_eid": plain("10.9.9.9")}),
    good("source EID in an LCAF of instance 7", "8060 4.1", words={"source_eid": in_instance(7, plain("10.9.9.9"))}),
    dropped("source EID MAC (AFI 16389)", "9301 5: unrecognized AFI", "logged", words={"source_eid": MAC}),
    dropped("source EID a name (AFI 17)", "9301 5: unrecognized AFI", "logged",
            words={"source_eid": struct.pack("!H", 17) + b"host\0"}),
    good("ITR-RLOCs v4, v6, v4", "9301 5.2", rlocs=(ITR, ITR_V6, ANOTHER)),
    good("ITR-RLOCs v6, v4", "9301 5.2", rlocs=(ITR_V6, ITR)),
    good("32 ITR-RLOCs", "9301 5.2: IRC 31", rlocs=(ITR, *(f"198.51.100.{number}" for number in range(1, 32)))),
    good("ITR-RLOC LCAF 7 (NAT), then v4", "no rule (8060 4.4)", rlocs=(NAT, ITR)),
    good("ITR-RLOC v4, then LCAF 2 (instance)", "no rule (8060 4.1)", rlocs=(ITR, in_instance(7, plain(ITR)))),
    good("ITR-RLOC v4, then LCAF 3 (AS number)", "no rule (8060 4.2)", rlocs=(ITR, AS_NUMBER)),
    good("I bit with xTR-ID and Site-ID after the record", "9301 5.2: Rsvd ignored",
         words={"bits": (0x10, 0x20, 0), "behind": IDS}),
    good("N and I bits (subscribe)", "9301 5.2: Rsvd ignored", words={"bits": (0x10, 0x30, 0), "behind": IDS}),
    good("two records", "9301 5.2: MUST accept them",
         words={"records": 2, "second": bytes([0, 32]) + plain("10.1.2.4")}),
    good("M bit with a Map-Reply record", "9301 5.2", words={"bits": (0x14, 0, 0), "behind": MAPPING}),
    good("A bit", "9301 5.2", words={"bits": (0x18, 0, 0)}),
    good("p bit (of a proxy ITR)", "9301 5.2", words={"bits": (0x10, 0x80, 0)}),
    good("s bit (SMR-invoked), host", "9301 6.1", words={"bits": (0x10, 0x40, 0)}),
    good("s bit, prefix /24 of the mapping", "9301 5.2 and 6.1", eid="10.1.2.0", length=24,
         words={"bits": (0x10, 0x40, 0)}),
    good("prefix /24 in instance 7", "9301 5.2", eid="10.1.2.0", length=24, instance=7),
    good("prefix /64 of IPv6", "9301 5.2", eid="2001:db8:a:1::", length=64),
    good("L bit (local xTR)", "9301 5.2", words={"bits": (0x10, 0, 0x40)}),
    good("reserved bits", "9301 5.2: Rsvd ignored", words={"bits": (0x10, 0x0F, 0x80)}),
    good("S bit (an SMR)", "no rule for a server (9301 6.1)", words={"bits": (0x11, 0, 0)}),
    dropped("P bit (probe)", "9301 5.2: MUST drop", words={"bits": (0x12, 0, 0)}),
    dropped("P bit (probe), a hole", "9301 5.2: MUST drop", eid=HOLE, words={"bits": (0x12, 0, 0)}),
    Request("D bit (dont-map-reply), a hole", None, "nothing", "9301 5.2: no Map-Reply", eid=HOLE,
            words={"bits": (0x10, 0, 0x20)}),
    good("instance 7", "8060 4.1", instance=7),
    good("instance 7, IID mask-len 0", "8060 4.1", raw=in_instance(7, plain(SITE), 0)),
    good("instance 0 in an LCAF", "8060 4.1", raw=in_instance(0, plain(SITE))),
    good("IPv6 EID", "9301 5.8", eid="2001:db8:a:1::5"),
    good("reserved bits of the ECM", "9301 5.8: ignored", first=0x83),
    good("ECM with the S bit and an AD section", "9301 9, 9303", first=0x88),
    good("4 bytes after the inner packet", "no rule", padding=4),
    dropped("no ITR-RLOC (AFI 0)", "9301 5.3: MUST drop", rlocs=(None,)),
    dropped("EID MAC (AFI 16389)", "9301 5: unrecognized AFI", "logged", raw=MAC, length=48),
)

@dataclasses.dataclass(frozen=True)
class Direct:
    """A Map-Request without the bit D, straight at a server. By default the ITR asks a Map-Server that allows it to."""
    name: str
    prefix: str
    want: str
    says: str
    server: str = "east"
    sender: str = ITR


DIRECT = (
    Direct("D clear, registered", SITE, "reply", "9301 8.3: forwards to an ETR"),
    Direct("D clear, prefix /24 of the mapping", "10.1.2.0/24", "reply", "9301 8.3 and 6.1"),
    Direct("D clear, not registered", "10.1.4.7", "negative 1", "9301 8.3: 1 minute"),
    Direct("D clear, no such site", "10.1.77.1", "negative 15", "9301 8.3: 15 minutes"),
    Direct("D clear, its ETR is the Map-Server", "10.1.6.1", "nothing", "it would go round in a circle"),
    Direct("D clear, from who isn't allowed", SITE, "nothing", "the settings", sender=ANOTHER),
    Direct("D clear, to a Map-Server without settings", "10.3.2.3", "nothing", "no settings allow it", "west"),
    Direct("D clear, to a DDT node", SITE, "nothing", "8111 7.1: it has DDT clients alone", "root"),
)
