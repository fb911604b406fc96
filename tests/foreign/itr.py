"""An ITR that asks as openoverlayrouter's xTR does, and judges what it gets."""
import ipaddress
import random
import select
import time
import typing

import apart
import expected
import lisp
from reasons import Reasons, holds
from players import title
from reading import read
from tree import ABSENT, NAMES, REGISTERED, V4, V6


class Question(typing.NamedTuple):
    """What is asked for a column of the table: an identifier, or a prefix of one."""
    column: str
    instance: int
    prefix: ipaddress.IPv4Network | ipaddress.IPv6Network

    @property
    def eid(self):
        return self.prefix.network_address


QUESTIONS = tuple(Question(column, instance, ipaddress.ip_network(text)) for column, instance, text in (
    ("ipv4", 0, "10.1.2.3"), ("ipv6", 0, "2001:db8:a:1::5"), ("instance", 7, "10.1.2.3"), ("absent", 0, "10.1.4.7"),
    ("hole-ms", 0, "10.1.77.1"), ("hole-root", 0, "11.0.0.1"), ("hole-node", 0, "10.2.0.1")))
OF_MAP_SERVER = QUESTIONS[:5]
FOR_PREFIX = (Question("smr", 0, ipaddress.ip_network("10.1.2.0/24")),)


class Itr:
    def __init__(self, net, players):
        self.net, self.players, self.reasons = net, players, Reasons(players)
        self.server = V4["ms" if players.who["resolver"] == "-" else "resolver"]
        with apart.Within(net.name("itr")):
            # openoverlayrouter's resolver makes 4342 of the inner source port.
            self.socket = apart.bound(V4["itr"])

    def request(self, nonce, question):
        """The bit s, SMR-invoked, is set where it is for a prefix."""
        eid, length = question.eid, question.prefix.prefixlen
        source = lisp.plain("10.1.3.3" if eid.version == 4 else None)
        bits = (0x10, 0 if length == eid.max_prefixlen else 0x40, 0)
        message = lisp.map_request(nonce, lisp.eid_of(question.instance, eid), length, [V4["itr"]], source_eid=source,
                                   bits=bits)
        mine = V4["itr"] if eid.version == 4 else V6["itr"]
        return lisp.encapsulated(lisp.packet(mine, eid, message))

    def ask(self, questions, patience):
        """Asks all at once, as often as it takes, and returns a cell for each column."""
        pending, cells, tried, start = {random.getrandbits(64): one for one in questions}, {}, 0, time.time()
        while pending and time.time() < start + min(patience, self.most_seconds(pending.values())):
            if time.time() >= start + 1.5 * tried:
                tried += 1
                self.send(self.request(*one) for one in pending.items())
            said, host = self.hear()
            if said and said["nonce"] in pending:
                question = pending.pop(said["nonce"])
                cells[question.column] = self.judge(question, said, start, host)
        for question in pending.values():
            cells[question.column] = self.reasons.of(question, self.trail(question, start))
        return cells

    def most_seconds(self, questions):
        """How long these are waited for, since some are expected to get no reply."""
        return 13 if any(expected.cell(self.players.row, one.column) is None for one in questions) else 5

    def trail(self, question, start):
        return self.net.trail(start, question.instance, question.eid)

    def send(self, messages):
        self.players.revive()
        for message in messages:
            self.socket.sendto(message, (self.server, lisp.PORT))
            time.sleep(0.05)

    def hear(self):
        """(a Map-Reply, who sent it), or None where none came."""
        if not select.select([self.socket], [], [], 0.1)[0]:
            return None, None
        data, where = self.socket.recvfrom(65535)
        said = read(data)
        return said if said and said["kind"] == lisp.REPLY else None, NAMES.get(where[0], where[0])

    def judge(self, question, said, start, host):
        """The cell for a Map-Reply of the ITR's nonce, from this host."""
        record = (said["records"] or [None])[0]
        wrong = fault(question, record)
        if not wrong and self.players.full(host) == "Kihyamut":
            wrong = fault_of_ours(question, record)
        if not wrong:
            return {"mark": "ok", "prefix": str(record["prefix"]), "action": record["action"], "ttl": record["ttl"],
                    "locators": [str(one) for one in record["locators"]]}
        reason = self.reasons.blame(question, self.trail(question, start))
        if reason and reason["mark"] == "FAILS":
            return {"mark": "FAILS", "why": f"{reason['why']}; then the ITR gets {wrong}"}
        if self.players.full(host) == "OOR":
            return {"mark": "oor", "why": f"OOR's {title(host)} sends {wrong}"}
        return reason or {"mark": "FAILS", "why": f"{wrong}, from {host}"}


def fault_of_ours(question, record):
    """What else is wrong with a negative Map-Reply of Kihyamut's, or None (RFC 8111, section 7.3.2; RFC 9301, 8.3)."""
    minutes = 1 if question.column == "absent" else 15
    if record["locators"] or (record["action"], record["ttl"]) == (1, minutes):
        return None
    return f"a negative Map-Reply with ACT {record['action']} and TTL {record['ttl']}, not 1 and {minutes}"


def fault(question, record):
    """What is wrong with a Map-Reply, or None."""
    column, instance, eid = question.column, question.instance, question.eid
    if not record or not holds(record, instance, eid):
        return f"a Map-Reply whose prefix doesn't hold the identifier ({record and record['prefix']} for {eid})"
    prefix = record["prefix"]
    if column not in ABSENT:
        return None if record["locators"] else "a negative Map-Reply for a registered site"
    if record["locators"]:
        return "a Map-Reply with locators where there is no site"
    sites = [site for there, site in REGISTERED if there == instance and site.version == prefix.version]
    if any(site.overlaps(prefix) for site in sites):
        return f"a negative Map-Reply whose prefix {prefix} holds a registered site"
    return None
