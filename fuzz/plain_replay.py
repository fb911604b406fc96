"""A plain resolver and plain servers over lists: what `ddt replay`, `ddt lookup` and `ddt assign` are to print.

Written from the rules alone, for a reader, and shared with no crate of this repository. Prefixes and identifiers
are texts of digits, the register and the cache are searched from end to end, a free prefix is found by a trial of each
length, and a datagram is a tuple of Python. Registers are taken as accepted, and only scripts may be faulty.
"""
from __future__ import annotations

import collections
import csv
import dataclasses
import functools
import io
import re
import typing

# -- Texts ----------------------------------------------------------------------------------------------------------

# The digits of a prefix or of an identifier: 32 of the instance, the family's symbol, then those of the address.
Path = str
# An address as the program writes it.
Locator = str

WIDTHS = {"4": 32, "6": 128}
LARGEST_NUMBER = 2**32 - 1


def read_number(text: str, largest: int) -> int | None:
    if not re.fullmatch("0|[1-9][0-9]{0,19}", text):
        return None
    return int(text) if int(text) <= largest else None


def read_ipv4(text: str) -> int | None:
    octets = [read_number(part, 255) for part in text.split(".")]
    if len(octets) != 4 or None in octets:
        return None
    return int.from_bytes(bytes(octets), "big")


def read_groups(text: str) -> list[int] | None:
    parts = text.split(":") if text else []
    if not all(re.fullmatch("[0-9a-fA-F]{1,4}", part) for part in parts):
        return None
    return [int(part, 16) for part in parts]


def read_ipv6(text: str) -> int | None:
    head, gap, tail = text.partition("::")
    before, after = read_groups(head), read_groups(tail)
    if before is None or after is None:
        return None
    missing = 8 - len(before) - len(after)
    fits = missing >= 1 if gap else missing == 0
    if not fits:
        return None
    return functools.reduce(lambda number, group: number << 16 | group, before + [0] * missing + after)


def read_address(text: str) -> str | None:
    """The family's symbol and the digits of an address."""
    symbol, number = ("6", read_ipv6(text)) if ":" in text else ("4", read_ipv4(text))
    return None if number is None else f"{symbol}{number:0{WIDTHS[symbol]}b}"


def read_xeid(text: str) -> Path | None:
    match = re.fullmatch(r"\[([^]]*)\](.*)", text, re.DOTALL)
    if match is None:
        return None
    instance, address = read_number(match[1], LARGEST_NUMBER), read_address(match[2])
    return None if instance is None or address is None else f"{instance:032b}{address}"


def read_prefix(text: str) -> Path:
    """The digits of a prefix of an accepted register."""
    if text == "*":
        return ""
    inner, rest = text[1:].split("]")
    if rest == "*":
        instance, length = inner.split("/")
        return f"{int(instance):032b}"[: int(length)]
    address, length = rest.split("/")
    return f"{int(inner):032b}" + read_address(address)[: 1 + int(length)]


def write_ipv6(number: int) -> str:
    groups = [number >> shift & 0xFFFF for shift in range(112, -1, -16)]
    texts = [f"{group:x}" for group in groups]
    runs = [(end - at, -at) for at in range(8) for end in range(at + 2, 9) if not any(groups[at:end])]
    if not runs:
        return ":".join(texts)
    # The longest run of zero groups, and of equal runs the first.
    length, at = max(runs)
    return ":".join(texts[:-at]) + "::" + ":".join(texts[-at + length :])


def write_address(digits: str) -> str:
    number = int(digits[1:], 2)
    return write_ipv6(number) if digits[0] == "6" else ".".join(str(octet) for octet in number.to_bytes(4, "big"))


def write_xeid(xeid: Path) -> str:
    return f"[{int(xeid[:32], 2)}]{write_address(xeid[32:])}"


def write_prefix(prefix: Path) -> str:
    if prefix == "":
        return "*"
    instance = int(prefix[:32].ljust(32, "0"), 2)
    if len(prefix) <= 32:
        return f"[{instance}/{len(prefix)}]*"
    address = prefix[32:].ljust(1 + WIDTHS[prefix[32]], "0")
    return f"[{instance}]{write_address(address)}/{len(prefix) - 33}"


# -- The register and what its servers say --------------------------------------------------------------------------


class Zone(typing.NamedTuple):
    prefix: Path
    kind: str
    group: str


class Site(typing.NamedTuple):
    prefix: Path
    etrs: list[Locator]


class Register(typing.NamedTuple):
    zones: list[Zone]
    sites: list[Site]
    locators: dict[str, list[Locator]]


class Record(typing.NamedTuple):
    """A Map-Referral's record; the TTL in minutes."""

    action: str
    prefix: Path
    ttl: int
    servers: list[Locator]


COLUMNS = "kind,prefix,group,addresses\n"
REFERRALS = ("NODE-REFERRAL", "MS-REFERRAL")
NEGATIVES = {"DELEGATION-HOLE": "hole", "MS-NOT-REGISTERED": "not-registered"}
OUTCOMES = {"MS-ACK": "registered", **NEGATIVES}


def read_locators(text: str) -> list[Locator]:
    return [write_address(read_address(word)) for word in text.split()]


def read_register(text: str) -> Register:
    register = Register([], [], {})
    for row in csv.DictReader(io.StringIO(text)):
        if row["kind"] in ("node", "ms"):
            register.zones.append(Zone(read_prefix(row["prefix"]), row["kind"], row["group"]))
        elif row["kind"] == "site":
            register.sites.append(Site(read_prefix(row["prefix"]), read_locators(row["addresses"])))
        else:
            register.locators[row["group"]] = read_locators(row["addresses"])
    return register


def roots_of(register: Register) -> list[Locator]:
    return next(register.locators[zone.group] for zone in register.zones if zone.prefix == "")


def covers(prefix: Path, other: Path) -> bool:
    return other.startswith(prefix)


def overlap(one: Path, other: Path) -> bool:
    return covers(one, other) or covers(other, one)


def below(items: list, prefix: Path) -> list[Path]:
    """The prefixes of the items that lie strictly below this one."""
    return [item.prefix for item in items if covers(prefix, item.prefix) and item.prefix != prefix]


def longest(items: list, xeid: Path) -> typing.Any:
    """Of the items that cover the identifier the one of the longest prefix; None where none does."""
    covering = [item for item in items if covers(item.prefix, xeid)]
    return max(covering, key=lambda item: len(item.prefix), default=None)


def free(start: Path, taken: list[Path], xeid: Path) -> Path:
    """The shortest initial part of the identifier, from the start's length on, that overlaps nothing taken."""
    parts = (xeid[:length] for length in range(len(start), len(xeid) + 1))
    return next(part for part in parts if not any(overlap(part, other) for other in taken))


def assigned(register: Register, xeid: Path) -> Record:
    """What longest match over the register gives the identifier, as a record of the zone's own servers."""
    zone = longest(register.zones, xeid)
    if zone.kind == "node":
        return Record("DELEGATION-HOLE", free(zone.prefix, below(register.zones, zone.prefix), xeid), 15, [])
    servers = register.locators[zone.group]
    site = longest(register.sites, xeid)
    if site is None:
        inside = [site.prefix for site in register.sites if covers(zone.prefix, site.prefix)]
        return Record("DELEGATION-HOLE", free(zone.prefix, inside, xeid), 15, [])
    if site.etrs:
        return Record("MS-ACK", site.prefix, 1440, servers)
    return Record("MS-NOT-REGISTERED", free(site.prefix, below(register.sites, site.prefix), xeid), 1, servers)


def says(register: Register, locator: Locator, xeid: Path) -> Record:
    """What a server with this locator answers for the identifier."""
    served = [zone for zone in register.zones if locator in register.locators[zone.group]]
    authority = longest(served, xeid)
    if authority is None:
        return Record("NOT-AUTHORITATIVE", xeid, 0, [])
    longer = [zone for zone in register.zones if covers(zone.prefix, xeid) and len(zone.prefix) > len(authority.prefix)]
    if not longer:
        return assigned(register, xeid)
    child = min(longer, key=lambda zone: len(zone.prefix))
    return Record(f"{child.kind.upper()}-REFERRAL", child.prefix, 1440, register.locators[child.group])


def outcome_line(action: str, prefix: Path, servers: list[Locator]) -> str:
    return " ".join([OUTCOMES[action], write_prefix(prefix), *servers])


# -- The resolver and its schedule ----------------------------------------------------------------------------------

MOST_PENDING = 1024
MOST_ENTRIES = 65536
# This nonce is never sent.
LAST_NONCE = 2**64 - 1
LAST_MOMENT = 2**63 - 1
# Milliseconds from a request to its deadline, and in a minute.
PATIENCE = 2000
MINUTE = 60000


class Entry(typing.NamedTuple):
    """What the cache holds for a prefix, live while the time is below its end (a moment, in milliseconds)."""

    action: str
    servers: list[Locator]
    end: float


class Request(typing.NamedTuple):
    source: Locator
    to: Locator
    nonce: int
    xeid: Path


class Reply(typing.NamedTuple):
    source: Locator
    to: Locator
    nonce: int
    record: Record


@dataclasses.dataclass(eq=False)
class Lookup:
    """A pending lookup. Its ticket is the nonce of its first request, `nonce` that of its last one."""

    ticket: int
    xeid: Path
    # The prefix of the entry that this pass started at; None is the root.
    start: Path | None
    # The current set, the place in it, and whether the server there was tried before.
    servers: list[Locator]
    place: int = 0
    second_try: bool = False
    nonce: int = 0
    deadline: int = 0
    # The prefix of the last referral of this pass, and the last MS-NOT-REGISTERED of the current set.
    saved: Path | None = None
    kept: Record | None = None
    restarted: bool = False


class Step(typing.NamedTuple):
    """A line of a script: its word and its identifier or number."""

    word: str
    value: typing.Any = None


class Run:
    """A resolver, the servers of registers and all datagrams sent so far. Each step answers its line.

    The servers of the first register are in force until another is named.
    """

    def __init__(self, registers: list[Register], me: Locator, seed: int) -> None:
        self.registers = registers
        self.register = registers[0]
        self.me = me
        self.moment = 0
        self.time = 0
        self.next_nonce = seed
        self.root = Entry("NODE-REFERRAL", roots_of(self.register), float("inf"))
        self.entries: dict[Path, Entry] = {}
        self.pending: list[Lookup] = []
        self.sent: list[Request | Reply] = []
        self.met: collections.Counter[str] = collections.Counter()

    def step(self, step: Step) -> str:
        line = self.line_of(step)
        words = line.split()
        self.met[f"event: {step.word} {words[2] if words[0] == 'ticket' else words[0]}"] += 1
        return line

    def line_of(self, step: Step) -> str:
        if step.word == "ask":
            return self.ask(step.value)
        if step.word == "deliver":
            return self.deliver(step.value)
        if step.word == "replace":
            return self.replace(step.value)
        return self.wait(step.value) if step.word == "wait" else self.tick()

    def replace(self, number: int) -> str:
        if number >= len(self.registers):
            return "nothing"
        self.register = self.registers[number]
        return f"replaced {number}"

    def wait(self, milliseconds: int) -> str:
        self.moment = min(self.moment + milliseconds, LAST_MOMENT)
        return f"now {self.moment}"

    def deliver(self, number: int) -> str:
        if number >= len(self.sent):
            self.met["a datagram not sent yet"] += 1
            return "nothing"
        datagram = self.sent[number]
        if isinstance(datagram, Reply):
            return self.hear(datagram)
        if not any(datagram.to in locators for locators in self.register.locators.values()):
            return "silent"
        record = says(self.register, datagram.to, datagram.xeid)
        self.sent.append(Reply(datagram.to, datagram.source, datagram.nonce, record))
        return f"reply {len(self.sent) - 1}"

    def move_time(self) -> None:
        """The resolver's time follows the run's moment, and entries that have ended go."""
        self.time = max(self.time, self.moment)
        live = {prefix: entry for prefix, entry in self.entries.items() if self.time < entry.end}
        self.met["entry ended"] += len(self.entries) - len(live)
        self.entries = live

    def find(self, xeid: Path) -> tuple[Path | None, Entry]:
        """The longest entry that covers the identifier, and its prefix; else the root's, and None."""
        covering = [prefix for prefix in self.entries if covers(prefix, xeid)]
        if not covering:
            return None, self.root
        prefix = max(covering, key=len)
        return prefix, self.entries[prefix]

    def save(self, record: Record) -> None:
        """Keeps the record, but not where it couldn't be used, or where the cache is full."""
        is_negative = record.action in NEGATIVES
        if record.ttl == 0 or record.action == "NOT-AUTHORITATIVE":
            return
        if not is_negative and (record.prefix == "" or not record.servers):
            return
        if len(self.entries) >= MOST_ENTRIES and record.prefix not in self.entries:
            return
        minutes = min(record.ttl, 15 if is_negative else 1440)
        self.met["entry saved in place of another" if record.prefix in self.entries else "entry saved"] += 1
        self.entries[record.prefix] = Entry(record.action, record.servers, self.time + minutes * MINUTE)

    # What a lookup does next. Where a request is to be sent and no nonce is left, it ends and nothing is saved.

    def send(self, lookup: Lookup) -> str:
        to = lookup.servers[lookup.place]
        lookup.nonce = self.next_nonce
        lookup.deadline = self.time + PATIENCE
        self.next_nonce += 1
        self.sent.append(Request(self.me, to, lookup.nonce, lookup.xeid))
        return f"ticket {lookup.ticket} sent {len(self.sent) - 1} to {to}"

    def end(self, lookup: Lookup, record: Record) -> str:
        self.pending.remove(lookup)
        return f"ticket {lookup.ticket} answer {outcome_line(record.action, record.prefix, record.servers)}"

    def give_up(self, lookup: Lookup, why: str) -> str:
        self.met[f"gave-up {why}"] += 1
        self.pending.remove(lookup)
        return f"ticket {lookup.ticket} gave-up {why}"

    def ask(self, xeid: Path) -> str:
        self.move_time()
        prefix, entry = self.find(xeid)
        if entry.action in NEGATIVES:
            self.met[f"from the cache: {entry.action}"] += 1
            return "answer " + outcome_line(entry.action, prefix, entry.servers)
        if len(self.pending) >= MOST_PENDING:
            self.met["refused TooMany"] += 1
            return "refused TooMany"
        if self.next_nonce == LAST_NONCE:
            self.met["refused Exhausted"] += 1
            return "refused Exhausted"
        self.met[f"started at: {'the root' if prefix is None else entry.action}"] += 1
        lookup = Lookup(self.next_nonce, xeid, prefix, entry.servers)
        self.pending.append(lookup)
        return self.send(lookup)

    def hear(self, reply: Reply) -> str:
        self.move_time()
        lookup = next((lookup for lookup in self.pending if lookup.nonce == reply.nonce), None)
        ignored = self.why_ignored(lookup, reply)
        if ignored is not None:
            self.met[f"ignored {ignored}"] += 1
            return f"ignored {ignored}"
        self.met[f"heard: {reply.record.action}"] += 1
        if reply.record.action in REFERRALS:
            return self.follow(lookup, reply.record)
        if reply.record.action == "MS-NOT-REGISTERED":
            return self.go_on(lookup, reply.record)
        if reply.record.action == "NOT-AUTHORITATIVE":
            return self.start_over(lookup)
        self.save(reply.record)
        return self.end(lookup, reply.record)

    def why_ignored(self, lookup: Lookup | None, reply: Reply) -> str | None:
        """The tests of a reply in their order. A tuple is always readable, so Undecodable isn't among them."""
        record = reply.record
        if lookup is None:
            return "UnknownNonce"
        if reply.source != lookup.servers[lookup.place]:
            return "WrongSource"
        if self.time >= lookup.deadline:
            return "Late"
        if record.action != "NOT-AUTHORITATIVE" and not covers(record.prefix, lookup.xeid):
            return "NotCovering"
        if record.action in REFERRALS and not record.servers:
            return "NoServers"
        return None

    def follow(self, lookup: Lookup, record: Record) -> str:
        if lookup.saved is not None and len(record.prefix) <= len(lookup.saved):
            return self.give_up(lookup, "Loop")
        if self.next_nonce == LAST_NONCE:
            return self.give_up(lookup, "Exhausted")
        self.save(record)
        lookup.saved, lookup.kept = record.prefix, None
        lookup.servers, lookup.place, lookup.second_try = record.servers, 0, False
        return self.send(lookup)

    def go_on(self, lookup: Lookup, record: Record) -> str:
        """After MS-NOT-REGISTERED the next server is asked; the last one's record is the answer."""
        if lookup.place + 1 == len(lookup.servers):
            self.save(record)
            return self.end(lookup, record)
        if self.next_nonce == LAST_NONCE:
            return self.give_up(lookup, "Exhausted")
        self.met["next locator after MS-NOT-REGISTERED"] += 1
        lookup.kept = record
        lookup.place, lookup.second_try = lookup.place + 1, False
        return self.send(lookup)

    def start_over(self, lookup: Lookup) -> str:
        """After NOT-AUTHORITATIVE the entry that the pass started at goes, and the root is asked, once."""
        if lookup.start is None or lookup.restarted:
            return self.give_up(lookup, "NotAuthoritative")
        if self.next_nonce == LAST_NONCE:
            return self.give_up(lookup, "Exhausted")
        self.entries.pop(lookup.start, None)
        lookup.start, lookup.restarted = None, True
        lookup.saved, lookup.kept = None, None
        lookup.servers, lookup.place, lookup.second_try = self.root.servers, 0, False
        return self.send(lookup)

    def tick(self) -> str:
        self.move_time()
        due = [lookup for lookup in self.pending if lookup.deadline <= self.time]
        if not due:
            self.met["tick with nothing due"] += 1
            return "nothing"
        lookup = min(due, key=lambda lookup: lookup.nonce)
        if lookup.second_try and lookup.place + 1 == len(lookup.servers):
            return self.close(lookup)
        if self.next_nonce == LAST_NONCE:
            return self.give_up(lookup, "Exhausted")
        if lookup.second_try:
            self.met["next locator after two tries"] += 1
            lookup.place, lookup.second_try = lookup.place + 1, False
        else:
            self.met["second try"] += 1
            lookup.second_try = True
        return self.send(lookup)

    def close(self, lookup: Lookup) -> str:
        """Every server of the set was tried twice: the kept record is the answer, and nothing is saved."""
        if lookup.kept is None:
            return self.give_up(lookup, "NoReply")
        self.met["kept record answered by a tick"] += 1
        return self.end(lookup, lookup.kept)


# -- What the commands print ----------------------------------------------------------------------------------------


class Printed(typing.NamedTuple):
    output: str
    refusal: str
    status: int


class Words(typing.NamedTuple):
    """The options of a command; None where one isn't given."""

    me: Locator | None = None
    seed: int | None = None

    def options(self) -> list[str]:
        me = [] if self.me is None else ["--me", self.me]
        return me + ([] if self.seed is None else ["--seed", str(self.seed)])

    def run(self, *registers: Register) -> Run:
        return Run(list(registers), self.me or "127.0.0.53", 1 if self.seed is None else self.seed)


def read_step(line: str) -> Step | None:
    word, _, value = line.partition(" ")
    if line == "tick":
        return Step("tick")
    if word == "ask":
        xeid = read_xeid(value)
        return None if xeid is None else Step(word, xeid)
    number = read_number(value, LARGEST_NUMBER) if word in ("deliver", "wait", "replace") else None
    return None if number is None else Step(word, number)


def printed_replay(
    registers: dict[str, Register], words: Words, script: bytes
) -> tuple[Printed, collections.Counter[str]]:
    """What `ddt replay` is to print over registers by their paths, the first one first, and how often what was met.

    An empty line of a script has no number.
    """
    lines = [line for line in script.decode("latin-1").split("\n") if line]
    steps = [read_step(line) for line in lines]
    if None in steps:
        met = collections.Counter({"script refused": 1})
        return Printed("", f"script refused line {steps.index(None) + 1}\n", 1), met
    roots = [roots_of(register) for register in registers.values()]
    for path, own in zip(registers, roots):
        if own != roots[0]:
            return Printed("", f"other root locators {path}\n", 1), collections.Counter({"other root locators": 1})
    run = words.run(*registers.values())
    output = "".join(run.step(step) + "\n" for step in steps)
    run.met["steps"] += len(steps)
    return Printed(output, "", 0), run.met


def hop_lines(run: Run, xeid: Path) -> list[str]:
    """The lines of a lookup whose requests are answered at once: a line for each hop, then how it ended."""
    hops = []
    line = run.step(Step("ask", xeid))
    while " sent " in line:
        run.step(Step("deliver", len(run.sent) - 1))
        reply = run.sent[-1]
        action, prefix, ttl, servers = reply.record
        hops.append(" ".join([reply.source, action, write_prefix(prefix), str(ttl), *servers]))
        line = run.step(Step("deliver", len(run.sent) - 1))
    if " gave-up " in line or line == "refused Exhausted":
        return [f"gave-up {line.split()[-1]}"]
    return hops + [line.split("answer ")[1]]


def printed_lookup(register: Register, words: Words, xeids: list[Path]) -> Printed:
    """What `ddt lookup` is to print: all identifiers go through one resolver."""
    run = words.run(register)
    lines = [line for xeid in xeids for line in hop_lines(run, xeid)]
    gave_up = any(line.startswith("gave-up") for line in lines)
    return Printed("".join(line + "\n" for line in lines), "", 1 if gave_up else 0)


def printed_assign(register: Register, xeid: Path) -> Printed:
    record = assigned(register, xeid)
    return Printed(outcome_line(record.action, record.prefix, record.servers) + "\n", "", 0)
