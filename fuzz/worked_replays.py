"""Worked scripts, lookups and texts, on which plain_replay.py is tested before it judges the program."""
from __future__ import annotations

import pathlib
import typing

from plain_replay import (
    LAST_NONCE,
    MOST_PENDING,
    Printed,
    Record,
    Reply,
    Run,
    Step,
    Words,
    printed_lookup,
    printed_replay,
    read_address,
    read_prefix,
    read_register,
    read_xeid,
    write_address,
    write_prefix,
)

EXAMPLES = pathlib.Path(__file__).resolve().parent.parent / "examples"
ROOT_ALONE = (EXAMPLES / "lone_root.csv").read_text()
CAMPUS = (EXAMPLES / "campus.csv").read_text()
NESTED_SITES = (EXAMPLES / "nested_sites.csv").read_text()
SHARED_GROUP = (EXAMPLES / "shared_group.csv").read_text()
CAMPUS_GROWN = (EXAMPLES / "campus_grown.csv").read_text()
WIDER_ZONE = (EXAMPLES / "wider_zone.csv").read_text()


class Worked(typing.NamedTuple):
    name: str
    register: str
    # Each line of the script with the line that it prints.
    lines: list[tuple[str, str]]
    seed: int = 1
    # Registers that may replace the first one.
    further: tuple[str, ...] = ()


def example(name: str) -> list[tuple[str, str]]:
    """The lines of a replay of examples/replays, which has no empty ones, each with the line that it prints."""
    script, printed = (EXAMPLES / "replays" / f"{name}.{kind}" for kind in ("replay", "lines"))
    return list(zip(script.read_text().splitlines(), printed.read_text().splitlines(), strict=True))


SERVERS = "127.0.1.1 127.0.1.2"
NOT_REGISTERED = f"not-registered [0]10.1.4.0/24 {SERVERS}"

WORKED_SCRIPTS = [
    Worked("a hole is answered from the cache until its fifteenth minute", CAMPUS, example("hole_ends")),
    Worked("a zone comes and goes", CAMPUS, example("zone_comes_and_goes"), further=(CAMPUS_GROWN,)),
    Worked("a zone gets wider", CAMPUS, example("zone_gets_wider"), further=(WIDER_ZONE,)),
    Worked("two lookups, a repeated reply, a late one and a second try", CAMPUS, example("interleaved")),
    Worked(
        "the only server is tried twice",
        ROOT_ALONE,
        [
            ("ask [0]1.1.1.1", "ticket 1 sent 0 to 127.0.0.1"),
            ("wait 2000", "now 2000"),
            ("tick", "ticket 1 sent 1 to 127.0.0.1"),
            ("wait 2000", "now 4000"),
            ("tick", "ticket 1 gave-up NoReply"),
        ],
    ),
    Worked(
        "a kept record is answered by a tick and not saved",
        CAMPUS,
        [
            ("ask [0]10.1.4.7", "ticket 1 sent 0 to 127.0.0.1"),
            ("deliver 0", "reply 1"),
            ("deliver 1", "ticket 1 sent 2 to 127.0.0.10"),
            ("deliver 2", "reply 3"),
            ("deliver 3", "ticket 1 sent 4 to 127.0.1.1"),
            ("deliver 4", "reply 5"),
            ("deliver 5", "ticket 1 sent 6 to 127.0.1.2"),
            ("wait 2000", "now 2000"),
            ("tick", "ticket 1 sent 7 to 127.0.1.2"),
            ("wait 2000", "now 4000"),
            ("tick", f"ticket 1 answer {NOT_REGISTERED}"),
            ("ask [0]10.1.4.7", "ticket 6 sent 8 to 127.0.1.1"),
        ],
    ),
    Worked(
        "the 1,025th pending lookup is refused",
        ROOT_ALONE,
        [("ask [0]1.1.1.1", f"ticket {n + 1} sent {n} to 127.0.0.1") for n in range(MOST_PENDING)]
        + [("ask [0]1.1.1.1", "refused TooMany")],
    ),
    Worked(
        "the last nonce is never sent",
        CAMPUS,
        [
            ("ask [0]10.2.0.1", f"ticket {LAST_NONCE - 1} sent 0 to 127.0.0.1"),
            ("deliver 0", "reply 1"),
            ("deliver 1", f"ticket {LAST_NONCE - 1} gave-up Exhausted"),
            ("ask [0]10.2.0.1", "refused Exhausted"),
        ],
        LAST_NONCE - 1,
    ),
    Worked("no nonce is left", ROOT_ALONE, [("ask [0]1.1.1.1", "refused Exhausted")], LAST_NONCE),
]


def test_scripts() -> None:
    for worked in WORKED_SCRIPTS:
        script = "".join(line + "\n" for line, _ in worked.lines).encode()
        registers = {str(at): read_register(text) for at, text in enumerate([worked.register, *worked.further])}
        printed, _ = printed_replay(registers, Words(seed=worked.seed), script)
        wanted = [line for _, line in worked.lines]
        assert printed.output.splitlines() == wanted, (worked.name, printed.output)


# Scripts whose second line is none; an empty line has no number.
REFUSED = [
    b"ask [0]1.1.1.1\ndeliver x\n",
    b"\ntick\n\n\ntick \ntick",
    b"tick\nwait 4294967296",
    b"tick\nwait 01\ndeliver\n",
]


def test_refusals() -> None:
    for script in REFUSED:
        printed, _ = printed_replay({"-": read_register(ROOT_ALONE)}, Words(), script)
        assert printed == Printed("", "script refused line 2\n", 1), (script, printed)
    printed, _ = printed_replay({"-": read_register(ROOT_ALONE)}, Words(), b"\ntick\n\ndeliver 4294967295")
    assert printed == Printed("nothing\nnothing\n", "", 0), printed


# The register, the identifiers of one `ddt lookup`, and its last lines.
LOOKUPS = [
    (CAMPUS, ["[0]10.1.2.3"], ["registered [0]10.1.2.0/24 127.0.1.1 127.0.1.2"]),
    (CAMPUS, ["[0]11.0.0.1"], ["127.0.0.1 DELEGATION-HOLE [0]11.0.0.0/8 15", "hole [0]11.0.0.0/8"]),
    (CAMPUS, ["[1]10.1.2.3"], ["hole [1/32]*"]),
    (CAMPUS, ["[2147483648]10.0.0.1"], ["hole [2147483648/1]*"]),
    (CAMPUS, ["[0]2001:db8::1"], ["hole [0]::/0"]),
    (CAMPUS, ["[0]10.1.3.9"], ["127.0.1.1 DELEGATION-HOLE [0]10.1.3.0/24 15", "hole [0]10.1.3.0/24"]),
    (CAMPUS, ["[0]10.1.4.7"], ["not-registered [0]10.1.4.0/24 127.0.1.1 127.0.1.2"]),
    (ROOT_ALONE, ["[7]::", "[0]1.1.1.1"], ["127.0.0.1 DELEGATION-HOLE * 15", "hole *", "hole *"]),
    (SHARED_GROUP, ["[0]10.1.2.3"], ["127.0.0.1 DELEGATION-HOLE [0]10.1.0.0/16 15", "hole [0]10.1.0.0/16"]),
    (
        NESTED_SITES,
        ["[0]10.1.4.7", "[0]10.1.4.200"],
        [
            "not-registered [0]10.1.4.0/25 127.0.1.1 127.0.1.2",
            "127.0.1.1 MS-ACK [0]10.1.4.128/25 1440 127.0.1.1 127.0.1.2",
            "registered [0]10.1.4.128/25 127.0.1.1 127.0.1.2",
        ],
    ),
    (NESTED_SITES, ["[0]10.1.2.3", "[0]10.1.2.70"], ["not-registered [0]10.1.2.64/26 127.0.1.1 127.0.1.2"]),
]


def test_lookups() -> None:
    for register, xeids, wanted in LOOKUPS:
        printed = printed_lookup(read_register(register), Words(), [read_xeid(xeid) for xeid in xeids])
        assert printed.output.splitlines()[-len(wanted) :] == wanted, (xeids, printed.output)


# Servers of one register never give cause for these: a source, a record, and the line that the lookup then prints.
FORGED = [
    ("127.0.0.10", ("NODE-REFERRAL", "[0]10.0.0.0/8", ["127.0.0.9"]), "ticket 1 gave-up Loop"),
    ("127.0.0.11", ("DELEGATION-HOLE", "[0]10.0.0.0/8", []), "ignored WrongSource"),
    ("127.0.0.10", ("DELEGATION-HOLE", "[0]11.0.0.0/8", []), "ignored NotCovering"),
    ("127.0.0.10", ("MS-REFERRAL", "[0]10.1.0.0/16", []), "ignored NoServers"),
    ("127.0.0.10", ("MS-ACK", "[0]10.1.2.0/24", []), "ticket 1 answer registered [0]10.1.2.0/24"),
    ("127.0.0.10", ("NOT-AUTHORITATIVE", "[0]10.1.2.3/32", []), "ticket 1 gave-up NotAuthoritative"),
]


def test_forged_replies() -> None:
    for source, (action, prefix, servers), wanted in FORGED:
        run = Run([read_register(CAMPUS)], "127.0.0.53", 1)
        for step in (Step("ask", read_xeid("[0]10.1.2.3")), Step("deliver", 0), Step("deliver", 1)):
            run.step(step)
        run.sent.append(Reply(source, run.me, 2, Record(action, read_prefix(prefix), 1440, servers)))
        line = run.step(Step("deliver", 3))
        assert line == wanted, (source, action, line)
        assert list(run.entries) == [read_prefix("[0]10.0.0.0/8")], (action, run.entries)


def test_one_restart() -> None:
    run = Run([read_register(CAMPUS)], "127.0.0.53", 1)
    run.save(Record("NODE-REFERRAL", read_prefix("[0]10.0.0.0/8"), 1440, ["127.0.0.10"]))
    xeid = read_xeid("[0]10.1.2.3")
    not_authoritative = Record("NOT-AUTHORITATIVE", xeid, 0, [])
    assert run.step(Step("ask", xeid)) == "ticket 1 sent 0 to 127.0.0.10"
    run.sent.append(Reply("127.0.0.10", run.me, 1, not_authoritative))
    assert run.step(Step("deliver", 1)) == "ticket 1 sent 2 to 127.0.0.1" and not run.entries
    run.sent.append(Reply("127.0.0.1", run.me, 2, not_authoritative))
    assert run.step(Step("deliver", 3)) == "ticket 1 gave-up NotAuthoritative"


# Each text of an address with the one that is written.
ADDRESSES = {
    "2001:DB8:0:0:1:0:0:1": "2001:db8::1:0:0:1",
    "2001:db8:0:1:1:1:1:1": "2001:db8:0:1:1:1:1:1",
    "0:0:1::": "0:0:1::",
    "1:2:3:4:5:6:7::": "1:2:3:4:5:6:7:0",
    "::": "::",
    "::ffff:7f00:1": "::ffff:7f00:1",
}
FAULTY_ADDRESSES = ["1:2:3:4:5:6:7", "1::2::3", ":::", "1:2:3:4:5:6:7:8::", "::12345", "::1.2.3.4", "1.2.3", "01.2.3.4"]


def test_texts() -> None:
    for text, wanted in ADDRESSES.items():
        assert write_address(read_address(text)) == wanted, text
    for text in FAULTY_ADDRESSES:
        assert read_address(text) is None, text
    for text in ["*", "[16/28]*", "[0]0.0.0.0/0", "[0]::/0", "[7]10.0.0.0/8", "[7]2001:db8::/32"]:
        assert write_prefix(read_prefix(text)) == text, text


def test_rows() -> None:
    """The plain resolver on its own: worked scripts, lookups and texts."""
    for test in (test_texts, test_scripts, test_refusals, test_lookups, test_forged_replies, test_one_restart):
        test()
    print(f"{len(WORKED_SCRIPTS)} worked scripts and {len(LOOKUPS)} worked lookups are as they must be", flush=True)
