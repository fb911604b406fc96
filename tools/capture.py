#!/usr/bin/env python3
"""Shows the packets between a resolver and running servers, by tshark: tools/capture.py [--itr] PROGRAM [XEID..]

PROGRAM is the launcher or the program itself. tshark captures what goes over the loopback at UDP port 4342.

Without identifiers the servers of examples/campus.csv run as `PROGRAM serve`, and from 127.0.0.53 each is asked for a
few. Prints the lines of each LISP message that tshark finds there.

With identifiers `PROGRAM loop` looks these up over the same register. Prints its lines, and then a line for each
packet: from where to where it went, and what `PROGRAM show` says of it.

With --itr it looks up [1]10.0.0.1 as well: its instance has a server at the broadcast address 127.255.255.255, to which
the system lets nothing be sent, so the run takes four seconds. After one of them an ITR, port 50000 of 127.0.0.60, asks
the resolver for [0]11.0.0.2, which lies in a hole.

At the end stands `N passed, M failed`: a packet passes if tshark finds nothing malformed in it, a request if it was
answered by one packet, that of the ITR if this is the negative Map-Reply that plain code makes.

Sends to 127.0.0.0/8 alone, and ends within two minutes. Wants tshark (Debian: tshark) and the right to capture.
"""
from __future__ import annotations

import collections
import contextlib
import os
import pathlib
import select
import shutil
import subprocess
import sys
import tempfile
import time
import typing

# The plain code of the oracles is taken from their folder, and no compiled copies of it are left there.
sys.path.append(str(pathlib.Path(__file__).resolve().parent.parent / "fuzz"))
sys.dont_write_bytecode = True

import mutated_at_resolver  # noqa: E402
import mutated_requests  # noqa: E402
import plain_replay  # noqa: E402
import plain_wire  # noqa: E402

XEIDS = ("[0]10.1.2.3", "[0]10.1.4.7", "[0]10.1.3.9", "[0]10.2.0.1", "[0]11.0.0.1", "[0]2001:db8::1", "[7]10.0.0.1")
# What the ITR asks for, and its nonce. The run goes on as long as the lookup of an identifier that no server answers.
IN_A_HOLE, ITR_NONCE = "[0]11.0.0.2", bytes.fromhex("1122334455667788")
UNANSWERED, UNREACHED = "[1]10.0.0.1", "group-node,,away,127.255.255.255\nnode,[1/32]*,away,\n"
SHOWN = ("Frame ", "Internet Protocol", "Nonce", "Mapping Record", "Locator Record", "Malformed", "Encapsulated")


class Packet(typing.NamedTuple):
    """A packet's addresses, and what its UDP datagram holds."""

    source: str
    to: str
    data: bytes


class Count(typing.NamedTuple):
    """How many requests were sent, and how many of them were answered by just one packet."""

    asked: int
    answered: int


@contextlib.contextmanager
def running(words: list[str], **streams: typing.Any) -> typing.Iterator[subprocess.Popen]:
    process = subprocess.Popen(words, **streams)
    try:
        yield process
    finally:
        process.terminate()
        process.wait()


@contextlib.contextmanager
def capturing(packets: pathlib.Path) -> typing.Iterator[None]:
    """While what goes over the loopback is written into this file."""
    capture = ["tshark", "-q", "-i", "lo", "-f", "udp port 4342", "-a", "duration:50", "-w", str(packets)]
    with running(capture, stderr=subprocess.DEVNULL) as process:
        # tshark opens the file once it captures.
        deadline = time.monotonic() + 60
        while not packets.exists():
            if process.poll() is not None or time.monotonic() > deadline:
                sys.exit("tshark does not capture")
            time.sleep(0.1)
        time.sleep(1)
        yield
        time.sleep(2)


def dissected(packets: pathlib.Path, *words: str) -> list[str]:
    read = ["tshark", "-r", str(packets), *words]
    return subprocess.run(read, capture_output=True, text=True, check=True).stdout.splitlines()


# -- Servers that are asked -----------------------------------------------------------------------------------------


def served(stack: contextlib.ExitStack, program: str, folder: pathlib.Path) -> list[str]:
    """Starts a server of each group, and gives their addresses."""
    register = plain_replay.read_register(mutated_requests.CAMPUS.read_text())
    addresses = [locators[0] for locators in register.locators.values()]
    for group, address in zip(register.locators, addresses):
        config = folder / f"{group}.toml"
        with config.open("wb") as out:
            subprocess.run([program, "compile", str(mutated_requests.CAMPUS), group], stdout=out, check=True)
        serve = [program, "serve", str(config), address, "12000"]
        stack.enter_context(running(serve, stdout=subprocess.DEVNULL))
    return addresses


def answered(addresses: list[str]) -> Count:
    """Asks each server for each identifier."""
    resolver = mutated_requests.bound(plain_wire.RESOLVER)
    count = 0
    for address in addresses:
        for text in XEIDS:
            request = plain_wire.written_request(count + 1, plain_replay.read_xeid(text))
            resolver.sendto(request, (address, plain_wire.PORT))
            if select.select([resolver], [], [], 1)[0]:
                count += len(mutated_requests.taken(resolver)) == 1
    return Count(len(addresses) * len(XEIDS), count)


def of_servers(program: str, packets: pathlib.Path) -> Count:
    """Captures what servers are asked, and prints what tshark reads in it."""
    with contextlib.ExitStack() as stack:
        addresses = served(stack, program, packets.parent)
        stack.enter_context(capturing(packets))
        count = answered(addresses)
    for line in dissected(packets, "-V", "-O", "lisp"):
        if line.lstrip().startswith(SHOWN):
            print(line)
    return count


# -- The servers of a register and a resolver -----------------------------------------------------------------------


def packets_in(packets: pathlib.Path) -> list[Packet]:
    """All packets in their order; of a packet within a packet the outer one."""
    fields = [word for name in ("ip.src", "ip.dst", "udp.payload") for word in ("-e", name)]
    lines = dissected(packets, "-T", "fields", "-E", "occurrence=f", *fields)
    parts = [line.split("\t") for line in lines]
    return [Packet(source, to, bytes.fromhex(data.replace(":", ""))) for source, to, data in parts]


def matched(packets: list[Packet]) -> Count:
    """Of the resolver's requests those to which the asked server sent one reply with the request's nonce."""
    replies = collections.Counter((p.source, p.data[4:12]) for p in packets if p.to == plain_wire.RESOLVER)
    requests = [(p.to, plain_wire.read_request(p.data)) for p in packets if p.source == plain_wire.RESOLVER]
    asked = [(to, request.nonce) for to, request in requests if request]
    return Count(len(asked), sum(replies[each] == 1 for each in asked))


def print_lines(lines: str) -> None:
    """Prints what `loop` printed."""
    if not lines:
        sys.exit("loop did not run")
    print(lines, end="")


def print_packets(program: str, packets: list[Packet]) -> None:
    """Prints a line for each packet."""
    for packet in packets:
        show = [program, "show", packet.data.hex()]
        said = subprocess.run(show, capture_output=True, text=True, check=True).stdout.rstrip("\n")
        print(f"{packet.source} > {packet.to} {said}")


def of_loop(program: str, packets: pathlib.Path, xeids: list[str]) -> Count:
    """Captures what `PROGRAM loop` sends, and prints its lines and a line for each packet."""
    with capturing(packets):
        loop = [program, "loop", str(mutated_requests.CAMPUS), *xeids]
        print_lines(subprocess.run(loop, stdout=subprocess.PIPE, text=True, check=False).stdout)
    found = packets_in(packets)
    print_packets(program, found)
    return matched(found)


# -- An ITR beside them ---------------------------------------------------------------------------------------------


def answered_to_itr(words: list[str], request: bytes) -> list[bytes]:
    """Runs `loop` by these words, prints its lines, and sends its resolver the ITR's request: what the ITR gets."""
    with mutated_at_resolver.bound(mutated_at_resolver.ITR, mutated_at_resolver.ITR_PORT) as itr:
        with running(words, stdout=subprocess.PIPE, text=True) as process:
            mutated_at_resolver.wait_for_resolver(process)
            time.sleep(1)
            itr.sendto(request, (plain_wire.RESOLVER, plain_wire.PORT))
            print_lines(process.communicate()[0])
        return mutated_requests.taken(itr)


def of_itr(program: str, packets: pathlib.Path, xeids: list[str]) -> Count:
    """The same over a register with an instance that no server answers, while an ITR asks the resolver."""
    text = mutated_requests.CAMPUS.read_text() + UNREACHED
    register = packets.with_name("register.csv")
    register.write_text(text)
    request = mutated_at_resolver.itr_request(ITR_NONCE, plain_replay.read_xeid(IN_A_HOLE))
    with capturing(packets):
        replies = answered_to_itr([program, "loop", str(register), *xeids, UNANSWERED], request)
    found = packets_in(packets)
    print_packets(program, found)
    count = matched(found)
    wanted = mutated_at_resolver.wanted_reply(plain_replay.read_register(text), request)
    return Count(count.asked + 1, count.answered + (replies == [wanted]))


def captured(words: list[str], packets: pathlib.Path) -> Count:
    """Captures what the words ask for."""
    with_itr = words[0] == "--itr"
    program, *xeids = words[1:] if with_itr else words
    program = os.path.realpath(program)
    if with_itr:
        return of_itr(program, packets, xeids)
    return of_loop(program, packets, xeids) if xeids else of_servers(program, packets)


def main(words: list[str]) -> int:
    if not words or words == ["--itr"]:
        sys.exit(__doc__)
    if not shutil.which("tshark"):
        sys.exit("capture.py: it wants tshark (Debian: tshark)")
    with tempfile.TemporaryDirectory() as name:
        packets = pathlib.Path(name) / "packets"
        count = captured(words, packets)
        all_packets, bad = len(dissected(packets)), len(dissected(packets, "-Y", "_ws.malformed"))
    failed = bad + count.asked - count.answered
    print(f"{all_packets - bad + count.answered} passed, {failed} failed")
    return 1 if failed or not count.asked or all_packets < 2 * count.asked else 0


if __name__ == "__main__":
    sys.exit(main(sys.argv[1:]))
