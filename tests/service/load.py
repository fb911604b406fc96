"""An ITR that asks a Map-Resolver at a rate, repeats what isn't answered, and judges what it is told by a register.

usage: load.py --register REGISTER --resolver ADDRESS --mine ADDRESS [OPTION..] NAME:RATE:FILE..

FILE has an identifier of instance 0 on each line, and RATE of them are asked for in a second. What all options mean is
said by --help. Of each NAME a line says how many were never answered, how many were told what the register doesn't
assign, and whether the bounds held. The measures go to standard error.
"""
import argparse
import gc
import heapq
import ipaddress
import random
import select
import socket
import statistics
import sys
import time

import oracle
import packets


class Question:
    """An identifier that is asked for: its request, what is to be answered, and what came when."""

    def __init__(self, eid, wanted, nonce, request):
        self.eid, self.wanted, self.nonce, self.request = eid, wanted, nonce, request
        self.asked = 0
        self.first = self.took = self.wrong = None


def words():
    parser = argparse.ArgumentParser()
    parser.add_argument("--register", required=True)
    parser.add_argument("--resolver", required=True)
    parser.add_argument("--mine", required=True, help="the address of the ITR")
    parser.add_argument("--tries", type=int, default=4, help="how often a request is sent at most")
    parser.add_argument("--repeat", type=float, default=1, help="seconds after which it is sent again")
    parser.add_argument("--rlocs", help="the ITR-RLOCs, by default its own address")
    parser.add_argument("--within", help="SECONDS:PERCENT, how many are to be answered so soon after the first try")
    parser.add_argument("--median", type=float, help="milliseconds, the bound of the median")
    parser.add_argument("--worst", type=float, help="milliseconds, the bound of the slowest answer")
    parser.add_argument("--once", action="store_true", help="all are to be answered at the first try")
    parser.add_argument("--part-of", help="any hole in this block that covers the identifier is right")
    parser.add_argument("streams", nargs="+", metavar="NAME:RATE:FILE")
    return parser.parse_args()


def open_socket(mine):
    itr = socket.socket(socket.AF_INET, socket.SOCK_DGRAM)
    itr.setsockopt(socket.SOL_SOCKET, socket.SO_RCVBUF, 1 << 20)
    itr.setblocking(False)
    itr.bind((mine, 0))
    return itr


def questions_of(stream, register, rlocs, port):
    """The name of a stream, and its questions with the seconds from the start at which each is asked first."""
    name, rate, file = stream.split(":")
    with open(file, encoding="ascii") as lines:
        eids = [ipaddress.ip_address(line.strip()) for line in lines]
    timed = []
    for place, eid in enumerate(eids):
        nonce = random.getrandbits(64)
        request = packets.encapsulated(nonce, eid, 0, rlocs, port)
        timed.append((place / float(rate), Question(eid, register.reply_to(eid), nonce, request)))
    return name, timed


class Itr:
    """An ITR at its one address, and all that it asks."""

    def __init__(self, options):
        self.options = options
        self.part_of = options.part_of and ipaddress.ip_network(options.part_of)
        self.socket = open_socket(options.mine)
        register, port = oracle.Register(options.register), self.socket.getsockname()[1]
        rlocs = (options.rlocs or options.mine).split(",")
        self.streams = dict(questions_of(stream, register, rlocs, port) for stream in options.streams)
        self.by_nonce = {question.nonce: question for timed in self.streams.values() for _, question in timed}
        self.unanswered = set(self.by_nonce)

    def run(self):
        """Asks until each is answered, or was asked as often as it may be and not answered in time."""
        start = time.monotonic() + 0.05
        timed = (each for stream in self.streams.values() for each in stream)
        due = [(start + after, question.nonce) for after, question in timed]
        heapq.heapify(due)
        while due and self.unanswered:
            wait = due[0][0] - time.monotonic()
            if select.select([self.socket], [], [], max(0, wait))[0]:
                self.hear()
            while due and due[0][0] <= time.monotonic():
                self.ask(heapq.heappop(due)[1], due)

    def ask(self, nonce, due):
        """Sends a question's request, unless it is answered or was sent often enough."""
        question, now = self.by_nonce[nonce], time.monotonic()
        if nonce not in self.unanswered or question.asked == self.options.tries:
            return
        question.first = question.first or now
        question.asked += 1
        self.socket.sendto(question.request, (self.options.resolver, packets.CONTROL_PORT))
        heapq.heappush(due, (now + self.options.repeat, nonce))

    def hear(self):
        """Takes all Map-Replies that are there."""
        while True:
            try:
                data = self.socket.recv(65535)
            except BlockingIOError:
                return
            now = time.monotonic()
            nonce, said = packets.read_reply(data)
            if question := self.by_nonce.get(nonce):
                self.unanswered.discard(nonce)
                question.took = question.took or now - question.first
                if not self.is_right(question, said.partition(" ttl ")[0]):
                    question.wrong = said

    def is_right(self, question, said):
        """Whether this is what the register assigns, or a hole that is as --part-of has it."""
        if self.part_of is None or not said.startswith("negative [0]"):
            return said == question.wanted
        block = ipaddress.ip_network(said.split()[1].removeprefix("[0]"))
        return question.eid in block and block.subnet_of(self.part_of)


def bounded(what, value, bound):
    """`what` with the bound if the value keeps it, or with the value."""
    if bound is None:
        return ""
    if value is None:
        return f", no {what}"
    return f", {what} under {bound:.0f} ms" if value < bound else f", {what} {value:.0f} ms"


def judged(options, questions):
    """What was found: with the bounds where they were kept, and else with what was measured."""
    wrong = [question for question in questions if question.wrong]
    took = sorted(question.took * 1000 for question in questions if question.took is not None)
    line = f"lost {len(questions) - len(took)}, wrong {len(wrong)}"
    if wrong:
        line += f" (as {wrong[0].eid}: {wrong[0].wrong} for {wrong[0].wanted})"
    line += bounded("median", statistics.median(took) if took else None, options.median)
    line += bounded("worst", took[-1] if took else None, options.worst)
    if options.within:
        seconds, percent = map(float, options.within.split(":"))
        share = 100 * sum(each <= seconds * 1000 for each in took) / len(questions)
        line += f", {f'{percent:.0f}' if share >= percent else f'{share:.1f}'} % in {seconds:.0f} s"
    if options.once:
        again = sum(question.asked > 1 for question in questions)
        line += f", {again or 'none'} asked again"
    return line


def measured(questions):
    """The times of a stream in a line."""
    took = sorted(question.took * 1000 for question in questions if question.took is not None)
    again = sum(question.asked > 1 for question in questions)
    said = f"{len(questions)} asked, {again} again, {len(took)} answered"
    if took:
        said += f", median {statistics.median(took):.1f} ms, 99 % {took[len(took) * 99 // 100]:.1f} ms"
        said += f", worst {took[-1]:.1f} ms"
    return said


def main():
    itr = Itr(words())
    gc.disable()
    itr.run()
    for name, timed in itr.streams.items():
        questions = [question for _, question in timed]
        print(f"{name}: {judged(itr.options, questions)}", flush=True)
        print(f"{name}: {measured(questions)}", file=sys.stderr, flush=True)


main()
