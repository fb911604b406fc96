"""A site of two ETRs, one of which withdraws, or is over: failover.py FOLDER"""
import time

from registers import USE_TTL, WANT_NOTIFY, mapping, map_register, sha256
from world import ONE, RESOLVER, TWO, Xtr, listed_key, run, until

KEY = sha256(3, "of both ETRs")
FIRST, SECOND = "192.0.2.11", "192.0.2.12"
LASTING = USE_TTL | WANT_NOTIFY


class Etr:
    """An xTR with an xTR-ID, whose nonces increase."""

    def __init__(self, address, number, priority):
        self.xtr, self.ids, self.priority, self.nonce = Xtr(address), (number, 1), priority, 0

    def registers(self, prefix, minutes=10, bits=WANT_NOTIFY):
        """Whether its Map-Register is notified."""
        self.nonce += 1
        records = [mapping(prefix, [(self.xtr.address, self.priority)], minutes=minutes)]
        return self.xtr.told(map_register(self.nonce, records, KEY, bits=bits, xtr=self.ids)) is not None


def gone(world, xtrs, eid, before):
    """When the answer for an identifier is another than before, and that answer."""
    end = time.monotonic() + 75
    while (answer := world.goes_to(xtrs, eid)) == before and time.monotonic() < end:
        time.sleep(0.1)
    return time.monotonic(), answer


def withdrawn(world, etrs):
    """The first ETR withdraws, and comes back; then both withdraw."""
    checks, xtrs = world.checks, [etr.xtr for etr in etrs]
    one, two = etrs
    checks.same("the request goes to the first by priority", ("MS-ACK", [FIRST]), world.goes_to(xtrs, "10.1.1.5"))
    checks.same("what is registered", "[0]10.1.1.0/24 registered 192.0.2.11 192.0.2.12", world.site("[0]10.1.1.0/24"))
    checks.holds("the first withdraws", one.registers(ONE, minutes=0))
    checks.same("the second gets it", ("MS-ACK", [SECOND]), world.goes_to(xtrs, "10.1.1.5"))
    checks.same("through a resolver too", [SECOND], world.goes_to(xtrs, "10.1.1.5", server=RESOLVER, seconds=0.5)[1])
    checks.holds("the first registers again", one.registers(ONE))
    checks.same("it gets it again", ("MS-ACK", [FIRST]), world.goes_to(xtrs, "10.1.1.5"))
    checks.holds("the second withdraws", two.registers(ONE, minutes=0))
    checks.same("the first keeps it", ("MS-ACK", [FIRST]), world.goes_to(xtrs, "10.1.1.5"))
    checks.holds("both have", one.registers(ONE, minutes=0))
    checks.same("nobody gets it", ("MS-NOT-REGISTERED", []), world.goes_to(xtrs, "10.1.1.5"))
    checks.same("an ITR is told so", ("negative, TTL 1", []), world.goes_to(xtrs, "10.1.1.5", server=RESOLVER))


def logged(world):
    """A line for each change that lasted until the second was over, and the last is that there is none."""
    last = ["[0]10.1.1.0/24 not registered"]
    world.checks.same("the last line of the log", last, until(last, lambda: world.site_lines("[0]10.1.1.0/24")[-1:]))


def refreshed(world, one, seconds):
    """Refreshes log nothing: the ETR of another site registers again and again."""
    end = time.monotonic() + seconds
    while time.monotonic() < end:
        world.checks.holds("a refresh is notified", one.registers(TWO, minutes=1, bits=LASTING))
        time.sleep(1.2)
    lines = ["[0]10.1.2.0/24 registered 192.0.2.11 192.0.2.12"]
    world.checks.same("the log of a site that is refreshed", lines, world.site_lines("[0]10.1.2.0/24")[-1:])
    world.checks.holds("it has a line for a change alone", len(world.site_lines("[0]10.1.2.0/24")) <= 2,
                       world.site_lines("[0]10.1.2.0/24"))


def ended(world, etrs):
    """Registrations of a minute, by the bit T, are over after 60 to 62 seconds: first the first ETR's."""
    checks, xtrs = world.checks, [etr.xtr for etr in etrs]
    one, two = etrs
    checks.holds("the second registers", two.registers(TWO, minutes=1, bits=LASTING))
    refreshed(world, one, 4)
    checks.holds("the first registers for the last time", one.registers(TWO, minutes=1, bits=LASTING))
    first = time.monotonic()
    time.sleep(3)
    checks.holds("so does the second", two.registers(TWO, minutes=1, bits=LASTING))
    second = time.monotonic()
    time.sleep(max(0, first + 57 - time.monotonic()))
    moment, answer = gone(world, xtrs, "10.1.2.5", ("MS-ACK", [FIRST]))
    checks.same("the second gets it when the first is over", ("MS-ACK", [SECOND]), answer)
    checks.holds("when the first is over", 59.5 < moment - first < 62.5, moment - first)
    moment, answer = gone(world, xtrs, "10.1.2.5", answer)
    checks.same("nobody gets it when both are over", ("MS-NOT-REGISTERED", []), answer)
    checks.holds("when the second is over", 59.5 < moment - second < 62.5, moment - second)
    checks.same("what is told of the site", "[0]10.1.2.0/24 not registered", world.site("[0]10.1.2.0/24"))


def work(world, checks):
    world.write_keys(listed_key("10.1.1.0/24", KEY), listed_key("10.1.2.0/24", KEY))
    world.start_tree()
    etrs = Etr(FIRST, 1, 1), Etr(SECOND, 2, 2)
    # The second comes first: the order is that of priorities.
    checks.holds("the second registers", etrs[1].registers(ONE))
    checks.holds("the first registers", etrs[0].registers(ONE))
    withdrawn(world, etrs)
    logged(world)
    ended(world, etrs)


run("failover", work)
