"""What a Map-Server that is stopped, or killed, knows once it runs again: restart.py FOLDER"""
import os
import re
import signal

from registers import mapping, map_register, sha1, sha256
from world import ONE, RESOLVER, SIX, TWO, Xtr, listed_key, run, until

STRONG, WEAK, OTHER = sha256(1, "one secret"), sha1(0, "another"), sha256(1, "a third")
IDS = (0x0123456789ABCDEF_0123456789ABCDEF, 7)
KEYS = (listed_key("10.1.1.0/24", STRONG), listed_key("10.1.2.0/24", WEAK, replay="any"),
        listed_key("[0]10.1.3.0/24", STRONG), listed_key("2001:db8:a:1::/64", STRONG))
SITES = f"""[0]10.1.1.0/24 registered 192.0.2.11 2001:db8::11
  from {IDS[0]:032x}/{IDS[1]:016x} 192.0.2.11/1 2001:db8::11/2
[0]10.1.2.0/24 registered 192.0.2.11
  from 192.0.2.11 192.0.2.11/1
[0]10.1.3.0/24 configured 192.0.2.99
[0]2001:db8:a:1::/64 registered 192.0.2.11
  from 192.0.2.11 192.0.2.11/1
sites=4 registered=3
"""


def register_all(xtr, nonce):
    """A Map-Register for each of three sites; the nonce of the first is this one, and those of the others are above."""
    strong = map_register(nonce, [mapping(ONE, ["192.0.2.11", ("2001:db8::11", 2)])], STRONG, xtr=IDS)
    weak = map_register(nonce + 1, [mapping(TWO, ["192.0.2.11"])], WEAK)
    # The bit T and a TTL of 1 minute.
    six = map_register(nonce + 2, [mapping(SIX, ["192.0.2.11"], minutes=1)], STRONG, bits=9)
    return [xtr.told(message) for message in (strong, weak, six)]


def is_as_before(world, xtr, how):
    """The Map-Server knows all at once, before anything is registered anew."""
    checks = world.checks
    checks.same(f"what is registered after {how}", SITES, world.sites())
    for eid in ("10.1.1.5", "2001:db8:a:1::5"):
        checks.same(f"{eid} after {how}", ("MS-ACK", [xtr.address]), world.goes_to([xtr], eid))
    checks.same(f"what the resolver does after {how}", [xtr.address],
                world.goes_to([xtr], "10.1.2.5", server=RESOLVER, seconds=0.5)[1])
    left = world.left()
    checks.holds(f"a registration of one minute after {how}", len(left) == 3 and 20 < left[2] < 60, left)


def is_refused_again(world, xtr, nonce, how):
    """What was sent before is refused as a replay."""
    before = world.counts()
    message = map_register(nonce, [mapping(ONE, ["192.0.2.66"])], STRONG, xtr=IDS)
    world.checks.same(f"a replay after {how}", None, xtr.told(message, 0.3))
    world.checks.same(f"its count after {how}", {"replayed": 1}, world.rise(before))
    world.checks.same(f"what is registered after a replay and {how}", SITES, world.sites())


def changed_lines(world, old, new):
    """Changes the file of registrations, by a regular expression."""
    text = world.kept.read_text()
    world.checks.holds(f"the file has {old}", bool(re.search(old, text)), text)
    world.kept.write_text(re.sub(old, new, text))


def restarted(world, xtr):
    for number, how in ((signal.SIGTERM, "SIGTERM"), (signal.SIGKILL, "SIGKILL")):
        status = world.end("ms", number)
        world.checks.same(f"the status after {how}", -number, status)
        world.start_server()
        is_as_before(world, xtr, how)
        is_refused_again(world, xtr, 102, how)
    world.checks.same("the mode of the file", "0o600", oct(world.kept.stat().st_mode & 0o777))


def cut(world, xtr):
    """The last line is cut, as by a power failure: of that site, what the file has before counts."""
    message = map_register(200, [mapping(ONE, ["192.0.2.77"])], STRONG, xtr=IDS)
    world.checks.holds("one more is registered", xtr.told(message) is not None)
    has_it = until(True, lambda: b"192.0.2.77" in world.kept.read_bytes()[-200:])
    world.checks.same("its lines are the file's last", True, has_it)
    world.end("ms", signal.SIGKILL)
    # What somebody has put where the next file is written is not written through.
    (world.folder / "registrations.new").symlink_to("elsewhere")
    text = world.kept.read_bytes()
    os.truncate(world.kept, len(text) - 2)
    world.start_server()
    world.checks.holds("the log says that a line was cut", "lines are not of its form" in world.log(), world.log())
    world.checks.same("a link that was put there", False, (world.folder / "elsewhere").exists())
    is_as_before(world, xtr, "a cut last line")
    is_refused_again(world, xtr, 102, "a cut last line")


def over(world, xtr):
    """What is over while the Map-Server is stopped isn't there any more; its last nonce is."""
    world.end("ms")
    # The registration of the second site was over a millisecond after 1970 began.
    changed_lines(world, r"(10\.1\.2\.0/24 .*\nxtr 192\.0\.2\.11 0 1 [0-9a-f]+ )\d+ ", r"\g<1>1 ")
    world.start_server()
    line = "[0]10.1.2.0/24 not registered"
    world.checks.same("a site whose registration is over", line, until(line, lambda: world.site("[0]10.1.2.0/24")))
    world.checks.same("its answer", ("MS-NOT-REGISTERED", []), world.goes_to([xtr], "10.1.2.5"))
    world.checks.same("another's answer", ("MS-ACK", [xtr.address]), world.goes_to([xtr], "10.1.1.5"))


def other_keys(world, xtr):
    """Under another secret nothing is registered, and an old nonce of the Key ID stays used."""
    world.end("ms")
    world.write_keys(listed_key("10.1.1.0/24", OTHER), *KEYS[1:])
    world.start_server()
    world.checks.same("a site whose secret is another", "[0]10.1.1.0/24 not registered", world.site("[0]10.1.1.0/24"))
    record, before = [mapping(ONE, ["192.0.2.11"])], world.counts()
    world.checks.same("an old nonce", None, xtr.told(map_register(102, record, OTHER, xtr=IDS), 0.3))
    world.checks.same("why it is refused", {"replayed": 1}, world.rise(before))
    world.checks.holds("a new one", xtr.told(map_register(300, record, OTHER, xtr=IDS)) is not None)
    world.checks.same("the site then", "[0]10.1.1.0/24 registered 192.0.2.11", world.site("[0]10.1.1.0/24"))


def no_such_file(world):
    """A file that is no file of registrations isn't written over."""
    world.end("ms")
    world.write("registrations", "a letter\n")
    words = ("serve", "ms.toml", "--keys", "keys.toml", "--registrations", "registrations")
    world.checks.same("another file", (2, "<3>registrations: no file of registrations"), world.refused(*words))
    world.checks.same("what it holds then", "a letter\n", world.kept.read_text())


def work(world, checks):
    world.write_keys(*KEYS)
    world.start_tree()
    xtr = Xtr("192.0.2.11")
    checks.same("how many are notified", [True] * 3, [one is not None for one in register_all(xtr, 100)])
    # The nonce of the first xTR is 102 from here on.
    again = map_register(102, [mapping(ONE, ["192.0.2.11", ("2001:db8::11", 2)])], STRONG, xtr=IDS)
    checks.holds("one is registered again", xtr.told(again) is not None)
    checks.same("what is registered", SITES, world.sites())
    restarted(world, xtr)
    cut(world, xtr)
    over(world, xtr)
    other_keys(world, xtr)
    no_such_file(world)


run("restart", work)
