"""What a reload does with what is registered, and which files of keys are refused: reload.py FOLDER"""
from registers import map_register, mapping, sha256
from world import FOUR, MS, ONE, SECOND, THREE, TWO, Xtr, listed_key, run, until

OLD, NEW, ADDED = sha256(1, "the first secret"), sha256(1, "another one"), sha256(2, "a second key")
STAYS, CHANGES = listed_key("10.1.1.0/24", OLD), listed_key("10.1.2.0/24", OLD)
# What the configuration names is used again where `static_etrs` says so.
FALLS = listed_key("10.1.3.0/24", OLD, static_etrs="fallback")
LEAVES = listed_key("10.1.4.0/24", OLD)
BEFORE = """[0]10.1.1.0/24 registered 192.0.2.11
  from 192.0.2.11 192.0.2.11/1
[0]10.1.2.0/24 registered 192.0.2.11
  from 192.0.2.11 192.0.2.11/1
[0]10.1.3.0/24 registered 192.0.2.11
  from 192.0.2.11 192.0.2.11/1
[0]10.1.4.0/24 registered 192.0.2.11
  from 192.0.2.11 192.0.2.11/1
sites=4 registered=4
"""
AFTER = """[0]10.1.1.0/24 registered 192.0.2.11
  from 192.0.2.11 192.0.2.11/1
[0]10.1.2.0/24 not registered
[0]10.1.3.0/24 configured 192.0.2.99
sites=3 registered=1
"""
# (what, the text, what is said of it)
BAD = (
    ("no TOML", "[[key]", "1 Toml: "),
    ("no secret", STAYS.replace("secret", "sekret"), "8 Key: line 5: unknown key key.sekret"),
    ("no Key ID", STAYS.replace("id = 1\n", ""), "2 Field"),
    ("Key ID 256", STAYS.replace("id = 1\n", "id = 256\n"), "3 Value"),
    ("an algorithm that there isn't", STAYS.replace("sha256", "md5"), "3 Value"),
    ("a secret that is empty", STAYS.replace("the first secret", ""), "3 Value"),
    ("two secrets", STAYS + 'secret_hex = "00"\n', "4 Secrets"),
    ("a misspelt replay", STAYS + 'replay = "increase"\n', "3 Value"),
)
# These are only found beside a configuration.
BAD_WITH_SITES = (
    ("no such site", listed_key("10.1.77.0/24", OLD), "5 NoSite"),
    ("one key twice", STAYS + listed_key("10.1.1.0/24", NEW), "7 Twice"),
    ("two that disagree", STAYS + listed_key("10.1.1.0/24", ADDED, static_etrs="fallback"), "6 Disagree"),
)


def register(xtr, prefix, nonce, key=OLD):
    """Whether a Map-Register is notified."""
    return xtr.told(map_register(nonce, [mapping(prefix, [xtr.address])], key), 0.5) is not None


def says(world, what, wanted, words, *, status=2):
    """A ddtd refuses with a line that holds this."""
    ended, said = world.refused(*words)
    world.checks.holds(f"{what}: {' '.join(words)}", ended == status and wanted in said, (ended, said))


def refused(world, xtr, what, wanted, nonce):
    """A file of keys is refused by ddtd check, at the start and at a reload, which leaves all as it was."""
    checks = world.checks
    says(world, what, wanted, ("check", "ms.toml", "--keys", "keys.toml"))
    says(world, what, wanted, ("serve", "other.toml", "--keys", "keys.toml"))
    answer = world.tell("reload")
    checks.holds(f"{what}, at a reload", answer.startswith("refused: ") and wanted in answer, answer)
    checks.same(f"{what}: what is registered", BEFORE, world.sites())
    checks.holds(f"{what}: the old key", register(xtr, ONE, nonce))


def bad_files(world, xtr):
    for number, (what, text, wanted) in enumerate(BAD + BAD_WITH_SITES, 100):
        world.write_keys(text)
        if (what, text, wanted) in BAD:
            says(world, what, wanted, ("check", "keys.toml"))
        refused(world, xtr, what, wanted, number)
    world.write_keys(STAYS, CHANGES, FALLS, LEAVES)
    for number, mode in enumerate((0o640, 0o604, 0o622), 200):
        world.keys.chmod(mode)
        wanted = "keys.toml: others than its owner may read or write it"
        says(world, f"mode {mode:o}", wanted, ("check", "keys.toml"))
        refused(world, xtr, f"mode {mode:o}", wanted, number)
    world.keys.chmod(0o600)
    world.keys.rename(world.folder / "away.toml")
    refused(world, xtr, "a file that is gone", "keys.toml: ", 300)
    (world.folder / "away.toml").rename(world.keys)


def keys_come_and_go(world, xtr):
    """A key more ends nothing. What was registered under a key ends with it, and nothing else does."""
    checks, other, site = world.checks, Xtr("192.0.2.12"), "[0]10.1.1.0/24"
    more = listed_key("10.1.1.0/24", ADDED)
    for nonce in (1, 2):
        world.write_keys(STAYS, more, CHANGES, FALLS, LEAVES)
        checks.same("a reload with a key more", "reloaded\n", world.tell("reload"))
        checks.same("what is registered under the old keys", BEFORE, world.sites())
        checks.same("the new key", True, register(other, ONE, nonce, ADDED))
        checks.same("what both have", f"{site} registered 192.0.2.11 192.0.2.12", world.site(site))
        if nonce == 1:
            world.write_keys(STAYS, CHANGES, FALLS, LEAVES)
            checks.same("a reload with a key less", "reloaded\n", world.tell("reload"))
            checks.same("what is registered under the keys that are left", BEFORE, world.sites())
    world.write_keys(more, CHANGES, FALLS, LEAVES)
    checks.same("a reload without the old key", "reloaded\n", world.tell("reload"))
    checks.same("what the new key has", f"{site} registered 192.0.2.12", world.site(site))
    checks.same("the old key then", False, register(xtr, ONE, 900))
    world.write_keys(STAYS, CHANGES, FALLS, LEAVES)
    checks.same("a reload with the old key again", "reloaded\n", world.tell("reload"))
    checks.same("what is registered then", f"{site} not registered", world.site(site))
    checks.same("the old key again", True, register(xtr, ONE, 900))


def good_files(world, xtr):
    checks = world.checks
    checks.same("the same again", "reloaded\n", world.tell("reload"))
    checks.same("what is registered then", BEFORE, world.sites())
    checks.same("a replay after a reload", False, register(xtr, ONE, 100))
    world.write_keys(STAYS, listed_key("10.1.2.0/24", NEW), FALLS.replace("the first", "another"))
    checks.same("a reload with other keys", "reloaded\n", world.tell("reload"))
    checks.same("what is registered under other keys", AFTER, world.sites())
    for eid, wanted in (("10.1.1.5", ("MS-ACK", ["192.0.2.11"])), ("10.1.2.5", ("MS-NOT-REGISTERED", [])),
                        ("10.1.3.5", ("MS-ACK", [])), ("10.1.4.5", ("MS-ACK", []))):
        checks.same(f"the answer for {eid}", wanted, world.goes_to([xtr], eid))
    checks.same("the old secret", False, register(xtr, TWO, 1000))
    checks.same("an old nonce under the new one", False, register(xtr, TWO, 2, NEW))
    checks.same("a new one", True, register(xtr, TWO, 1000, NEW))
    checks.same("a site without a key", False, register(xtr, FOUR, 1000))


def nested(world):
    """A site of two authorities, of which one is inside the other, has no registration of its own."""
    text = (world.folder / "other.toml").read_text().split("\n[")[0]
    site = '\n[[authority.site]]\nprefix = "[0]10.1.1.0/24"\netrs = []\n'
    inner = "".join(f'\n[[authority]]\nprefix = "[0]10.1.0.0/{length}"\n{site}' for length in (16, 20))
    seal = ("authorities", "children", "digest", "sites")
    world.write("nested.toml", "\n".join(line for line in text.split("\n") if not line.startswith(seal)) + inner)
    world.write_keys(STAYS)
    wanted = "[0]10.1.1.0/24 is a site of two authorities, and has keys"
    for words in (("check", "nested.toml"), ("serve", "nested.toml")):
        says(world, "nested authorities", wanted, (*words, "--keys", "keys.toml"))


def watched(world, xtr):
    """Keys that change are taken up where the files are watched."""
    world.end("ms")
    world.write_keys(STAYS, CHANGES, FALLS, LEAVES)
    world.start_server("--watch")
    world.write_keys(STAYS, CHANGES)
    wanted = "sites=2 registered=1"
    world.checks.same("watched keys", wanted, until(wanted, lambda: world.sites().splitlines()[-1]))
    world.checks.same("a site whose key is watched", True, register(xtr, TWO, 2000))


def work(world, checks):
    world.write_keys(STAYS, CHANGES, FALLS, LEAVES)
    says(world, "good keys", "keys.toml: good", ("check", "keys.toml"), status=0)
    says(world, "good keys beside sites", ", 4 with keys", ("check", "ms.toml", "--keys", "keys.toml"), status=0)
    # The same sites, at another address.
    world.write("other.toml", (world.folder / "ms.toml").read_text().replace(MS, SECOND))
    world.start_server()
    xtr = Xtr("192.0.2.11")
    for prefix in (ONE, TWO, THREE, FOUR):
        checks.holds(f"{prefix} is registered", register(xtr, prefix, 2))
    checks.same("what is registered", BEFORE, world.sites())
    bad_files(world, xtr)
    keys_come_and_go(world, xtr)
    good_files(world, xtr)
    nested(world)
    watched(world, xtr)


run("reload", work)
