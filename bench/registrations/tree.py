"""Makes the Map-Server of bench/registrations.sh, and what its load asks for.

usage: tree.py FOLDER           writes register.csv, force.csv, keys.toml, allow.toml and xtrs
       tree.py FOLDER items     reads what `ddtplan blocks` prints of force.csv, and writes the lists `one` and `two`

There are 20,000 sites, of which each has a key. Nine of ten register; force.csv is the register that is in force then.
Of these nine, the ETR of four is that of the list `one`, that of four is that of `two`, and one has one of twenty
others, for which bench/registrations/sample.py asks. A line of `xtrs` has a prefix, its secret, its ETR, and who
registers it.
"""
from __future__ import annotations

import json
import pathlib
import sys

SITES, XTRS = 20_000, 500
SERVER, ONE, TWO = "127.0.2.1", "127.0.3.1", "127.0.3.2"
SAMPLED = [f"127.0.8.{number}" for number in range(1, 21)]
ITRS = ("127.0.4.1/32", "127.0.4.2/32", "127.0.4.3/32")
HEAD = f"""kind,prefix,group,addresses
group-node,,root,127.0.0.1
group-ms,,ms,{SERVER}
node,*,root,
ms,[0]10.0.0.0/8,ms,
"""


def prefix_of(number: int) -> str:
    """Of 256 prefixes, the last 56 are holes."""
    return f"10.{number // 200}.{number % 200}.0/24"


def etr_of(number: int) -> str:
    """The ETR of a site; none where it doesn't register."""
    place = number % 10
    if place == 9:
        return ""
    return SAMPLED[number // 10 % len(SAMPLED)] if place == 8 else (ONE, TWO)[place % 2]


def secret_of(number: int) -> str:
    return f"the secret of site {number}"


def xtr_of(number: int) -> str:
    return f"127.6.{number % XTRS // 250}.{number % 250 + 1}"


def key_of(number: int) -> str:
    return (f'[[key]]\nprefix = "[0]{prefix_of(number)}"\nid = 1\nalgorithm = "sha256"\n'
            f'secret = "{secret_of(number)}"\n\n')


def write_files(folder: pathlib.Path) -> None:
    rows = [(f"site,[0]{prefix_of(number)},,", etr_of(number)) for number in range(SITES)]
    (folder / "register.csv").write_text(HEAD + "".join(f"{row}\n" for row, _ in rows))
    (folder / "force.csv").write_text(HEAD + "".join(f"{row}{etr}\n" for row, etr in rows))
    (folder / "keys.toml").touch(mode=0o600)
    (folder / "keys.toml").write_text("".join(map(key_of, range(SITES))))
    (folder / "allow.toml").write_text(f"allow = {json.dumps(ITRS)}\n")
    lines = ["\t".join((prefix_of(number), secret_of(number), etr_of(number), xtr_of(number))) + "\n"
             for number in range(SITES) if etr_of(number)]
    (folder / "xtrs").write_text("".join(lines))


def write_items(folder: pathlib.Path) -> None:
    """For each list its sites, those that don't register, and holes."""
    etrs = {prefix_of(number): etr_of(number) for number in range(SITES)}
    lists: dict[str, list[str]] = {ONE: [], TWO: []}
    for line in sys.stdin:
        block, outcome = line.rstrip("\n").split("\t")
        kind, prefix = outcome.split()[:2]
        if not block.startswith("[0]10."):
            continue
        address, _, length = block[3:].partition("/")
        etr = etrs.get(prefix[3:], "")
        for name in [etr] if etr else lists:
            if name in lists:
                lists[name].append(f"0 {address} {length} {kind} {prefix.rpartition('/')[2]}\n")
    (folder / "one").write_text("".join(lists[ONE]))
    (folder / "two").write_text("".join(lists[TWO]))


def main(words: list[str]) -> int:
    folder = pathlib.Path(words[0]).resolve()
    if words[1:] == ["items"]:
        write_items(folder)
    else:
        write_files(folder)
    return 0


if __name__ == "__main__":
    sys.exit(main(sys.argv[1:]))
