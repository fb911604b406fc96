#!/usr/bin/env bash
# Prints what servers, prefix maps and a resolver take over full registers of tools/make_register.py: bench/speeds.sh
#
# It proves and builds the program of bench/speeds in a copy of the repository, which takes as long as the first build
# of the repository. Then it prints, for each shape (nested, flat, groups, sites):
#   servers   the time of compiling all configurations of 65,535 rows, and of compiling them and building all servers
#   handle    of each server with more than 30,000 children or sites: how many DDT Map-Requests `Server::handle`
#             answered, for identifiers of the register drawn by lot, in how long, and the time of each; no sockets
#   list/trie/hash  for 1,000, 8,000 and 65,535 rows: the time of inserting the prefixes of all zones but * and of all
#             sites into a ListMap, a TrieMap or a HashedMap, of each call of `longest` for identifiers of the register,
#             and of `free` from everything downwards for these and for identifiers of other instances; and the largest
#             resident size of the process, with the register in it
#   resolver  with 1, 100 and 1,024 lookups pending: the time of a `tick` with nothing due, and of a `datagram` that refers
#             a lookup to a longer prefix; and with 1,024, of one that belongs to no lookup
#   ordinary  the same with the sites of one instance, or of 256 instances, side by side; with single IPv4 addresses; and
#             with single IPv6 addresses, each of an instance of its own, which is the worst shape for a tree
#   register  the largest resident size of a process that reads and checks the register and does no more
# Times are elapsed, the least of three runs, or of one run of a list of 65,535 rows. Run it where nothing else runs.
# Wants python3 and GNU time (Debian: time).
set -eu
top=$(cd -- "$(dirname -- "${BASH_SOURCE[0]}")/.." && pwd)
copy=$(mktemp -d)
trap 'rm -rf -- "$copy"' EXIT
tar -C "$top" --exclude=out -cf - crates.txt HANDLES crates | tar -C "$copy" -xf -
mkdir -p -- "$copy/crates/speeds/src"
cp -- "$top/bench/speeds/main.rt.in" "$copy/crates/speeds/src/main.rt"
libraries=$(sed -n 's/^\(ddt_[a-z]*\):.*/\1/p' "$top/crates.txt" | tr '\n' ' ')
echo "speeds: $libraries" >>"$copy/crates.txt"
register() {
    python3 "$top/tools/make_register.py" "$1" "$2" >"$copy/$1.$2.csv"
    echo "$copy/$1.$2.csv"
}
# Everything is proved here; without a register the program ends with status 1.
(cd -- "$copy/crates/speeds" && rt run >&2) || [ -x "$copy/crates/speeds/out/speeds" ]

# least RUNS WORD..: the least times and the least size of so many runs.
least() {
    python3 "$top/bench/speeds/least.py" "$@"
}

# maps NAME REGISTER: both maps of the register's prefixes, and the register alone.
maps() {
    local map runs
    for map in register list trie hash; do
        runs=3
        if [ "$map" = list ] && [ "$(wc -l <"$2")" -gt 60000 ]; then runs=1; fi
        echo "== $1 $map"
        least "$runs" "$speeds" "$map" "$2"
    done
}

speeds=$copy/crates/speeds/out/speeds
for shape in nested flat groups sites; do
    full=$(register "$shape" 65535)
    for what in servers handle resolver; do
        echo "== $shape 65535 $what"
        least 3 "$speeds" "$what" "$full"
    done
    for rows in 1000 8000 65535; do
        maps "$shape $rows" "$(register "$shape" "$rows")"
    done
done
for shape in 1 256 hosts scattered; do
    python3 "$top/bench/speeds/ordinary.py" "$shape" >"$copy/ordinary.csv"
    echo "== ordinary $shape register"
    least 3 "$speeds" register "$copy/ordinary.csv"
    for map in trie hash; do
        echo "== ordinary $shape $map"
        least 3 "$speeds" "$map" "$copy/ordinary.csv"
    done
done
