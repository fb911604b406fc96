#!/usr/bin/env bash
# Runs resolvers over whole trees of servers in virtual time, judges each outcome, and prints what it took:
#   bench/scale.sh RESULTS [SITES..] [NAME=NUMBER..]
#
# It makes trees of 10,000, 100,000, 1,000,000 and 10,000,000 sites, or of so many SITES (tools/make_tree.py). It proves
# and builds the program of bench/scale in a copy of the repository. What the repository has proved is taken over; else
# it takes as long as the repository's first build. For each tree the program compiles all registers and builds the
# server of each group. Then resolvers are asked for identifiers, one resolver after another: servers keep nothing
# between two requests, so none notices the others. Requests and replies are bytes. Round trips take some 20 ms to the
# root, 60 to regions and 40 to members, and more now and then. In some hours a server is silent for five minutes. At
# one moment eight members' registers are replaced (bench/scale/list.py).
#
# Each outcome is compared with the assignment of the register in charge of the identifier, by a search in sorted rows
# (bench/scale/index.rt.in). It has to be that of a register in force between ask and answer; where the cache answers,
# of one in force up to 902 seconds before. A lookup may give up only where servers were silent. The status is 1 if an
# outcome differs.
#
# NAME=NUMBER changes what is asked, for all trees alike:
#   seed=1          other numbers draw other identifiers and moments
#   hours=48 from=24 replaced=3    how many hours pass, from when on is measured, and when registers are replaced
#   small=12 small-set=20000       resolvers, each with so many sites of the tree that it is asked for
#   large=4 large-set=400000       others, with larger working sets
#   rate=3000       asks in a thousand seconds, at random moments, of each resolver
#   zipf=100        the power of the Zipf law by which the sites of a working set are asked for, in hundredths
#   astray=5        of a hundred identifiers so many have one digit that is wrong
#   dying=20        of a thousand servers so many are silent in an hour, for five minutes
#
# The folder RESULTS gets what the program printed for each size, and plots; tables are printed (bench/scale/tables.py).
# The same words give the same numbers, but for times (ms, us) and memory (kb). Memory is the process's, so servers and
# resolvers are counted with what the C library keeps for them. Run it where nothing else runs. 10,000,000 sites take 8
# GB and some ten minutes, of which two make the tree. Wants rt and python3. Copy the plots to docs by hand.
#
# `tests/run whole_tree` runs the same program without proofs on 10,000 sites, with some hundred lookups.
set -eu
top=$(cd -- "$(dirname -- "${BASH_SOURCE[0]}")/.." && pwd)
usage() {
    sed -n '2,3s/^# //p' "${BASH_SOURCE[0]}" >&2
    exit 2
}
[ $# -gt 0 ] || usage
room=$(mktemp -d)
trap 'rm -rf -- "$room"' EXIT
copy=$room/copy
mkdir -p -- "$copy/crates/scale/src"
tar -C "$top" --exclude=out -cf - crates.txt HANDLES crates | tar -C "$copy" -xf -
for file in "$top"/bench/scale/*.rt.in; do
    name=$(basename -- "$file" .in)
    cp -- "$file" "$copy/crates/scale/src/$name"
done
used="ddt_cache ddt_check ddt_path ddt_register ddt_resolver ddt_sim ddt_trie rand_core rand_pcg"
echo "scale: $used" >>"$copy/crates.txt"

# tree SITES: makes a tree, and the list of its registers, of which some are replaced.
tree() {
    python3 "$top/tools/make_tree.py" "$room/$1" "$1"
    python3 "$top/bench/scale/list.py" "$room/$1" 8 >"$room/$1.list"
}

case $1 in -*) usage ;; esac
mkdir -p -- "$1"
results=$(cd -- "$1" && pwd)
shift
sizes=() words=()
for word in "$@"; do
    case $word in
        *=*) words+=("$word") ;;
        *) sizes+=("$word") ;;
    esac
done
[ ${#sizes[@]} -gt 0 ] || sizes=(10000 100000 1000000 10000000)
# Libraries that are proved already; rt makes those anew whose sources differ.
for library in "$top"/crates/*/out/rlib; do
    [ -d "$library" ] || continue
    crate=$(basename -- "${library%/out/rlib}")
    mkdir -p -- "$copy/crates/$crate/out"
    cp -r -- "$library" "$copy/crates/$crate/out/rlib"
done
# Everything is proved here; without a list the program ends with status 2.
(cd -- "$copy/crates/scale" && rt run >&2) || [ -x "$copy/crates/scale/out/scale" ]
status=0
for sites in "${sizes[@]}"; do
    tree "$sites"
    "$copy/crates/scale/out/scale" "$room/$sites.list" ${words[@]+"${words[@]}"} >"$results/$sites.tsv" || status=1
    rm -rf -- "${room:?}/$sites"
done
python3 "$top/bench/scale/tables.py" "$results"
python3 "$top/bench/scale/plots.py" "$results" "$results"
exit $status
