#!/usr/bin/env bash
# Prints what a tick with nothing due and a followed reply take with 1, 100 and 1,024 lookups pending, in instructions
# of the program that the launcher runs: bench/pending_lookups.sh
#
# Each number is the difference of two replays, of which one has so many steps more, for each of these steps; reading
# the step and printing its line are in it. Instructions depend on no load. Wants valgrind (Debian: valgrind).
set -eu
cd -- "$(dirname -- "${BASH_SOURCE[0]}")/.."
program=$(release/program ddt)
folder=$(mktemp -d)
trap 'rm -rf -- "$folder"' EXIT
printf 'kind,prefix,group,addresses\ngroup-node,,root,127.0.0.1\ngroup-node,,ten,127.0.0.10\n' >"$folder/register.csv"
printf 'node,*,root,\nnode,[0]10.0.0.0/8,ten,\n' >>"$folder/register.csv"
ticks=20000

# instructions SCRIPT: those of its replay
instructions() {
    valgrind --tool=callgrind --callgrind-out-file=/dev/null "$program" replay "$folder/register.csv" "$1" \
        2>&1 >/dev/null |
        sed -n 's/.*Collected : //p'
}

# more SCRIPT SCRIPT STEPS: for each of so many steps what the second takes more than the first
more() {
    echo $((($(instructions "$2") - $(instructions "$1")) / $3))
}

printf '| pending | tick | followed reply |\n|---|---|---|\n'
for pending in 1 100 1024; do
    replies=$((pending < 500 ? pending : 500))
    asked=$folder/asked ticked=$folder/ticked delivered=$folder/delivered followed=$folder/followed
    for ((n = 0; n < pending; n++)); do echo "ask [0]10.$((n / 256)).$((n % 256)).1"; done >"$asked"
    { cat -- "$asked" && yes tick | head -n "$ticks"; } >"$ticked"
    { cat -- "$asked" && seq -f 'deliver %.0f' 0 $((pending - 1)); } >"$delivered"
    { cat -- "$delivered" && seq -f 'deliver %.0f' "$pending" $((pending + replies - 1)); } >"$followed"
    printf '| %s | %s | %s |\n' "$pending" "$(more "$asked" "$ticked" "$ticks")" \
        "$(more "$delivered" "$followed" "$replies")"
done
