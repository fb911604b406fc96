#!/usr/bin/env bash
# Measures how many replies a second several processes of `ddtd serve --share` give at one address: bench/share.sh
#
# DDTD and DDT name the programs; without them those are taken that the launchers run. The root's configuration of a
# register of 20,000 zones is served by 1, 2 and 3 processes, each with one processor for itself. Eight programs of
# bench/serve/load.c load them for three seconds, each from a port of its own with at most 64 requests outstanding, on
# the processors that are left. The median of five rounds counts.
#
# Prints a row for each count of processes: replies a second, how many times those of one process, and the processor time
# of the servers for a reply. It sends to 127.0.0.0/8 alone. Wants four processors, where nothing else runs, python3 and
# gcc.
set -eu -o pipefail
here=$(cd -- "$(dirname -- "${BASH_SOURCE[0]}")" && pwd)
daemon=${DDTD:-$("$here/../release/program" ddtd)}
program=${DDT:-$("$here/../release/program" ddt)}
seconds=3 window=64 zones=20000 loads=8 rounds=5 processors=4
folder=$(mktemp -d)
servers=()
trap 'kill "${servers[@]}" 2>/dev/null || true; rm -rf -- "$folder"' EXIT
gcc -O2 -Wall -Wextra -o "$folder/load" "$here/serve/load.c"
{
    printf 'kind,prefix,group,addresses\ngroup-node,,root,127.0.0.1\ngroup-ms,,east,127.0.0.2\nnode,*,root,\n'
    seq 0 $((zones - 1)) | sed 's|.*|ms,[&]10.0.0.0/8,east,|'
} >"$folder/register.csv"
"$program" compile "$folder/register.csv" root >"$folder/root.toml"

# start COUNT: starts so many servers.
start() {
    local place
    servers=()
    for ((place = 0; place < $1; place++)); do
        taskset -c "$place" "$daemon" serve "$folder/root.toml" --share 2>"$folder/said$place" &
        servers+=($!)
    done
    for ((place = 0; place < $1; place++)); do
        timeout 20 sh -c "until grep -q ready '$folder/said$place'; do sleep 0.05; done"
    done
}

stop() {
    kill "${servers[@]}"
    wait "${servers[@]}" 2>/dev/null || true
    servers=()
}

# nanoseconds: what the servers have run so far
nanoseconds() {
    local server sum=0 ran
    for server in "${servers[@]}"; do
        read -r ran _ <"/proc/$server/schedstat"
        sum=$((sum + ran))
    done
    echo "$sum"
}

# round COUNT: replies a second of so many processes, and nanoseconds of theirs for a reply
round() {
    local before replies=0 each number ran
    before=$(nanoseconds)
    for ((number = 0; number < loads; number++)); do
        taskset -c "$1-$((processors - 1))" "$folder/load" ddt 127.0.0.1 4342 "$seconds" "$window" "$zones" \
            >"$folder/load$number" &
        loading[number]=$!
    done
    wait "${loading[@]}"
    ran=$(($(nanoseconds) - before))
    for ((number = 0; number < loads; number++)); do
        each=$(<"$folder/load$number")
        replies=$((replies + ${each%% replies/s*}))
    done
    echo "$replies $((ran / seconds / replies))"
}

echo 'processes  replies/s  of one  ns a reply'
one=''
for count in 1 2 3; do
    start "$count"
    for ((number = 0; number < rounds; number++)); do
        round "$count"
    done >"$folder/rounds"
    stop
    read -r replies cost < <(sort -n "$folder/rounds" | sed -n "$(((rounds + 1) / 2))p")
    one=${one:-$replies}
    printf '%9d  %9d  %6s  %10d\n' "$count" "$replies" "$(python3 -c "print(f'{$replies / $one:.2f}')")" "$cost"
done
