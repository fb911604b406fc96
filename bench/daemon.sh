#!/usr/bin/env bash
# Measures the daemon as a resolver on the loopback, beside unbound, over a tree of 65,536 identifiers and one of as many
# names: bench/daemon.sh [--soak MINUTES | --hostile COUNT | --full]
#
# Each resolver has one processor, the load another, and the servers the rest. First each identifier is asked for once
# with an empty cache, then once more, then at random for five seconds. Each answer is compared with what the register
# assigns (bench/daemon/lookups.c says how). Then the daemons are left alone for ten seconds: how often they wake up,
# and what time they take.
#
# --soak is a long run among servers that come and go, without the rest. It asks at random for so many minutes. Every 20
# seconds one of the servers is gone for 5: the root and the second Map-Server are frozen (SIGSTOP), the node and the
# first Map-Server are killed and started anew. The root and the node are asked only for what the resolver doesn't
# remember, so in the first round, and each 15th, it is told to forget all when they go. An answer that doesn't come is
# asked for again, as an ITR does. A line a minute has the seconds and the kilobytes of the resolver, the root, the node
# and both Map-Servers; an asterisk marks a server that was started anew since the line before. At the end are the line
# of the load and the counts of the resolver. The status is 1 if an answer was wrong, if one never came, or if a daemon
# died that wasn't killed.
#
# --hostile measures nothing: while it asks, fuzz/hostile.py sends COUNT datagrams to each socket of each daemon, and
# then floods the resolver for ten seconds with requests of an address that may not ask. --full fills the cache of a
# resolver for another tree, as bench/daemon/full.py says, and prints its processor time a lookup with 60,000 entries
# and with a full cache: of sites that it remembers, and of identifiers that it doesn't.
#
# It sends to 127.0.0.0/8 alone. Wants root for port 53, four processors, python3, gcc, nsd and unbound (Debian's
# packages of these names). --soak, --hostile and --full want only python3 and gcc, and --full two processors. DDT, DDTD
# and DDTPLAN name the programs, by default those that the launchers run. ONE_CORE names a processor that everything
# shares.
set -eu -o pipefail
here=$(cd -- "$(dirname -- "${BASH_SOURCE[0]}")" && pwd)
ddt=${DDT:-$("$here/../release/program" ddt)}
ddtd=${DDTD:-$("$here/../release/program" ddtd)}
ddtplan=${DDTPLAN:-$("$here/../release/program" ddtplan)}
load_core=${ONE_CORE:-0} resolver_core=${ONE_CORE:-1} server_cores=${ONE_CORE:-2,3}
minutes=0 hostile=0 full=0 tools=(gcc python3 nsd unbound)
case "${1-}" in
    --soak) minutes=$2 tools=(gcc python3) ;;
    --hostile) hostile=$2 tools=(gcc python3) ;;
    --full) full=1 tools=(gcc python3) server_cores=${ONE_CORE:-0} ;;
esac
PATH=$PATH:/usr/sbin:/sbin
for tool in "${tools[@]}"; do
    command -v "$tool" >/dev/null || { echo "bench/daemon.sh: it wants $tool" >&2; exit 1; }
done
folder=$(mktemp -d)
daemons=() others=()

# A daemon that is frozen ends when it goes on.
clean() {
    kill "${daemons[@]}" "${others[@]}" 2>/dev/null || true
    kill -CONT "${daemons[@]}" 2>/dev/null || true
    wait
    rm -rf -- "$folder"
}
trap clean EXIT

gcc -O2 -Wall -Wextra -o "$folder/lookups" "$here/daemon/lookups.c"
maker=$here/daemon/tree.py
[ "$full" = 0 ] || maker=$here/daemon/full.py
python3 "$maker" "$folder"
"$ddtplan" blocks "$folder/register.csv" | python3 "$maker" "$folder" items

# run CORE WORD..: starts a daemon of ours on some processors.
run() {
    taskset -c "$1" "${@:2}" 2>>"$folder/log" &
    daemons+=($!)
}

resolver_on() {
    run "$resolver_core" "$ddtd" resolve "$folder/resolver.toml" --control "$folder/resolver.sock"
    sleep 0.5
}

# load WORD..: one line of what the load says, behind the last line of the minutes.
load() {
    taskset -c "$load_core" "$folder/lookups" "$@" | tail -n 1
}

# compiled GROUP: its configuration, in a file.
compiled() {
    "$ddt" compile "$folder/register.csv" "$1" >"$folder/$1.toml"
    echo "$folder/$1.toml"
}

# judge: asks the resolver while it and the servers are attacked. Each answer has to be right, and each daemon to run on.
judge() {
    local status=0 pid
    taskset -c "$load_core" "$folder/lookups" lisp 127.0.0.53 "$folder/items" 36000 4 127.0.4.1 127.0.3.1 >"$folder/judged" &
    local asking=$!
    for pid in "${daemons[@]}"; do
        python3 "$here/../fuzz/hostile.py" "$pid" "$hostile"
    done
    python3 "$here/../fuzz/hostile.py" flood 127.0.0.53 10
    kill -INT "$asking"
    wait "$asking" || status=$?
    tail -n 1 "$folder/judged"
    for pid in "${daemons[@]}"; do
        kill -0 "$pid" || status=1
    done
    "$ddtd" tell "$folder/resolver.sock" stats
    return "$status"
}

# The servers that come and go, in turn: the place of each among the daemons, and how it goes.
places=(1 2 3 4) ways=(STOP KILL KILL STOP)
groups=(resolver root ten g0 g1)
anew=()

# flush_in_time TURN: in the first turns of some rounds the resolver is told to forget all
flush_in_time() {
    if [ $(($1 % ${#places[@]})) -lt 2 ] && [ $(($1 / ${#places[@]} % 15)) = 0 ]; then
        "$ddtd" tell "$folder/resolver.sock" flush >/dev/null
    fi
}

# goes PLACE WAY: a server is gone by a signal
goes() {
    kill -s "$2" "${daemons[$1]}"
    [ "$2" = STOP ] || wait "${daemons[$1]}" 2>/dev/null || true
}

# comes PLACE WAY: a server that is gone is there again
comes() {
    if [ "$2" = STOP ]; then
        kill -CONT "${daemons[$1]}"
    else
        run "$server_cores" "$ddtd" serve "$folder/${groups[$1]}.toml"
        daemons[$1]=${daemons[-1]} anew[$1]='*'
        unset 'daemons[-1]'
    fi
}

# memory: the kilobytes of each daemon, with an asterisk where it was started anew since the last time
memory() {
    local place
    for place in "${!daemons[@]}"; do
        printf ' %s%s' "$(awk '/^VmRSS/ { print $2 }' "/proc/${daemons[place]}/status")" "${anew[place]-}"
    done
    echo
}

# all_run GONE: whether all daemons run, but for the one at this place
all_run() {
    local place status=0
    for place in "${!daemons[@]}"; do
        if [ "$place" != "$1" ] && ! kill -0 "${daemons[place]}" 2>/dev/null; then
            echo "it died: ${groups[place]}"
            status=1
        fi
    done
    return "$status"
}

# wait_until TIME: in microseconds since 1970
wait_until() {
    local left=$(($1 - ${EPOCHREALTIME/./}))
    [ "$left" -le 0 ] || sleep "${left}e-6"
}

# soak: asks for so many minutes, while servers come and go. A beat is 5 seconds, a turn 4 beats.
soak() {
    local status=0 begin=${EPOCHREALTIME/./} beat turn place gone=
    taskset -c "$load_core" "$folder/lookups" \
        lisp 127.0.0.53 "$folder/items" $((minutes * 60)) 128+ 127.0.4.1 127.0.3.1 again >"$folder/soak" &
    local asking=$!
    others+=("$asking")
    for ((beat = 0; beat <= minutes * 12; beat++)); do
        wait_until $((begin + beat * 5000000))
        if ! all_run "$gone"; then
            status=1
            kill -INT "$asking"
            break
        fi
        turn=$((beat / 4)) gone=
        place=$((turn % ${#places[@]}))
        case $((beat % 4)) in
            1)
                gone=${places[place]}
                goes "$gone" "${ways[place]}"
                flush_in_time "$turn"
                ;;
            2) comes "${places[place]}" "${ways[place]}" ;;
        esac
        if [ $((beat % 12)) = 0 ]; then
            echo "$((beat * 5))$(memory)"
            anew=()
        fi
    done
    wait "$asking" || status=$?
    tail -n 1 "$folder/soak"
    "$ddtd" tell "$folder/resolver.sock" stats || status=1
    return "$status"
}

# ask LIST WINDOW: asks the resolver for each identifier of a list, for a minute at most
ask() {
    load lisp 127.0.0.53 "$folder/$1" 60 "$2" 127.0.4.1 127.0.3.1 once >"$folder/said"
}

# count NAME: a count of the resolver
count() {
    "$ddtd" tell "$folder/resolver.sock" stats | sed -n "s/^$1=//p"
}

# spent: the nanoseconds of processor time that the resolver has had
spent() {
    cut -d ' ' -f 1 "/proc/${daemons[0]}/schedstat"
}

# price LIST: the microseconds of processor time that a lookup of the list takes the resolver
price() {
    local before lookups
    before=$(spent) lookups=$(count num.lookups)
    ask "$1" 8
    echo "$before $(spent) $lookups $(count num.lookups)" | awk '{ printf "%.1f", ($2 - $1) / 1000 / ($4 - $3) }'
}

# fill: fills the cache, and prints the prices on the way and at its end
fill() {
    local group
    resolver_on
    for group in root ms; do
        run "$server_cores" "$ddtd" serve "$(compiled "$group")"
    done
    sleep 1
    ask warm 128
    ask first 128
    echo '| entries | remembered | new |'
    echo '|---|---|---|'
    echo "| $(count now.cached) | $(price again) | $(price new) |"
    ask rest 128
    echo "| $(count now.cached) | $(price again) | $(price newer) |"
}

if [ "$full" = 1 ]; then
    fill
    exit
fi
resolver_on
for group in root ten g0 g1; do
    run "$server_cores" "$ddtd" serve "$(compiled "$group")"
done
sleep 2
if [ "$hostile" != 0 ]; then
    judge
    exit
elif [ "$minutes" != 0 ]; then
    soak
    exit
fi
echo 'ddtd, an empty cache:'
load lisp 127.0.0.53 "$folder/items" 600 128 127.0.4.1 127.0.3.1 once
echo 'ddtd, once more:'
load lisp 127.0.0.53 "$folder/items" 600 128 127.0.4.1 127.0.3.1 once
echo 'ddtd, at random:'
load lisp 127.0.0.53 "$folder/items" 5 128 127.0.4.1 127.0.3.1

# woken PID: how often it was woken up so far, and its time in hundredths of a second.
woken() {
    awk '/^voluntary/ { print $2 }' "/proc/$1/status"
    awk '{ print $14 + $15 }' "/proc/$1/stat"
}
sleep 12
for pid in "${daemons[@]}"; do
    woken "$pid" | paste -sd ' '
done >"$folder/before"
sleep 10
for pid in "${daemons[@]}"; do
    woken "$pid" | paste -sd ' '
done | paste -d ' ' "$folder/before" - |
    awk '{ printf "at rest: %.1f wake-ups a second, %.2f ms a second\n", ($3 - $1) / 10, ($4 - $2) }'

for name in root ten below; do
    taskset -c "$server_cores" nsd -d -c "$folder/$name.nsd" >"$folder/$name.log" 2>&1 &
    others+=($!)
done
for name in root ten below; do
    until grep -q 'nsd started' "$folder/$name.log"; do sleep 0.2; done
done
taskset -c "$resolver_core" unbound -c "$folder/unbound.conf" >/dev/null 2>&1 &
others+=($!)
sleep 3
echo 'unbound, an empty cache:'
load dns 127.0.5.53 "$folder/names" 600 128 127.0.4.1 once
echo 'unbound, once more:'
load dns 127.0.5.53 "$folder/names" 600 128 127.0.4.1 once
echo 'unbound, at random:'
load dns 127.0.5.53 "$folder/names" 5 128 127.0.4.1
kill "${others[@]}"
others=()
