#!/usr/bin/env bash
# Measures the daemon as a Map-Server whose ETRs register, on the loopback: 20,000 sites with a key each, of which
# 18,000 register and refresh in 54 seconds, beside ITRs that ask as fast as they are answered:
# bench/registrations.sh [SECONDS]
#
# The daemon has one processor, each of two loads another, and what registers, and a sample, the fourth. Each answer to
# a load is compared with the register that is in force (bench/daemon/lookups.c says how), and 10,000 more with what
# `ddt assign` says of it (bench/registrations/sample.py). First the loads ask without a Map-Register for 20 seconds,
# then for SECONDS (75) beside 333 a second, and then there are Map-Registers alone for 20 seconds. Prints for each how
# many requests and Map-Registers were answered, lost or answered wrongly, and the daemon's processor time. The status
# is 1 if an answer was wrong.
#
# It sends to 127.0.0.0/8 alone. Wants four processors, python3 and gcc. DDT, DDTD and DDTPLAN name the programs, by
# default those that the launchers run.
set -eu -o pipefail
here=$(cd -- "$(dirname -- "${BASH_SOURCE[0]}")" && pwd)
ddt=${DDT:-$("$here/../release/program" ddt)}
ddtd=${DDTD:-$("$here/../release/program" ddtd)}
ddtplan=${DDTPLAN:-$("$here/../release/program" ddtplan)}
seconds=${1:-75}
folder=$(mktemp -d)
export PYTHONDONTWRITEBYTECODE=yes
daemon='' others=()
status=0

# shellcheck disable=SC2317  # the trap calls it
clean() {
    kill ${daemon:+"$daemon"} "${others[@]}" 2>/dev/null || true
    wait
    rm -rf -- "$folder"
}
trap clean EXIT

gcc -O2 -Wall -Wextra -o "$folder/lookups" "$here/daemon/lookups.c"
python3 "$here/registrations/tree.py" "$folder"
"$ddtplan" blocks "$folder/force.csv" | python3 "$here/registrations/tree.py" "$folder" items
"$ddt" compile "$folder/register.csv" ms >"$folder/ms.toml"

# spent: the nanoseconds of processor time that the daemon has had
spent() {
    cut -d ' ' -f 1 "/proc/$daemon/schedstat"
}

# ask SECONDS: both loads ask for so long, in the background
ask() {
    taskset -c 0 "$folder/lookups" lisp 127.0.2.1 "$folder/one" "$1" 64 127.0.4.1 127.0.3.1 >"$folder/one.said" &
    others+=($!)
    taskset -c 2 "$folder/lookups" lisp 127.0.2.1 "$folder/two" "$1" 64 127.0.4.2 127.0.3.2 >"$folder/two.said" &
    others+=($!)
}

# register SECONDS: the xTRs register for so long, in the background
register() {
    taskset -c 3 python3 "$here/registrations/refresh.py" "$folder/xtrs" "$1" >"$folder/xtrs.said" &
    others+=($!)
}

# sample SECONDS: 10,000 more are asked for, in the background; that goes on for longer
sample() {
    python3 "$here/registrations/sample.py" "$ddt" "$folder" 10000 "$1" >"$folder/sample.said" &
    sampling=$!
}

# sent: how many Map-Registers were sent
sent() {
    sed -n 's/.*sent \([0-9]*\).*/\1/p' "$folder/xtrs.said"
}

# ended: waits for all in the background
ended() {
    local other
    for other in "${others[@]}"; do
        wait "$other" || status=1
    done
    others=()
}

# asked: how many were answered to both loads, by their last lines: registered, not registered, and holes
asked() {
    tail -qn 1 "$folder"/{one,two}.said | tr -d , | awk '
        { for (i = 1; i < NF; i++) if ($i == "registered" || $i == "holes") sum += $(i + 1) }
        END { print sum + 0 }'
}

# said WHAT SPENT FILE..: prints what the last lines of these files say, and how much of a processor the daemon took
said() {
    local file
    echo "$1: $(awk -v ns="$2" -v s="$took" 'BEGIN { printf "%.2f s of %.0f", ns / 1e9, s }') of processor time"
    for file in "${@:3}"; do
        echo "    $(tail -n 1 "$folder/$file")"
    done
}

# phase WHAT SECONDS WORD..: runs these for so long, and prints what they say
phase() {
    local before began=${EPOCHREALTIME/./} word files=()
    before=$(spent)
    for word in "${@:3}"; do
        case $word in
            ask) ask "$2"; files+=(one.said two.said) ;;
            register) register "$2"; files+=(xtrs.said) ;;
            sample) sample "$2" ;;
        esac
    done
    ended
    took=$(((${EPOCHREALTIME/./} - began) / 1000000))
    last=$(($(spent) - before))
    said "$1" "$last" "${files[@]}"
}

taskset -c 1 "$ddtd" serve "$folder/ms.toml" --settings "$folder/allow.toml" --keys "$folder/keys.toml" \
    --registrations "$folder/registrations" --control "$folder/control" 2>"$folder/log" &
daemon=$!
for _try in {1..600}; do
    ! grep -q '^<5>ready' "$folder/log" || break
    kill -0 "$daemon" || { cat -- "$folder/log" >&2; exit 1; }
    sleep 0.1
done
grep '^<5>ready' "$folder/log" | cut -c 4-
phase 'each site registers once' 0 register
"$ddtd" tell "$folder/control" sites | tail -n 1
sampling=
phase 'requests alone' 20 ask
alone=$last count=$(asked)
phase 'requests beside Map-Registers' "$seconds" ask register sample
beside=$last both=$(asked) many=$(sent)
wait "$sampling" || status=1
echo "    $(cat -- "$folder/sample.said")"
phase 'Map-Registers alone' 20 register
echo "$alone $count $beside $both $seconds $many $last $took $(sent)" | awk '{
    printf "a request: %.2f us alone, %.2f us with the Map-Registers beside it\n", $1 / $2 / 1e3, $3 / $4 / 1e3
    printf "requests a second: %.0f alone, %.0f beside %.0f Map-Registers\n", $2 / 20, $4 / $5, $6 / $5
    printf "a Map-Register alone: %.1f us; %.0f a second take %.1f ms\n", $7 / $9 / 1e3, $9 / $8, $7 / $8 / 1e6
}'
"$ddtd" tell "$folder/control" stats | grep -E '^(num\.register|now\.(keyed|registered))' | grep -v '=0$' |
    paste -sd ' '
exit "$status"
