#!/usr/bin/env bash
# Measures how many replies a second `ddt serve` gives on the loopback, beside `ddtd serve`, a plain program in Rust
# (bench/peer), nsd and a program that sends each datagram back: bench/serve.sh [--save] [PROGRAM]
#
# PROGRAM is the program itself; without it that which the launcher runs is taken. DDTD names the daemon likewise. A register of 20,000 zones is
# compiled, and its root's configuration served; nsd serves as many delegations, with one process. The peer is to answer
# some requests with the same bytes. Each of the five is loaded alone for three seconds by bench/serve/load.c, with at
# most 64 requests outstanding, in turn and seven times over; the median of the seven counts. A round without a reply
# ends the script. Each has one processor for itself, and the load another, so that no round hangs on which ones the
# system chooses. Then, for the configurations of 65,535 rows: how long a server takes from its start to its end after
# one turn, and how many bytes it has for each row, beside the peer. The status is 1 if `ddt serve` gives less than nsd,
# or less than 0.8 of the program that sends back.
#
# --save appends the ratios to bench/results/serve.tsv, with the date, the commit and the machine. For that the tree has
# to be a git clone.
#
# It sends to 127.0.0.0/8 alone. Wants two processors, python3, gcc, GNU time (Debian: time), nsd (Debian: nsd), and a
# cargo that knows Rust's edition 2024 (1.85).
set -eu -o pipefail
here=$(cd -- "$(dirname -- "${BASH_SOURCE[0]}")" && pwd)
save=''
if [ "${1-}" = --save ]; then
    save=yes
    shift
fi
if [ $# -gt 0 ]; then
    program=$(realpath -- "$1")
else
    program=$("$here/../release/program" ddt)
fi
daemon=${DDTD:-$("$here/../release/program" ddtd)}
seconds=3
window=64
zones=20000
commit=''
if [ -n "$save" ]; then
    commit=$(git -C "$here" rev-parse --short HEAD)
    git -C "$here/.." diff --quiet HEAD -- . ':(exclude)bench/results' || commit+=-dirty
fi
nsd=$(PATH=$PATH:/usr/sbin:/sbin command -v nsd) || { echo "bench/serve.sh: nsd is missing" >&2; exit 1; }
folder=$(mktemp -d)
served=''
trap '[ -z "$served" ] || kill "$served" 2>/dev/null || true; rm -rf -- "$folder"' EXIT

cargo build --quiet --release --offline --manifest-path "$here/peer/Cargo.toml" --target-dir "$folder/peer"
peer=$folder/peer/release/peer
gcc -O2 -Wall -Wextra -o "$folder/load" "$here/serve/load.c"
gcc -O2 -Wall -Wextra -o "$folder/echo" "$here/serve/echo.c"

{
    printf 'kind,prefix,group,addresses\ngroup-node,,root,127.0.0.1\ngroup-ms,,east,127.0.0.2\nnode,*,root,\n'
    seq 0 $((zones - 1)) | sed 's|.*|ms,[&]10.0.0.0/8,east,|'
} >"$folder/register.csv"
"$program" compile "$folder/register.csv" root >"$folder/root.toml"

{
    # shellcheck disable=SC2016
    printf '$ORIGIN example.\n$TTL 3600\n@ SOA ns hostmaster 1 3600 600 86400 900\n@ NS ns\nns A 127.0.0.4\n'
    seq 0 $((zones - 1)) | sed 's|.*|d& NS ns.d&\nns.d& A 127.0.0.2|'
} >"$folder/example.zone"
cat >"$folder/nsd.conf" <<EOF
server:
    server-count: 1
    ip-address: 127.0.0.4@5353
    do-ip6: no
    username: ""
    chroot: ""
    zonesdir: "$folder"
    pidfile: "$folder/nsd.pid"
    xfrdfile: "$folder/xfrd.state"
    zonelistfile: "$folder/zone.list"
    rrl-ratelimit: 0
remote-control:
    control-enable: no
zone:
    name: example
    zonefile: example.zone
EOF

# start WORD..: starts a server.
start() {
    taskset -c 1 "$@" >/dev/null 2>"$folder/said" &
    served=$!
    sleep 1
}

# stop NAME: ends the server that was started last, so that its port is free. Where it has ended before, so does this.
stop() {
    kill "$served" 2>/dev/null || fail "$1 has ended early"
    wait "$served" 2>/dev/null || true
    served=''
}

# fail TEXT: ends the script, with what the server said.
fail() {
    cat -- "$folder/said" >&2
    echo "bench/serve.sh: $1" >&2
    exit 1
}

# load LIST NAME MODE ADDRESS PORT: loads the server of this name that was started last, appends its replies a second to
# the list, and stops it. In the script's own shell, which alone can wait for the server.
load() {
    local -n rounds=$1
    local replies
    replies=$(taskset -c 0 "$folder/load" "$3" "$4" "$5" "$seconds" "$window" "$zones")
    replies=${replies%% replies/s*}
    [ "$replies" -gt 0 ] || fail "$2 gave no reply"
    stop "$2"
    rounds+=" $replies"
}

# replies NAME PROGRAM: what it answers to some requests.
replies() {
    local xeid
    start "$2" serve "$folder/root.toml" 127.0.0.1 4294967295
    for xeid in '[0]10.0.0.1' "[$((zones - 1))]10.1.2.3" '[5]11.0.0.1' "[$zones]10.0.0.1" '[0]2001:db8::1'; do
        python3 "$here/../tools/ask.py" 127.0.0.1 "$xeid" || fail "$1 gave no reply to $xeid"
    done >"$folder/replies"
    stop "$1"
}

# median NUMBER..: of an odd count
median() {
    printf '%s\n' "$@" | sort -n | sed -n "$((($# + 1) / 2))p"
}

replies 'ddt serve' "$program"
mv -- "$folder/replies" "$folder/ours"
replies peer "$peer"
cmp -- "$folder/ours" "$folder/replies" || fail 'ddt serve and the peer give other replies'

ours='' served_on='' plain='' theirs='' echoed=''
for _ in 1 2 3 4 5 6 7; do
    start "$program" serve "$folder/root.toml" 127.0.0.1 4294967295
    load ours 'ddt serve' ddt 127.0.0.1 4342
    start "$daemon" serve "$folder/root.toml"
    load served_on 'ddtd serve' ddt 127.0.0.1 4342
    start "$peer" serve "$folder/root.toml" 127.0.0.1 4294967295
    load plain peer ddt 127.0.0.1 4342
    start "$nsd" -d -c "$folder/nsd.conf"
    load theirs nsd dns 127.0.0.4 5353
    start "$folder/echo" 127.0.0.3 5353 $((seconds + 4))
    load echoed 'what sends back' echo 127.0.0.3 5353
done

# started PROGRAM CONFIG ADDRESS: milliseconds of one turn with the start, and kilobytes; the least of five. GNU time
# has the size alone, since its clock has steps of ten milliseconds.
started() {
    local room=$folder/started begin end
    for _ in 1 2 3 4 5; do
        begin=${EPOCHREALTIME/[.,]/}
        taskset -c 1 "$1" serve "$2" "$3" 1 >/dev/null
        end=${EPOCHREALTIME/[.,]/}
        /usr/bin/time -f %M -o "$room" "$1" serve "$2" "$3" 1 >/dev/null
        echo "$((end - begin)) $(cat -- "$room")"
    done | awk 'NR == 1 || $1 < s { s = $1 } NR == 1 || $2 < m { m = $2 } END { print s / 1000, m }'
}

echo "replies a second on $(nproc) cores: ddt serve$ours, ddtd$served_on, peer$plain, nsd$theirs, sent back$echoed"
printf '\n| shape | rows | start | peer | of the peer | bytes a row | peer |\n|---|---|---|---|---|---|---|\n'
rows=65535
for place in flat:root:127.0.0.1 groups:g0:127.0.1.0 sites:east:127.0.0.2; do
    IFS=: read -r shape group address <<<"$place"
    python3 "$here/../tools/make_register.py" "$shape" "$rows" >"$folder/$shape.csv"
    "$program" compile "$folder/$shape.csv" "$group" >"$folder/$shape.toml"
    of_ours=$(started "$program" "$folder/$shape.toml" "$address")
    of_peer=$(started "$peer" "$folder/$shape.toml" "$address")
    read -r milliseconds kilobytes peer_milliseconds peer_kilobytes <<<"$of_ours $of_peer"
    awk -v s="$shape" -v r="$rows" -v a="$milliseconds" -v b="$peer_milliseconds" -v m="$kilobytes" \
        -v n="$peer_kilobytes" 'BEGIN {
            printf "| %s | %d | %.1f ms | %.1f ms | %.2f | %d | %d |\n", s, r, a, b, a / b, m * 1024 / r, n * 1024 / r
        }'
done
echo
# shellcheck disable=SC2086
read -r ours served_on plain theirs echoed \
    <<<"$(median $ours) $(median $served_on) $(median $plain) $(median $theirs) $(median $echoed)"
if [ -n "$save" ]; then
    saved=$here/results/serve.tsv
    mkdir -p -- "$here/results"
    [ -f "$saved" ] || printf '#date\tcommit\tmachine\tof the peer\tof nsd\tof what is sent back\n' >"$saved"
    machine="$(nproc) x $(sed -n 's/^model name[^:]*: //p' /proc/cpuinfo | head -n 1)"
    awk -v OFS='\t' -v d="$(date -u +%F)" -v c="$commit" -v m="$machine" \
        -v o="$ours" -v p="$plain" -v t="$theirs" -v e="$echoed" \
        'BEGIN { CONVFMT = "%.2f"; print d, c, m, o / p "", o / t "", o / e "" }' >>"$saved"
fi
awk -v ours="$ours" -v daemon="$served_on" -v plain="$plain" -v theirs="$theirs" -v echoed="$echoed" 'BEGIN {
    printf "ddt serve %d, ddtd serve %d (%.2f of it), ", ours, daemon, daemon / ours
    printf "peer %d (%.2f of it), nsd %d (%.2f of it), ", plain, ours / plain, theirs, ours / theirs
    printf "sent back %d (%.2f of it)\n", echoed, ours / echoed
    exit ours >= theirs && ours >= 0.8 * echoed ? 0 : 1
}'
