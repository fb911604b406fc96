#!/usr/bin/env bash
# Runs the daemons over seven network namespaces, IPv4 and IPv6: an ITR, a Map-Resolver, a root, a node, two
# Map-Servers, of which the first never answers, and an ETR. Each outcome is to reach the ITR: the ETR's answer, a hole,
# a site that isn't registered, an identifier of another instance; then with each fifth datagram lost, after files were
# taken up or refused, and after an address has come.
#
# usage: tests/namespaces.sh
#
# DDT and DDTD name the programs, by default those of ./ddt and ./ddtd; KEEP a folder that is kept, with the logs and a
# capture. It wants Linux with network namespaces, which others than root have by a user namespace, unshare, ip of
# iproute2, and Python 3.11. Where one is missing, a line says so and nothing is run. The status is 1 if something isn't
# as it should be.
set -u -o pipefail
cd -- "$(dirname -- "${BASH_SOURCE[0]}")/.." || exit 1

# not_run WHY: ends without a test
not_run() {
    echo "NOT RUN, the daemons over network namespaces: $1"
    exit 0
}

if [ -z "${WITHIN_NAMESPACES:-}" ]; then
    for tool in unshare ip python3; do
        command -v "$tool" >/dev/null || not_run "there is no $tool"
    done
    apart=(unshare --net --mount)
    [ "$(id -u)" = 0 ] || apart+=(--user --map-root-user)
    # ip keeps the names of namespaces in /run. They go with the last process in here.
    "${apart[@]}" mount -t tmpfs tmpfs /run 2>/dev/null || not_run 'this user can have none here'
    DDT=$(realpath -- "${DDT:-$(release/program ddt)}") && DDTD=$(realpath -- "${DDTD:-$(release/program ddtd)}") || exit 1
    export DDT DDTD WITHIN_NAMESPACES=yes
    # shellcheck disable=SC2016
    exec "${apart[@]}" bash -c 'mount -t tmpfs tmpfs /run && exec "$0"' tests/namespaces.sh
fi

ddt=$DDT ddtd=$DDTD
scripts=$PWD/tests/namespaces
names=(itr resolver root ten silent east etr)
prefix=ddtd$$
folder=${KEEP:-$(mktemp -d)}
passed=0 failed=0 pids=() asked=()

# Runs a command in a namespace. What is to run on is started without it, so that its number is known.
within() {
    local name=$1
    shift
    ip netns exec "$prefix.$name" "$@"
}

clean() {
    local name
    [ ${#pids[@]} = 0 ] || kill "${pids[@]}" 2>/dev/null
    wait 2>/dev/null
    for name in "${names[@]}" switch; do
        ip netns del "$prefix.$name" 2>/dev/null
    done
    [ -n "${KEEP:-}" ] || rm -rf -- "$folder"
}
trap clean EXIT

make_namespaces() {
    local name number=1
    ip netns add "$prefix.switch" || { echo 'namespaces.sh: no network namespaces here'; exit 1; }
    for name in "${names[@]}"; do
        ip netns add "$prefix.$name" && ip -n "$prefix.$name" link set lo up &&
            ip link add eth0 netns "$prefix.$name" type veth peer name "$name" netns "$prefix.switch" &&
            ip -n "$prefix.switch" link set "$name" up promisc on &&
            ip -n "$prefix.$name" addr add "192.0.2.$number/24" dev eth0 &&
            ip -n "$prefix.$name" addr add "2001:db8::$number/64" dev eth0 nodad &&
            ip -n "$prefix.$name" link set eth0 up || exit 1
        number=$((number + 1))
    done
    echo 0 >"$folder/loss"
    ip netns exec "$prefix.switch" python3 "$scripts/switch.py" "$folder/loss" "$folder/capture.pcap" "${names[@]}" \
        2>"$folder/switch.log" &
    pids+=($!)
}

# Starts a daemon in a namespace, and waits until it says that it is ready.
start() {
    local name=$1
    shift
    ip netns exec "$prefix.$name" "$ddtd" "$@" --control "$folder/$name.sock" 2>"$folder/$name.log" &
    pids+=($!)
    for _ in {1..200}; do
        grep -qs ready "$folder/$name.log" && return
        sleep 0.05
    done
    echo "namespaces.sh: the daemon of $name isn't ready:"
    cat "$folder/$name.log"
    exit 1
}

# Whether what was said is what was to be said.
expect() {
    local what=$1 wanted=$2 got=$3
    if [ "$got" = "$wanted" ]; then
        passed=$((passed + 1))
    else
        failed=$((failed + 1))
        printf '%s:\n  wanted %s\n  got    %s\n' "$what" "$wanted" "$got"
    fi
}

# Starts to ask for an identifier, as an ITR. await_answers compares what it is told.
ask() {
    local what=$1 resolver=$2 itr=$3 eid=$4 instance=$5 wanted=$6 answer=$folder/answer.${#asked[@]}
    within "${from:-itr}" python3 "$scripts/itr.py" "$resolver" "$itr" "$eid" "$instance" "${patience:-20}" >"$answer" &
    asked+=("$! $answer $what|[$instance]$eid $wanted")
}

await_answers() {
    local each pid answer expected
    for each in "${asked[@]}"; do
        read -r pid answer expected <<<"$each"
        wait "$pid"
        expect "${expected%%|*}" "${expected#*|}" "$(cat -- "$answer")"
    done
    asked=()
}

# Waits until the log of a daemon has so many lines that begin so.
await_log() {
    local name=$1 count=$2 line=$3
    for _ in {1..100}; do
        [ "$(grep -c "^$line" "$folder/$name.log")" -ge "$count" ] && return
        sleep 0.05
    done
}

# How many lines of the log of a daemon are just this one.
logged() {
    grep -cxF -- "$2" "$folder/$1.log"
}

tell() {
    within "$1" "$ddtd" tell "$folder/$1.sock" "$2"
}

# Each outcome, for an ITR that asks this resolver from this address.
ask_all() {
    local when=$1 resolver=$2 itr=$3
    ask "$when: the ETR answers" "$resolver" "$itr" 10.1.2.3 0 'registered [0]10.1.2.0/24 at 192.0.2.7'
    ask "$when: the ETR of an IPv6 site answers" "$resolver" "$itr" 2001:db8:a::5 0 \
        'registered [0]2001:db8:a::/48 at 2001:db8::7'
    ask "$when: a hole" "$resolver" "$itr" 10.3.0.1 0 "negative $hole action 1 ttl 15"
    ask "$when: a site that isn't registered" "$resolver" "$itr" 10.1.4.7 0 \
        'negative [0]10.1.4.0/24 action 1 ttl 1'
    ask "$when: another instance" "$resolver" "$itr" 10.1.2.3 7 'negative [7]0.0.0.0/0 action 1 ttl 15'
    await_answers
}

# Writes the configurations of the register, and puts each in the place of the old one at once.
compile() {
    local name
    "$ddt" check "$folder/register.csv" >"$folder/check.log" || { cat "$folder/check.log"; exit 1; }
    for name in root ten east; do
        "$ddt" compile "$folder/register.csv" "$name" >"$folder/$name.new" || exit 1
        mv -- "$folder/$name.new" "$folder/$name.toml"
    done
}

# What a daemon has counted by this name.
counted() {
    tell "$1" stats | sed -n "s/^$2=//p"
}

cat >"$folder/register.csv" <<'END'
kind,prefix,group,addresses
group-node,,root,192.0.2.3 2001:db8::3
group-node,,ten,2001:db8::4
group-ms,,east,192.0.2.5 192.0.2.6 2001:db8::6
node,*,root,
node,[0]10.0.0.0/8,ten,
ms,[0]10.1.0.0/16,east,
site,[0]10.1.2.0/24,,192.0.2.7
site,[0]10.1.4.0/24,,
ms,[0]2001:db8:a::/48,east,
site,[0]2001:db8:a::/48,,2001:db8::7
END
cat >"$folder/resolver.toml" <<'END'
roots = ["192.0.2.3", "2001:db8::3"]
listen = ["192.0.2.2", "2001:db8::2"]
allow = ["192.0.2.1/32", "2001:db8::1/128"]
END

make_namespaces
compile
hole='[0]10.2.0.0/15'
ip netns exec "$prefix.etr" python3 "$scripts/etr.py" 192.0.2.7 2001:db8::7 10.1.2.0/24=192.0.2.7 \
    2001:db8:a::/48=2001:db8::7 10.2.0.0/16=192.0.2.7 >"$folder/etr.log" 2>&1 &
pids+=($!)
ip -n "$prefix.root" addr del 2001:db8::3/64 dev eth0
start root serve "$folder/root.toml"
start ten serve "$folder/ten.toml" 2001:db8::4
start east serve --watch "$folder/east.toml" 192.0.2.6 2001:db8::6
start resolver resolve "$folder/resolver.toml"

# Nothing but a deadline makes the resolver pass a server that doesn't answer.
ask 'the first Map-Server is silent, and is passed' 192.0.2.2 192.0.2.1 10.1.2.3 0 \
    'registered [0]10.1.2.0/24 at 192.0.2.7'
await_answers
expect 'no lookup was given up' 0 "$(counted resolver num.gaveup.noreply)"

ask_all 'IPv4' 192.0.2.2 192.0.2.1
ask_all 'IPv6' 2001:db8::2 2001:db8::1

# Who isn't allowed gets nothing, and is counted. New settings allow it, listen no more over IPv6, and know the root by an
# address that it didn't have when it started.
patience=1 from=etr ask 'an ITR that is not allowed' 192.0.2.2 192.0.2.7 10.3.0.1 0 'no reply'
await_answers
expect 'it is counted' 1 "$(counted resolver num.dropped.denied)"
expect 'a locator that the root lacks' 1 "$(logged root "<4>not served: 2001:db8::3 isn't this machine's")"
expect 'it serves at the other one' 1 "$(counted root now.sockets)"
ip -n "$prefix.root" addr add 2001:db8::3/64 dev eth0 nodad
await_log root 1 '<5>served now'
expect 'it is served once it is there' 1 "$(logged root '<5>served now: 2001:db8::3')"
expect 'it serves at both' 2 "$(counted root now.sockets)"
cp -- "$folder/resolver.toml" "$folder/resolver.good"
cat >"$folder/resolver.toml" <<'END'
roots = ["2001:db8::3"]
listen = ["192.0.2.2", "192.0.2.99"]
END
expect 'settings with an address that is not there' \
    'refused: 192.0.2.99: Cannot assign requested address (os error 99)' "$(tell resolver reload)"
ask 'the old settings go on' 2001:db8::2 2001:db8::1 10.3.0.1 0 "negative $hole action 1 ttl 15"
await_answers
cat >"$folder/resolver.toml" <<'END'
roots = ["2001:db8::3"]
listen = ["2001:db8::2", "192.0.2.2"]
allow = ["192.0.2.7/32", "2001:db8::7/128"]
END
expect 'other settings' reloaded "$(tell resolver reload)"
from=etr ask 'who is allowed now' 192.0.2.2 192.0.2.7 10.3.0.1 0 "negative $hole action 1 ttl 15"
from=etr ask 'over IPv6' 2001:db8::2 2001:db8::7 10.3.0.1 0 "negative $hole action 1 ttl 15"
patience=1 ask 'who is allowed no more' 192.0.2.2 192.0.2.1 10.3.0.1 0 'no reply'
await_answers
cat >"$folder/resolver.toml" <<'END'
roots = ["192.0.2.3"]
listen = ["192.0.2.2"]
allow = ["192.0.2.1/32", "2001:db8::1/128"]
END
expect 'settings without IPv6' reloaded "$(tell resolver reload)"
expect 'it listens at one address' 1 "$(counted resolver now.sockets)"
patience=1 ask 'at the other one nobody listens' 2001:db8::2 2001:db8::1 10.3.0.1 0 'no reply'
ask 'the reply goes to an ITR-RLOC that it can reach' 192.0.2.2 192.0.2.1,2001:db8::1 11.0.0.1 0 \
    'negative [0]11.0.0.0/8 action 1 ttl 15'
await_answers
mv -- "$folder/resolver.good" "$folder/resolver.toml"
expect 'the first settings again' reloaded "$(tell resolver reload)"
ask_all 'after a change of settings' 2001:db8::2 2001:db8::1

# A broken configuration is refused, and the old one goes on.
cp -- "$folder/ten.toml" "$folder/ten.good"
echo 'name = "ten' >"$folder/ten.toml"
expect 'a broken configuration' "refused: $folder/ten.toml: 1 Toml: line 1: invalid string" "$(tell ten reload)"
expect 'it is logged' 1 "$(grep -c '^<4>refused' "$folder/ten.log")"
expect 'it is counted as refused' 1 "$(counted ten num.reload.refused)"
mv -- "$folder/ten.good" "$folder/ten.toml"
ask_all 'after a refused reload' 192.0.2.2 192.0.2.1

# A watched file is taken up when another one takes its name, also one of its length and time.
cp -- "$folder/east.toml" "$folder/east.good"
sed 's|10\.1\.4\.0/24|10.1.6.0/24|' "$folder/east.good" >"$folder/east.new"
touch -r "$folder/east.toml" -- "$folder/east.new" "$folder/east.good"
mv -- "$folder/east.new" "$folder/east.toml"
await_log east 1 '<5>reloaded'
ask 'a watched file was taken up' 192.0.2.2 192.0.2.1 10.1.6.7 0 'negative [0]10.1.6.0/24 action 1 ttl 1'
await_answers
mv -- "$folder/east.good" "$folder/east.toml"
await_log east 2 '<5>reloaded'

# With each fifth datagram lost, and a new register taken up in the middle.
echo 20 >"$folder/loss"
sleep 0.5
patience=60
ask_all 'with loss' 192.0.2.2 192.0.2.1
sed -i 's/^ms,\[0\]10.1.0.0\/16,east,/&\nms,[0]10.2.0.0\/16,east,\nsite,[0]10.2.0.0\/16,,192.0.2.7/' "$folder/register.csv"
compile
for name in east ten root; do
    expect "$name takes it up" reloaded "$(tell "$name" reload)"
done
expect 'the resolver forgets' flushed "$(tell resolver flush)"
expect 'it has forgotten' 0 "$(counted resolver now.cached)"
hole='[0]10.3.0.0/16'
ask_all 'with loss, after a reload' 2001:db8::2 2001:db8::1
ask 'what the new register assigns' 192.0.2.2 192.0.2.1 10.2.9.9 0 'registered [0]10.2.0.0/16 at 192.0.2.7'
await_answers

# The ETR has each request with its bit D clear.
expect 'no request with the bit D at the ETR' 0 "$(grep -c 'D 1' "$folder/etr.log")"
for name in root ten east resolver; do
    tell "$name" stats >"$folder/$name.stats"
    expect "$name stops" stopping "$(tell "$name" stop)"
    await_log "$name" 1 '<5>stopped'
    expect "$name says so" 1 "$(logged "$name" '<5>stopped')"
    expect "its control socket is gone" no "$([ -e "$folder/$name.sock" ] && echo yes || echo no)"
done
expect 'an empty path is no control socket' 'status 2: <3>the control socket: its path is empty' \
    "$(within root timeout 5 "$ddtd" serve "$folder/root.toml" --control '' 2>"$folder/empty"; echo "status $?: $(cat "$folder/empty")")"

echo "$passed passed, $failed failed"
[ "$failed" = 0 ]
