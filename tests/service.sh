#!/usr/bin/env bash
# Shows how a Map-Resolver serves when things go wrong, over network namespaces of its own: a Map-Server that is dead,
# lost datagrams, an ITR that asks for more than its share, a DDT node that lies, a zone that is gone or moves, requests
# that come back, and a locator that can't be reached. ITRs ask at a rate, and compare each answer with what the register
# assigns.
#
# usage: tests/service.sh [CASE..]
#
# The cases are dead, loss, greedy, forged, wide, dissolved, moved, storm, refused and seen; without CASE all are run.
# DDT, DDTD and DDTPLAN name the programs, by default those of ./ddt, ./ddtd and ./ddtplan; KEEP a folder that is kept, with the logs and, in .measured,
# the times of each load. It wants Linux with network namespaces, which others than root have by a user namespace, a
# bridge between them, unshare, ip of iproute2, and Python 3.11. Where one is missing, a line says so and nothing is
# run. The status is 1 if something isn't as it should be.
set -u -o pipefail
cd -- "$(dirname -- "${BASH_SOURCE[0]}")/.." || exit 1

all_cases=(dead loss greedy forged wide dissolved moved storm refused seen)
for word in "$@"; do
    [[ " ${all_cases[*]} " = *" $word "* ]] || { echo "usage: tests/service.sh [${all_cases[*]}]" >&2; exit 2; }
done

# not_run WHY: ends without a test
not_run() {
    echo "NOT RUN, a resolver when things go wrong: $1"
    exit 0
}

if [ -z "${WITHIN_NAMESPACES:-}" ]; then
    for tool in unshare ip python3; do
        command -v "$tool" >/dev/null || not_run "there is no $tool"
    done
    apart=(unshare --net --mount)
    [ "$(id -u)" = 0 ] || apart+=(--user --map-root-user)
    # ip keeps the names of namespaces in /run. They go with the last process in here.
    "${apart[@]}" mount -t tmpfs tmpfs /run 2>/dev/null || not_run 'this user can have none here'
    "${apart[@]}" ip link add bridge type bridge 2>/dev/null || not_run 'there is no bridge here'
    DDT=$(realpath -- "${DDT:-$(release/program ddt)}") || exit 1
    DDTD=$(realpath -- "${DDTD:-$(release/program ddtd)}") || exit 1
    DDTPLAN=$(realpath -- "${DDTPLAN:-$(release/program ddtplan)}") || exit 1
    export DDT DDTD DDTPLAN WITHIN_NAMESPACES=yes
    # shellcheck disable=SC2016
    exec "${apart[@]}" bash -c 'mount -t tmpfs tmpfs /run && exec "$0" "$@"' tests/service.sh "$@"
fi

ddt=$DDT ddtd=$DDTD ddtplan=$DDTPLAN
scripts=$PWD/tests/service
export PYTHONPATH=$PWD/tests/namespaces PYTHONDONTWRITEBYTECODE=yes
# The addresses of the namespaces in 192.0.2.0/24. `late` stands before the root where its replies are to be late.
declare -A addresses=([itr]=1 [resolver]=2 [root]=3 [ten]=4 [east1]=5 [east2]=6 [west]=7 [silent]='8 9' [other]=11
    [etr]=12 [late]=13 [forger]=14)
prefix=service$$
folder=${KEEP:-$(mktemp -d)}
mkdir -p -- "$folder" || exit 1
passed=0 failed=0
declare -A pids=()

# within NAME COMMAND..: runs a command in a namespace, for two minutes at most
within() {
    local name=$1
    shift
    ip netns exec "$prefix.$name" timeout 120 "$@"
}

# end NAME..: ends what was started by these names
end() {
    local name
    for name in "$@"; do
        kill -KILL "${pids[$name]}" 2>/dev/null
        wait "${pids[$name]}" 2>/dev/null
        unset "pids[$name]"
    done
}

clean() {
    local name running
    mapfile -t running < <(jobs -p)
    [ ${#running[@]} = 0 ] || kill -KILL "${running[@]}" 2>/dev/null
    wait 2>/dev/null
    for name in "${!addresses[@]}" switch; do
        ip netns del "$prefix.$name" 2>/dev/null
    done
    [ -n "${KEEP:-}" ] || rm -rf -- "$folder"
}
trap clean EXIT

# connect NAME: makes a namespace with its addresses, whose interface is a port of the bridge
connect() {
    local address
    ip netns add "$prefix.$1" && ip -n "$prefix.$1" link set lo up &&
        ip link add eth0 netns "$prefix.$1" type veth peer name "$1" netns "$prefix.switch" &&
        ip -n "$prefix.switch" link set "$1" addrgenmode none master bridge up &&
        ip -n "$prefix.$1" link set eth0 addrgenmode none up || return 1
    for address in ${addresses[$1]}; do
        ip -n "$prefix.$1" addr add "192.0.2.$address/24" dev eth0 || return 1
    done
}

# A bridge, to which all are connected. From `lossy` a way may lead into it, for a switch that loses datagrams.
make_namespaces() {
    local name
    ip netns add "$prefix.switch" && ip -n "$prefix.switch" link add bridge type bridge &&
        ip -n "$prefix.switch" link set bridge addrgenmode none up &&
        ip -n "$prefix.switch" link add way type veth peer name lossy &&
        ip -n "$prefix.switch" link set way addrgenmode none up &&
        ip -n "$prefix.switch" link set lossy addrgenmode none promisc on up || return 1
    for name in "${!addresses[@]}"; do
        connect "$name" || return 1
    done
}

# start NAME COMMAND..: starts what prints `ready` in a namespace, and waits until it does
start() {
    local name=$1
    shift
    ip netns exec "$prefix.$name" "$@" >"$folder/$name.log" 2>&1 &
    pids[$name]=$!
    for _ in {1..200}; do
        grep -qs ready "$folder/$name.log" && return
        sleep 0.05
    done
    echo "service.sh: what is to run in $name isn't ready:"
    cat -- "$folder/$name.log"
    exit 1
}

# serve NAME GROUP: starts the daemon of a server of a group
serve() {
    start "$1" "$ddtd" serve "$folder/$2.toml" "192.0.2.${addresses[$1]}" --control "$folder/$1.sock"
}

# resolve ROOTS [ALLOWED..]: starts a Map-Resolver with an empty cache for both ITRs, and for other addresses
resolve() {
    local roots=$1 address allow='"192.0.2.1/32", "192.0.2.11/32"'
    shift
    for address in "$@"; do
        allow+=", \"$address/32\""
    done
    printf '%s\n' "roots = [$roots]" 'listen = ["192.0.2.2"]' "allow = [$allow]" >"$folder/resolver.toml"
    start resolver "$ddtd" resolve "$folder/resolver.toml" --control "$folder/resolver.sock"
}

tell() {
    ip netns exec "$prefix.$1" timeout 5 "$ddtd" tell "$folder/$1.sock" "${@:2}"
}

# counted NAME COUNT: the sum of what a daemon has counted by this name; a dot at its end stands for any ending
counted() {
    tell "$1" stats | awk -F= -v name="$2" '
        $1 == name || (name ~ /\.$/ && index($1, name) == 1) { sum += $2 }
        END { print sum + 0 }'
}

# expect WHAT WANTED GOT: whether what was said is what was to be said
expect() {
    if [ "$3" = "$2" ]; then
        passed=$((passed + 1))
    else
        failed=$((failed + 1))
        printf '%s:\n  wanted %s\n  got    %s\n' "$1" "$2" "$3"
    fi
}

# bounded most|least NUMBER COUNT: `at most NUMBER` if the count is, or else the count
bounded() {
    if { [ "$1" = most ] && [ "$3" -le "$2" ]; } || { [ "$1" = least ] && [ "$3" -ge "$2" ]; }; then
        echo "at $1 $2"
    else
        echo "$3"
    fi
}

# load ITR RESULT WORD..: an ITR asks the resolver as load.py has it, and what it says is kept under a name
load() {
    local itr=$1 result=$2
    shift 2
    within "$itr" python3 "$scripts/load.py" --register "$register" --resolver 192.0.2.2 \
        --mine "192.0.2.${addresses[$itr]}" "$@" >"$folder/$result.said" 2>"$folder/$result.measured"
}

# judge WHAT RESULT NAME WANTED: what was said of one of the streams of a load
judge() {
    expect "$1" "$4" "$(sed -n "s/^$3: //p" "$folder/$2.said")"
}

# compile REGISTER GROUP..: writes the configurations of groups, and puts each in the place of the old one at once
compile() {
    local group
    "$ddt" check "$1" >"$folder/check.log" 2>&1 || { cat -- "$folder/check.log"; exit 1; }
    for group in "${@:2}"; do
        "$ddt" compile "$1" "$group" >"$folder/$group.new" || exit 1
        mv -- "$folder/$group.new" "$folder/$group.toml"
    done
}

# blocks SECOND FROM TO [STEP]: an identifier in each block of 16 addresses of 10.SECOND.0.0, by the blocks' numbers
blocks() {
    local number
    for ((number = $2; number < $3; number += ${4:-1})); do
        printf '10.%d.%d.%d\n' "$1" $((number / 16)) $((number % 16 * 16 + ${host:-5}))
    done
}

# The register. In the regions 10.1.0.0/16 and 10.2.0.0/16 each other block of 16 addresses is a site, and each fourth
# site of the second has no ETR. Each other 11.N.0.0/16 is a zone directly below the root, and all of it a site, so that
# the root is asked once for each N. The servers of 10.3.0.0/16 are silent, and the node of 12.0.0.0/16 lies. The one
# ETR of 10.9.0.0/16 is the resolver.
write_register() {
    local number etr
    cat <<'ROWS'
kind,prefix,group,addresses
group-node,,root,192.0.2.3
group-node,,ten,192.0.2.4
group-ms,,east,192.0.2.5 192.0.2.6
group-ms,,west,192.0.2.7
group-ms,,silent,192.0.2.8 192.0.2.9
group-node,,forger,192.0.2.14
node,*,root,
node,[0]10.0.0.0/8,ten,
ms,[0]10.1.0.0/16,east,
ms,[0]10.2.0.0/16,west,
ms,[0]10.3.0.0/16,silent,
ms,[0]10.9.0.0/16,west,
site,[0]10.9.0.0/16,,192.0.2.2
node,[0]12.0.0.0/16,forger,
ROWS
    for ((number = 0; number < 4096; number += 2)); do
        printf 'site,[0]10.1.%d.%d/28,,192.0.2.12\n' $((number / 16)) $((number % 16 * 16))
        [ $((number % 8)) = 6 ] && etr='' || etr=192.0.2.12
        printf 'site,[0]10.2.%d.%d/28,,%s\n' $((number / 16)) $((number % 16 * 16)) "$etr"
    done
    for ((number = 0; number < 256; number += 2)); do
        printf 'ms,[0]11.%d.0.0/16,west,\nsite,[0]11.%d.0.0/16,,192.0.2.12\n' "$number" "$number"
        printf 'ms,[0]12.0.%d.0/24,west,\n' "$number"
    done
}

quick='lost 0, wrong 0, median under 20 ms, worst under 1000 ms'
bounds=(--median 20 --worst 1000)

# One of two Map-Servers is killed, the first of the set. An ITR sends a request at most four times, a second apart.
# After the first two seconds each lookup is as quick as one in another region. Then the server is started again.
dead() {
    local rate slice
    blocks 1 3640 4096 >"$folder/before"
    blocks 1 0 40 >"$folder/few"
    blocks 1 40 440 >"$folder/east.100"
    blocks 1 440 3640 >"$folder/east.800"
    blocks 2 0 400 >"$folder/west.100"
    blocks 2 400 800 >"$folder/west.800"
    resolve '"192.0.2.3"'
    load itr before "${bounds[@]}" "east:800:$folder/before"
    judge 'dead: while both servers are there' before east "$quick"
    kill -KILL "${pids[east1]}"
    wait "${pids[east1]}" 2>/dev/null
    load itr few "east:20:$folder/few"
    judge 'dead: the first few' few east 'lost 0, wrong 0'
    for rate in 100 800; do
        load itr "at.$rate" "${bounds[@]}" "east:$rate:$folder/east.$rate" "west:100:$folder/west.$rate"
        judge "dead: $rate requests a second" "at.$rate" east "$quick"
        judge "dead: another region beside $rate requests a second" "at.$rate" west "$quick"
    done
    serve east1 east
    rm -f -- "$folder"/back.*
    for slice in 0 1 2 3 4; do
        host=$((6 + slice)) blocks 1 $((slice * 200)) $((slice * 200 + 200)) 2 >"$folder/slice"
        load itr "back.$slice" "east:50:$folder/slice"
        [ "$(counted east1 num.received)" = 0 ] || break
    done
    expect 'dead: started again, it is asked' 'at least 1' "$(bounded least 1 "$(counted east1 num.received)")"
    expect 'dead: meanwhile all are answered' 'east: lost 0, wrong 0' "$(sort -u "$folder"/back.*.said)"
}

# lose PERCENT: so many datagrams of a hundred are lost from now on
lose() {
    echo "$1" >"$folder/loss"
    sleep 0.4
}

# Each fifth datagram is lost on the ways to and from the root, the node, the Map-Servers and one ITR. The way of the
# other ITR loses none: of four requests in two seconds, each of them answered with a chance of 64 %, all would be lost
# for 1.7 %, whatever the resolver does. So the first ITR has four seconds. Five has a request for a registered site,
# which may be lost on its way on to the Map-Server, and from there to the ETR.
loss() {
    local name asking ports=(root ten east1 east2 west other)
    { blocks 1 1 250 2; blocks 2 1 250 2; blocks 2 6 406 8; } | shuf >"$folder/holes"
    { blocks 1 601 900 2; blocks 2 601 900 2; } | shuf >"$folder/far"
    { blocks 1 0 600 4; blocks 2 0 600 4; } | shuf >"$folder/sites"
    { blocks 1 4000 4001; blocks 2 4000 4001; } >"$folder/warm"
    for name in "${ports[@]}"; do
        ip -n "$prefix.switch" link set "$name" nomaster promisc on
    done
    ip -n "$prefix.switch" link set way master bridge
    lose 0
    ip netns exec "$prefix.switch" python3 tests/namespaces/switch.py "$folder/loss" "$folder/capture.pcap" \
        "${ports[@]}" lossy >"$folder/switch.log" 2>&1 &
    pids[switch]=$!
    resolve '"192.0.2.3"'
    load other warm --tries 20 --repeat 0.5 "regions:20:$folder/warm"
    lose 20
    load itr sites --tries 20 --repeat 0.5 --within 5:99 "sites:50:$folder/sites" &
    asking=$!
    load other far --tries 20 --repeat 0.5 --within 4:99 "holes:50:$folder/far" &
    load itr holes --tries 20 --repeat 0.5 --within 2:99 "holes:50:$folder/holes"
    wait "$asking" $!
    end switch
    ip -n "$prefix.switch" link set way nomaster
    for name in "${ports[@]}"; do
        ip -n "$prefix.switch" link set "$name" master bridge promisc off
    done
    judge 'loss: before it' warm regions 'lost 0, wrong 0'
    judge 'loss: holes, and sites that are not registered' holes holes 'lost 0, wrong 0, 99 % in 2 s'
    judge 'loss: holes, for an ITR whose way loses as many' far holes 'lost 0, wrong 0, 99 % in 4 s'
    judge 'loss: registered sites' sites sites 'lost 0, wrong 0, 99 % in 5 s'
}

# An ITR asks for 4,000 identifiers of a zone whose servers are silent. Another one has its answers at the first try.
greedy() {
    local number
    for ((number = 0; number < 4000; number++)); do
        printf '10.3.%d.%d\n' $((number / 250)) $((number % 250))
    done >"$folder/silent"
    for ((number = 0; number < 500; number++)); do
        printf '10.128.%d.%d\n' $((number / 250)) $((number % 250))
    done >"$folder/cached"
    blocks 2 0 500 >"$folder/west"
    resolve '"192.0.2.3"'
    head -n 1 "$folder/cached" >"$folder/one"
    load itr hole "hole:10:$folder/one"
    judge 'greedy: before it asks' hole hole 'lost 0, wrong 0'
    load other greedy --tries 1 --repeat 0.5 "silent:1000:$folder/silent" &
    load itr modest --once "${bounds[@]}" "cached:100:$folder/cached" "west:100:$folder/west"
    wait $!
    judge 'greedy: what another ITR asks for, in the cache' modest cached "$quick, none asked again"
    judge 'greedy: what another ITR asks for, not in the cache' modest west "$quick, none asked again"
}

# forge MODE: starts the lying node of 12.0.0.0/16
forge() {
    start forger python3 "$scripts/forger.py" "$1" "$folder/register.csv" 192.0.2.14 12.0.0.0/16 "${@:2}"
}

# The owner of a zone sees what the resolver asks it. It guesses the nonces of the next requests, and forges replies to
# these, also in the name of the root, whose own replies come 40 ms late. None of 200 ITRs that ask for identifiers of
# others at that time is told what the register doesn't assign.
forged() {
    local number
    for ((number = 0; number < 200; number++)); do
        printf '11.%d.2.3\n' "$number"
    done >"$folder/victims"
    for ((number = 1; number < 240; number += 2)); do
        printf '12.0.%d.9\n' "$number"
    done >"$folder/bait"
    start late python3 "$scripts/late.py" 192.0.2.13 192.0.2.3 40
    forge forge 192.0.2.13
    resolve '"192.0.2.13"'
    load other bait "bait:22:$folder/bait" &
    load itr victims "victims:40:$folder/victims"
    wait $!
    judge 'forged: 200 identifiers of others' victims victims 'lost 0, wrong 0'
    judge 'forged: what is asked of its own zone' bait bait 'lost 0, wrong 0'
    expect 'forged: how many requests it saw' 'at least 100' \
        "$(bounded least 100 "$(grep -c ^asked "$folder/forger.log")")"
    end forger late
}

# An answer about more than the zone that was asked holds for that zone alone.
wide() {
    local eid
    printf '%s\n' 11.0.2.3 11.1.2.3 10.1.0.5 10.1.0.21 10.2.0.101 >"$folder/others"
    forge wide
    for eid in 12.0.1.9 12.0.129.9; do
        echo "$eid" >"$folder/own"
        resolve '"192.0.2.3"'
        load itr own --part-of 12.0.0.0/16 "own:10:$folder/own"
        load itr others "others:20:$folder/others"
        judge "wide: $eid, of the zone" own own 'lost 0, wrong 0'
        judge "wide: identifiers of others, after $eid" others others 'lost 0, wrong 0'
        expect "wide: answers that were cut, after $eid" 'at least 1' "$(bounded least 1 "$(counted resolver num.cut)")"
        end resolver
    done
    end forger
}

# take_up REGISTER: the root, ten and west serve this register from now on
take_up() {
    local name
    compile "$1" root ten west
    for name in root ten west; do
        expect "dissolved: $name takes up ${1##*/}" reloaded "$(tell "$name" reload)"
    done
}

# The zone 10.5.0.0/16, of the group that serves 10.0.0.0/8 too, is gone, and what it had lies in a hole that is wider
# than it was. The resolver remembers the zone: the root, which had one between these two, referred to it.
dissolved() {
    local common=$register register=$folder/first.csv
    local rows=('kind,prefix,group,addresses' 'group-node,,root,192.0.2.3' 'group-node,,ten,192.0.2.4'
        'group-ms,,west,192.0.2.7' 'node,*,root,' 'node,[0]10.0.0.0/8,ten,' 'ms,[0]10.128.0.0/9,west,')
    printf '%s\n' "${rows[@]}" >"$folder/second.csv"
    printf '%s\n' "${rows[@]}" 'node,[0]10.0.0.0/12,root,' 'node,[0]10.5.0.0/16,ten,' 'ms,[0]10.5.128.0/17,west,' \
        >"$folder/first.csv"
    echo 10.5.1.9 >"$folder/there"
    echo 10.5.200.1 >"$folder/gone"
    take_up "$register"
    resolve '"192.0.2.3"'
    load itr there "zone:10:$folder/there"
    judge 'dissolved: while the zone is there' there zone 'lost 0, wrong 0'
    register=$folder/second.csv
    take_up "$register"
    load itr gone --tries 2 --repeat 1.5 --worst 3000 --part-of 10.0.0.0/9 "zone:10:$folder/gone"
    judge 'dissolved: when the zone is gone' gone zone 'lost 0, wrong 0, worst under 3000 ms'
    take_up "$common"
}

# take_step NUMBER: takes a step of the rollout from `before.csv` to `after.csv`
take_step() {
    local group name
    "$ddtplan" compile --from "$folder/before.csv" --step "$1" "$folder/after.csv" "$folder" >"$folder/step.said" || exit 1
    while IFS=$'\t' read -r _ _ _ group; do
        for name in "$group" "${group}1" "${group}2"; do
            [ -z "${pids[$name]:-}" ] || expect "moved: $name takes step $1 up" reloaded "$(tell "$name" reload)"
        done
    done < <(grep "^step"$'\t'"$1"$'\t' "$folder/rollout.said")
}

# The region 10.2.0.0/16 moves from one group of Map-Servers to another by the steps of `ddtplan rollout`, while it is
# asked for, each time for the first time or not: all is answered at once. The resolver forgets all in place of the wait.
moved() {
    local common=$register loader
    cp -- "$register" "$folder/before.csv"
    sed 's/^ms,\[0\]10\.2\.0\.0\/16,west,/ms,[0]10.2.0.0\/16,east,/' "$register" >"$folder/after.csv"
    "$ddtplan" rollout "$folder/before.csv" "$folder/after.csv" >"$folder/rollout.said" || exit 1
    expect 'moved: the steps' 'step 1 load east,step 2 load ten,wait 2 days 4 seconds,step 3 load west' \
        "$(tr '\t\n' ' ,' <"$folder/rollout.said" | sed 's/,$//')"
    { blocks 2 0 750; host=6 blocks 2 0 750; } >"$folder/moving"
    resolve '"192.0.2.3"'
    load itr moving --once --worst 900 "moving:150:$folder/moving" &
    loader=$!
    sleep 2
    take_step 1
    sleep 1.5
    take_step 2
    sleep 1.5
    expect 'moved: the resolver forgets' flushed "$(tell resolver flush '*' | cut -d' ' -f1)"
    take_step 3
    wait "$loader"
    judge 'moved: all is answered at the first try' moving moving 'lost 0, wrong 0, worst under 900 ms, none asked again'
    end resolver
    register=$common
    compile "$common" east
    expect 'moved: the other servers of the east' reloaded,reloaded "$(tell east1 reload),$(tell east2 reload)"
    take_up "$common"
}

# The one ETR of a site is the resolver, and the Map-Server is allowed to ask: a request doesn't come back for ever. And
# a request that names the resolver as an ITR-RLOC is dropped.
storm() {
    local rlocs lookups dropped number=1
    echo 10.9.1.2 >"$folder/back"
    resolve '"192.0.2.3"' 192.0.2.7
    load itr back --tries 1 --repeat 2 "back:1:$folder/back"
    lookups=$(counted resolver num.lookups)
    expect 'storm: one request is looked up' 'at least 1' "$(bounded least 1 "$lookups")"
    expect 'storm: lookups after two seconds' 'at most 5' "$(bounded most 5 "$lookups")"
    end resolver
    resolve '"192.0.2.3"'
    for rlocs in 192.0.2.2 192.0.2.2,192.0.2.1 192.0.2.1,192.0.2.2; do
        echo "11.$((number += 2)).2.3" >"$folder/own"
        lookups=$(counted resolver num.lookups) dropped=$(counted resolver num.dropped.)
        load itr own --tries 1 --repeat 0.3 --rlocs "$rlocs" "own:1:$folder/own"
        lookups=$(($(counted resolver num.lookups) - lookups)) dropped=$(($(counted resolver num.dropped.) - dropped))
        expect "storm: ITR-RLOCs $rlocs" '0 lookups, 1 dropped' "$lookups lookups, $dropped dropped"
    done
}

# The root's first locator can't be reached: it is an IPv6 address, and the resolver has none.
refused() {
    printf '11.%d.2.3\n' {0..9} >"$folder/root"
    resolve '"2001:db8::3", "192.0.2.3"'
    load itr refused --tries 8 --median 100 "root:10:$folder/root"
    judge 'refused: the second locator is asked at once' refused root 'lost 0, wrong 0, median under 100 ms'
}

# remembered XEID: the prefix, the action and the servers of what the resolver remembers for an identifier
remembered() {
    tell resolver lookup "$1" | awk '{ $3 = ""; print }' | tr -s ' '
}

# What an operator sees of a resolver: what its settings risk, the servers that it knows, what it remembers, what it has
# counted, and lookups that gave up. It forgets one region alone, and systemd is told of its states.
seen() {
    blocks 1 0 10 >"$folder/east"
    blocks 2 0 10 >"$folder/west"
    echo 10.3.0.5 >"$folder/silent"
    python3 "$scripts/notified.py" "$folder/notify" >"$folder/notified" &
    pids[notified]=$!
    until [ -S "$folder/notify" ]; do sleep 0.05; done
    NOTIFY_SOCKET=$folder/notify resolve '"192.0.2.3"' 192.0.2.3
    # It answers on its control socket before it has logged this.
    for _ in {1..100}; do
        grep -q 'allow covers' "$folder/resolver.log" && break
        sleep 0.05
    done
    expect 'seen: allow covers the root' 1 "$(grep -c 'allow covers a root: 192.0.2.3$' "$folder/resolver.log")"
    load itr east "east:20:$folder/east"
    load itr west "west:20:$folder/west"
    expect 'seen: the servers' '192.0.2.3 192.0.2.4 192.0.2.5 192.0.2.7' \
        "$(tell resolver servers | awk '$2 == "answers" { print $1 }' | sort | paste -sd ' ')"
    expect 'seen: a site' '[0]10.1.0.0/28 MS-ACK 192.0.2.5 192.0.2.6' "$(remembered '[0]10.1.0.5')"
    expect 'seen: how many servers' servers=4 "$(tell resolver servers | tail -n 1)"
    expect 'seen: what the cache has' "entries=$(counted resolver now.cached)" "$(tell resolver cache | tail -n 1)"
    expect 'seen: what it has of a region' "entries=$(tell resolver cache | grep -c '^\[0\]10\.1\.')" \
        "$(tell resolver cache '[0]10.1.0.0/16' | tail -n 1)"
    see_counts
    see_flush
    see_give_up
    tell resolver reload >/dev/null
    tell resolver stop >/dev/null
    sleep 0.5
    expect 'seen: what systemd is told' 'READY=1 RELOADING=1 READY=1 STOPPING=1' "$(paste -sd ' ' "$folder/notified")"
    end notified
}

# The counts in three forms, and what a server has answered, by action.
see_counts() {
    local lookups
    lookups=$(counted resolver num.lookups)
    expect 'seen: the counts as JSON' "$lookups" "$(tell resolver stats --format json |
        python3 -c 'import json, sys; print(json.load(sys.stdin)["num.lookups"])')"
    expect 'seen: the counts for Prometheus' "# TYPE ddtd_num_lookups counter ddtd_num_lookups $lookups" \
        "$(tell resolver stats --format prometheus | grep ddtd_num_lookups | paste -sd ' ')"
    expect 'seen: what a server has answered' "$(counted west num.replied)" "$(counted west num.answer.)"
    expect 'seen: acknowledged' 'at least 5' "$(bounded least 5 "$(counted west num.answer.msack)")"
}

# One region is forgotten, and no other.
see_flush() {
    local held
    held=$(tell resolver cache '[0]10.1.0.0/16' | sed -n 's/^entries=//p')
    expect 'seen: a region is forgotten' "flushed $held" "$(tell resolver flush '[0]10.1.0.0/16')"
    expect 'seen: nothing is left of it' '[0]10.0.0.0/8 NODE-REFERRAL 192.0.2.4' "$(remembered '[0]10.1.0.5')"
    expect 'seen: another is' '[0]10.2.0.0/28 MS-ACK 192.0.2.7' "$(remembered '[0]10.2.0.5')"
    expect 'seen: no prefix' 'refused: 10.1 is no prefix' "$(tell resolver flush 10.1)"
    expect 'seen: no identifier' 'refused: 10.1 is no identifier' "$(tell resolver lookup 10.1)"
    expect 'seen: a server' 'refused: only a resolver knows servers and has a cache' "$(tell west servers)"
    expect 'seen: a word that takes nothing' 'refused: the word takes nothing after it' "$(tell resolver stop now)"
    expect 'seen: status of a refusal' 2 "$(tell resolver flush 10.1 >/dev/null; echo $?)"
}

# A lookup that gives up is in the log with its zone and its servers.
see_give_up() {
    load itr silent --tries 1 --repeat 1 "silent:1:$folder/silent"
    for _ in {1..100}; do
        grep -q 'gave up' "$folder/resolver.log" && break
        sleep 0.1
    done
    expect 'seen: a lookup that gave up' \
        '<4>gave up on [0]10.3.0.5: no reply, zone [0]10.3.0.0/16 at 192.0.2.8 192.0.2.9' \
        "$(grep 'gave up' "$folder/resolver.log")"
}

make_namespaces || { echo 'service.sh: no network namespaces here'; exit 1; }
register=$folder/register.csv
write_register >"$register"
compile "$register" root ten east west
for name in root ten west; do
    serve "$name" "$name"
done
serve east1 east
serve east2 east
start etr python3 "$scripts/etr.py" "$register" 192.0.2.12
start silent python3 "$scripts/silent.py" 192.0.2.8 192.0.2.9
[ $# != 0 ] || set -- "${all_cases[@]}"
for name in "$@"; do
    "$name"
    [ -z "${pids[resolver]:-}" ] || end resolver
done

echo "$passed passed, $failed failed"
[ "$failed" = 0 ]
