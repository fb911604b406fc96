#!/usr/bin/env bash
# Runs tools/lab: makes its network, pings from site to site, reads what it shows, and removes it, also after an `up`
# that failed half-way. Nothing may be left then.
#
# usage: tests/lab.sh
#
# DDT and DDTD name the programs, by default those of ./ddt and ./ddtd. It wants openoverlayrouter, Linux with network
# namespaces, which others than root have by a user namespace, tun, unshare, ip of iproute2, and Python 3.11. Where one
# is missing, a line says so and nothing is run. The status is 1 if something isn't as it should be.
set -u -o pipefail
cd -- "$(dirname -- "${BASH_SOURCE[0]}")/.." || exit 1

# not_run WHY: ends without a test
not_run() {
    echo "NOT RUN, a LISP network by tools/lab: $1"
    exit 0
}

# Debian has it in /usr/sbin, which the PATH of a user may lack.
PATH=$PATH:/usr/sbin
if [ -z "${WITHIN_NAMESPACES:-}" ]; then
    for tool in unshare ip python3; do
        command -v "$tool" >/dev/null || not_run "there is no $tool"
    done
    command -v oor >/dev/null || not_run 'openoverlayrouter is not installed (Debian: openoverlayrouter)'
    [ -w /dev/net/tun ] || not_run 'this user may not open /dev/net/tun'
    apart=(unshare --net --mount)
    [ "$(id -u)" = 0 ] || apart+=(--user --map-root-user)
    # The lab, and the names of its namespaces, are in /run. They go with the last process in here.
    "${apart[@]}" mount -t tmpfs tmpfs /run 2>/dev/null || not_run 'this user can have no namespaces here'
    DDT=$(realpath -- "${DDT:-$(release/program ddt)}") || exit 1
    DDTD=$(realpath -- "${DDTD:-$(release/program ddtd)}") || exit 1
    export DDT DDTD WITHIN_NAMESPACES=yes
    # shellcheck disable=SC2016
    exec "${apart[@]}" bash -c 'mount -t tmpfs tmpfs /run && exec "$0"' tests/lab.sh
fi

unset LAB
folder=/run/ddt-lab
passed=0 failed=0 said=''
trap 'tools/lab down >/dev/null' EXIT
trap 'exit 1' HUP INT TERM

# expect WHAT WANTED GOT
expect() {
    if [ "$2" = "$3" ]; then
        passed=$((passed + 1))
    else
        failed=$((failed + 1))
        printf '%s:\n  wanted %s\n  got    %s\n%s\n' "$1" "$2" "$3" "$said"
    fi
}

# lab STATUS WORD..: runs it, keeps what it says, and expects this status
lab() {
    local wanted=$1
    shift
    said=$(tools/lab "$@" 2>&1)
    expect "the status of tools/lab $*" "$wanted" $?
}

# shows PATTERN: whether a line of what was said is so
shows() {
    expect "a line '$1'" yes "$(grep -qE -- "$1" <<<"$said" && echo yes || echo no)"
}

# The processes in the lab's namespaces.
processes() {
    local name
    for name in $(ip netns list | cut -d ' ' -f 1); do
        ip netns pids "$name"
    done
}

# removed PROCESS..: removes the lab, and looks whether one of these processes, a namespace or a file is left. A process
# that nobody has waited for yet is in the state Z.
removed() {
    local process left=()
    lab 0 down
    for process in "$@"; do
        ! grep -qs '^State:.[^Z]' "/proc/$process/status" || left+=("$process")
    done
    expect 'processes that are left' '' "${left[*]}"
    expect 'namespaces that are left' '' "$(ip netns list)"
    expect 'files that are left' no "$([ -e "$folder" ] && echo yes || echo no)"
}

lab 1
lab 1 away
lab 0 --help
lab 1 ping
lab 0 down

lab 0 up
mapfile -t running < <(processes)
expect 'processes of the lab' 7 ${#running[@]}
lab 1 up
lab 0 ping
lab 0 show 10.1.2.9
shows ' west +resolver +Map-Request 10\.1\.2\.9, for west$'
shows ' resolver +root +Map-Request 10\.1\.2\.9, bit D, for resolver$'
shows ' root +resolver +Map-Referral NODE-REFERRAL 10\.0\.0\.0/8 at node$'
shows ' node +resolver +Map-Referral MS-REFERRAL 10\.1\.0\.0/16 at ms$'
shows ' ms +resolver +Map-Referral MS-ACK 10\.1\.2\.0/24 at ms$'
shows ' ms +east +Map-Request 10\.1\.2\.9, for west$'
shows ' east +west +Map-Reply 10\.1\.2\.0/24 at east$'
shows ' west +east +packet 10\.1\.1\.9 > 10\.1\.2\.9$'
lab 0 show
shows ' east +west +packet 2001:db8:a:2::9 > 2001:db8:a:1::9$'
shows ' east +ms +Map-Register 10\.1\.2\.0/24 at east$'
shows '^resolver .* lookups='
expect 'sites with an ETR' 4 "$(grep -cE ' (registered by Map-Register|its ETR is in the register);' <<<"$said")"
removed "${running[@]}"
lab 0 down

# A daemon that ends at once, when the root is started.
DDTD=/bin/false lab 1 up
mapfile -t running < <(processes)
expect 'processes of half a lab' 1 ${#running[@]}
removed "${running[@]}"

echo "$passed passed, $failed failed"
[ "$failed" = 0 ]
