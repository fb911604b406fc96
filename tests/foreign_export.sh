#!/usr/bin/env bash
# Runs what `ddtplan export oor` prints: a root, a node and a Map-Server of openoverlayrouter over network namespaces,
# IPv4 and IPv6. `ddtplan ask` then compares what each says with the register. What differs has to be what the heads of
# the files say of that program.
#
# usage: tests/foreign_export.sh
#
# DDTPLAN names the program, by default that of ./ddtplan; KEEP a folder that is kept, with the files and the logs. It
# wants Linux with network namespaces, unshare, ip of iproute2, and oor of the Debian package openoverlayrouter. Where
# one is missing, a line says so and nothing is run. The status is 1 if something isn't as it should be.
set -u -o pipefail
cd -- "$(dirname -- "${BASH_SOURCE[0]}")/.." || exit 1

# not_run WHY: ends without a test
not_run() {
    echo "NOT RUN, the export for openoverlayrouter: $1"
    exit 0
}

if [ -z "${WITHIN_NAMESPACES:-}" ]; then
    for tool in unshare ip oor; do
        command -v "$tool" >/dev/null || not_run "there is no $tool"
    done
    apart=(unshare --net --mount)
    [ "$(id -u)" = 0 ] || apart+=(--user --map-root-user)
    "${apart[@]}" mount -t tmpfs tmpfs /run 2>/dev/null || not_run 'this user can have no network namespaces here'
    DDTPLAN=$(realpath -- "${DDTPLAN:-$(release/program ddtplan)}") || exit 1
    export DDTPLAN WITHIN_NAMESPACES=yes
    # shellcheck disable=SC2016
    exec "${apart[@]}" bash -c 'mount -t tmpfs tmpfs /run && exec "$0"' tests/foreign_export.sh
fi

folder=${KEEP:-$(mktemp -d)}
pids=()
clean() {
    [ ${#pids[@]} = 0 ] || kill "${pids[@]}" 2>/dev/null
    wait 2>/dev/null
    [ -n "${KEEP:-}" ] || rm -rf -- "$folder"
}
trap clean EXIT
cd -- "$folder" || exit 1

cat >register.csv <<END || exit 1
kind,prefix,group,addresses
group-node,,root,192.0.2.3 2001:db8::3
group-node,,node,192.0.2.4 2001:db8::4
group-ms,,east,192.0.2.5 2001:db8::5
node,*,root,
node,[0]10.0.0.0/8,node,
node,[7]10.0.0.0/8,node,
node,[0]2001:db8:8::/45,node,
ms,[0]10.1.0.0/16,east,
ms,[7]10.1.0.0/16,east,
ms,[0]2001:db8:a::/48,east,
site,[0]10.1.2.0/24,,192.0.2.6
site,[7]10.1.2.0/24,,192.0.2.6
site,[0]2001:db8:a:1::/64,,192.0.2.6
site,[0]10.1.4.0/24,,
site,[0]10.1.9.0/24,,192.0.2.7
site,[0]10.1.10.0/24,,192.0.2.8
END

# server GROUP NUMBER: its configuration, and openoverlayrouter with it at the addresses of this number
server() {
    "$DDTPLAN" export oor register.csv "$1" >"$1.conf" || exit 1
    sed -i -e '/^control-iface/s/FILL-IN/eth0/' -e 's/FILL-IN/password/' "$1.conf" || exit 1
    ip netns add "$1" || exit 1
    ip link add "$1" type veth peer name eth0 netns "$1" || exit 1
    ip link set "$1" master switch up || exit 1
    ip -n "$1" link set lo up
    ip -n "$1" addr add "192.0.2.$2/24" dev eth0
    ip -n "$1" addr add "2001:db8::$2/64" dev eth0 nodad
    ip -n "$1" link set eth0 up
    # It makes a socket in /tmp, so each gets its own, and a file where it runs.
    mkdir -- "$1" || exit 1
    # shellcheck disable=SC2016
    ip netns exec "$1" sh -c 'cd "$0" && mount -t tmpfs tmpfs /tmp && exec oor -f "../$0.conf"' "$1" >"$1.log" 2>&1 &
    pids+=($!)
}

ip link set lo up
ip link add switch type bridge || exit 1
ip addr add 192.0.2.1/24 dev switch
ip addr add 2001:db8::1/64 dev switch nodad
ip link set switch up
server root 3
server node 4
server east 5
sleep 3

"$DDTPLAN" ask register.csv >asked.txt
tail -n 1 asked.txt
hole='it says (DELEGATION-HOLE|NOT-AUTHORITATIVE) .*, the register says DELEGATION-HOLE'
absent='it says (MS-NOT-REGISTERED .*) ttl 15 (.*), the register says \1 ttl 1 \2$'
if grep '^\[.* silent$' asked.txt || grep ' differs: ' asked.txt | grep -Ev "$hole" | grep -Ev "$absent"; then
    echo 'openoverlayrouter answers otherwise than its export lets expect' >&2
    exit 1
fi
grep -q ' MS-NOT-REGISTERED ' asked.txt && grep -q '^\[7\]10.1.2.* 2001:db8::5 agrees$' asked.txt
