#!/usr/bin/env bash
# Shows how a Map-Server takes Map-Registers, over network namespaces of its own: two xTRs of openoverlayrouter register
# and ping each other; a site goes over to its second ETR; a Map-Server that was killed knows what was registered; and
# Map-Registers that aren't good are dropped in silence.
#
# usage: tests/registrations.sh [PART..]
#
# The parts are oor, restart, failover, notify, silence and reload; without PART all are run, side by side. Each is a
# script of tests/registrations. DDT and DDTD name the programs, by default those of ./ddt and ./ddtd; KEEP a folder
# that is kept, with the configurations and logs of each part. It wants Linux with network namespaces, which others than
# root have by a user namespace, unshare, ip of iproute2, and Python 3.11; `oor` wants openoverlayrouter, a bridge and
# tun as well. `notify` compares with openssl and tshark, where they are there. Where one is missing, a line says so and
# nothing is run. The status is 1 if something isn't as it should be.
set -u -o pipefail
cd -- "$(dirname -- "${BASH_SOURCE[0]}")/.." || exit 1

all_parts=(oor failover restart notify silence reload)
for word in "$@"; do
    [[ " ${all_parts[*]} " = *" $word "* ]] || { echo "usage: tests/registrations.sh [${all_parts[*]}]" >&2; exit 2; }
done

# not_run WHAT WHY: says that something isn't tested
not_run() {
    echo "NOT RUN, $1: $2"
}

# Debian has openoverlayrouter in /usr/sbin, which the PATH of a user may lack.
PATH=$PATH:/usr/sbin
if [ -z "${WITHIN_NAMESPACES:-}" ]; then
    for tool in unshare ip python3; do
        command -v "$tool" >/dev/null || { not_run 'ETRs that register' "there is no $tool"; exit 0; }
    done
    apart=(unshare --net --mount)
    [ "$(id -u)" = 0 ] || apart+=(--user --map-root-user)
    # ip keeps the names of namespaces in /run. They go with the last process in here.
    "${apart[@]}" mount -t tmpfs tmpfs /run 2>/dev/null ||
        { not_run 'ETRs that register' 'this user can have no namespaces here'; exit 0; }
    DDT=$(realpath -- "${DDT:-$(release/program ddt)}") && DDTD=$(realpath -- "${DDTD:-$(release/program ddtd)}") ||
        exit 1
    export DDT DDTD WITHIN_NAMESPACES=yes
    # shellcheck disable=SC2016
    exec "${apart[@]}" bash -c 'mount -t tmpfs tmpfs /run && exec "$0" "$@"' tests/registrations.sh "$@"
fi

# Why the xTRs of openoverlayrouter can't be run here; nothing where they can.
no_oor() {
    if ! command -v oor >/dev/null; then
        echo 'it is not installed (Debian: openoverlayrouter)'
    elif ! [ -w /dev/net/tun ]; then
        echo 'this user may not open /dev/net/tun'
    elif ! ip link add bridge type bridge 2>/dev/null; then
        echo 'there is no bridge here'
    fi
}

export PYTHONDONTWRITEBYTECODE=yes PYTHONPATH=$PWD/tests/foreign
scripts=$PWD/tests/registrations
parts=("$@")
[ $# != 0 ] || parts=("${all_parts[@]}")
folder=${KEEP:-$(mktemp -d)}
mkdir -p -- "$folder" && folder=$(realpath -- "$folder") || exit 1
declare -A pids=()

# shellcheck disable=SC2317  # the trap calls it
clean() {
    [ ${#pids[@]} = 0 ] || kill "${pids[@]}" 2>/dev/null
    wait 2>/dev/null
    [ -n "${KEEP:-}" ] || rm -rf -- "$folder"
}
trap clean EXIT
trap 'exit 1' HUP INT TERM

for part in "${parts[@]}"; do
    why=
    [ "$part" != oor ] || why=$(no_oor)
    if [ -n "$why" ]; then
        not_run 'xTRs of openoverlayrouter that register' "$why"
        continue
    fi
    rm -rf -- "${folder:?}/$part"
    timeout -k 10 170 python3 "$scripts/$part.py" "$folder/$part" >"$folder/$part.said" 2>&1 &
    pids[$part]=$!
done
status=0
for part in "${parts[@]}"; do
    [ -n "${pids[$part]-}" ] || continue
    wait "${pids[$part]}" || status=1
    unset "pids[$part]"
    cat -- "$folder/$part.said"
done
exit "$status"
