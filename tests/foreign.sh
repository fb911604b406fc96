#!/usr/bin/env bash
# Runs the daemons beside openoverlayrouter, an independent implementation of LISP-DDT (Debian: openoverlayrouter), over
# network namespaces: each combination of who is root, node, Map-Server and Map-Resolver, asked by an ITR, and with two
# of openoverlayrouter's xTRs. Then it sends the daemons odd messages, as other implementations write them.
#
# usage: tests/foreign.sh [ROW..] [odd]
#
# A ROW is a combination as tests/foreign/tree.py has it: who resolves and who is root, node and Map-Server, as KOOK;
# `odd` is for the odd messages. Without words all are run. DDT, DDTD and DDTPLAN name the programs, by default those of
# ./ddt, ./ddtd and ./ddtplan; KEEP a folder that is kept, with the logs, results and captures; JOBS how many run at a
# time, by default 3. A Map-Server of Kihyamut's has keys, under which ETRs register, and settings. With
# SERVE_SETTINGS=no it is started without settings, so that it has nobody to answer who asks without the bit D.
#
# It wants openoverlayrouter, Linux with network namespaces, which others than root have by a user namespace, a bridge,
# tun, unshare, ip of iproute2, and Python 3.11. Where one is missing, a line says so and nothing is run. tshark, where
# it is there, looks for malformed frames. The status is 1 if something isn't as tests/foreign/expected.py has it.
set -u -o pipefail
cd -- "$(dirname -- "${BASH_SOURCE[0]}")/.." || exit 1

# not_run WHY: ends without a test
not_run() {
    echo "NOT RUN, the daemons beside openoverlayrouter: $1"
    exit 0
}

# Debian has it in /usr/sbin, which the PATH of a user may lack.
PATH=$PATH:/usr/sbin
if [ -z "${WITHIN_NAMESPACES:-}" ]; then
    for tool in unshare ip python3; do
        command -v "$tool" >/dev/null || not_run "there is no $tool"
    done
    command -v oor >/dev/null || not_run 'it is not installed (Debian: openoverlayrouter)'
    [ -w /dev/net/tun ] || not_run 'this user may not open /dev/net/tun'
    apart=(unshare --net --mount)
    [ "$(id -u)" = 0 ] || apart+=(--user --map-root-user)
    # ip keeps the names of namespaces in /run. They go with the last process in here.
    "${apart[@]}" mount -t tmpfs tmpfs /run 2>/dev/null || not_run 'this user can have no namespaces here'
    "${apart[@]}" ip link add bridge type bridge 2>/dev/null || not_run 'there is no bridge here'
    DDT=$(realpath -- "${DDT:-$(release/program ddt)}") && DDTD=$(realpath -- "${DDTD:-$(release/program ddtd)}") &&
        DDTPLAN=$(realpath -- "${DDTPLAN:-$(release/program ddtplan)}") || exit 1
    export DDT DDTD DDTPLAN WITHIN_NAMESPACES=yes
    # shellcheck disable=SC2016
    exec "${apart[@]}" bash -c 'mount -t tmpfs tmpfs /run && exec "$0" "$@"' tests/foreign.sh "$@"
fi

export PYTHONDONTWRITEBYTECODE=yes
scripts=$PWD/tests/foreign
read -ra all_rows < <(python3 "$scripts/matrix.py" list)
rows=("$@")
[ $# != 0 ] || rows=("${all_rows[@]}" odd)
for row in "${rows[@]}"; do
    [[ " ${all_rows[*]} odd " = *" $row "* ]] || { echo "usage: tests/foreign.sh [${all_rows[*]} odd]" >&2; exit 2; }
done
folder=${KEEP:-$(mktemp -d)}
mkdir -p -- "$folder" && folder=$(realpath -- "$folder") || exit 1
# What another run left in it is none of this one's results.
rm -f -- "$folder"/*.log "$folder"/odd.* "$folder"/*/found.json

# shellcheck disable=SC2317  # the trap calls it
clean() {
    local running
    mapfile -t running < <(jobs -p)
    [ ${#running[@]} = 0 ] || kill "${running[@]}" 2>/dev/null
    wait 2>/dev/null
    [ -n "${KEEP:-}" ] || rm -rf -- "$folder"
}
trap clean EXIT
trap 'exit 1' HUP INT TERM

send_odd() {
    timeout -k 10 400 python3 "$scripts/odd.py" "$folder/odd" >"$folder/odd.said" 2>&1 || touch "$folder/odd.failed"
}

# The odd messages take longest, so they come first.
ran=() status=0
if [[ " ${rows[*]} " = *' odd '* ]]; then
    send_odd &
fi
for row in "${rows[@]}"; do
    [ "$row" != odd ] || continue
    while [ "$(jobs -rp | wc -l)" -ge "${JOBS:-3}" ]; do
        wait -n
    done
    timeout -k 10 240 python3 "$scripts/matrix.py" "$row" "row${#ran[@]}" "$folder/$row" 2>"$folder/$row.log" &
    ran+=("$row")
done
wait
if [ ${#ran[@]} != 0 ]; then
    cat -- "$folder"/*.log
    python3 "$scripts/table.py" "$folder" "${ran[@]}" || status=1
fi
if [ -e "$folder/odd.said" ]; then
    cat -- "$folder/odd.said"
    [ ! -e "$folder/odd.failed" ] || status=1
fi
exit "$status"
