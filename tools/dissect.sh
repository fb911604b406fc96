#!/usr/bin/env bash
# Shows what tshark reads in datagrams: tools/dissect.sh [HEX..]; without words, in the answers of the campus's servers.
# It needs tshark and text2pcap (Debian: tshark) and xxd. Each datagram is put into UDP on port 4342.
set -eu
here=$(cd -- "$(dirname -- "${BASH_SOURCE[0]}")/.." && pwd)
folder=$(mktemp -d)
trap 'rm -rf -- "$folder"' EXIT

dissect() {
    printf '%s' "$1" | xxd -r -p | xxd -g1 | sed 's/^\([0-9a-f]*\):/\1/' | cut -c1-58 >"$folder/dump"
    text2pcap -q -u 4342,4342 "$folder/dump" "$folder/pcap" 2>/dev/null
    tshark -r "$folder/pcap" -V -O lisp 2>/dev/null | sed -n '/^Locator\/ID/,$p'
}

if [ $# -gt 0 ]; then
    for word in "$@"; do
        dissect "$word"
    done
    exit
fi

while read -r group xeid; do
    word=$("$here/ddt" answer "$here/examples/campus.csv" "$group" "$xeid")
    printf '== %s asked for %s\n-- ours: ' "$group" "$xeid"
    "$here/ddt" show "$word"
    printf '%s\n' '-- tshark:'
    dissect "$word" | grep -E 'Nonce|Mapping Record|Locator Record|Malformed' || echo 'tshark read no record'
done <<'PAIRS'
root [0]10.1.2.3
ten [0]10.1.2.3
east [0]10.1.2.3
east [0]10.1.4.7
east [0]10.1.3.9
root [0]2001:db8::1
root [2147483648]10.0.0.1
ten [0]11.0.0.1
PAIRS
