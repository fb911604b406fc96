#!/usr/bin/env bash
# Prints how long the program takes over full registers, beside a plain program in Rust (bench/peer) that gives the same
# answers, nsd-checkzone (Debian: nsd) over a DNS zone of as many records, unbound-checkconf (Debian: unbound) over as
# many local data, and a program that reads the bytes of the register once: bench/speed.sh [--save] [SHAPE..]
#
# First, for each shape of tools/make_register.py (all where none is named), the time of `ddt check` at 1,000, 8,000 and
# 65,535 rows, its growth from one size to the next (the rows grow by 8.0 and 8.2), the times of the other two, and the
# ratios: above 1 where `ddt check` takes longer. Then, at 65,535 rows, `assign`, `answer` and `compile` of one group
# and `lookup` of one identifier as multiples of `check`; and the nanoseconds a row of each program, with the start of
# its process. Times are milliseconds that passed, the shortest of seven runs
# on one processor. The programs take turns, so that all meet the same load. What /bin/true takes is a part of each
# time. A run that fails, and a register of which the peer says something else, end the script.
#
# --save appends each row's ratios to bench/results/speed.tsv, with the date, the commit and the machine. For that the
# tree has to be a git clone. The last column shows the ratio to the peer that was saved last on such a machine, so that
# a loss is seen.
#
# DDT names the program, by default that which the launcher runs. Wants two processors, python3, a cargo that knows
# Rust's edition 2024 (1.85), and nsd-checkzone and unbound-checkconf where their columns are to be filled.
set -eu
cd -- "$(dirname -- "${BASH_SOURCE[0]}")/.."
program=${DDT:-$(release/program ddt)}
checkzone=$(PATH=$PATH:/usr/sbin:/sbin command -v nsd-checkzone) || checkzone=''
checkconf=$(PATH=$PATH:/usr/sbin:/sbin command -v unbound-checkconf) || checkconf=''
saved=bench/results/speed.tsv
save=''
if [ "${1-}" = --save ]; then
    save=yes
    shift
fi
commit=''
if [ -n "$save" ]; then
    commit=$(git rev-parse --short HEAD)
    git diff --quiet HEAD -- . ':(exclude)bench/results' || commit+=-dirty
fi
folder=$(mktemp -d)
trap 'rm -rf -- "$folder"' EXIT
cargo build --quiet --release --offline --manifest-path bench/peer/Cargo.toml --target-dir "$folder/peer"
peer=$folder/peer/release/peer
sizes=(1000 8000 65535)
shapes=("$@")
[ $# -gt 0 ] || shapes=(nested flat groups sites locators)

# shown MICROSECONDS: the same in milliseconds; a dash for nothing.
shown() {
    awk -v a="${1:-}" 'BEGIN { if (a == "") printf "-"; else printf "%.1f ms", a / 1000 }'
}

fail() {
    echo "bench/speed.sh: $*" >&2
    exit 1
}

# lower NAME WORD..: runs the words on one processor, and keeps in the variable the fewest microseconds that they took.
lower() {
    local -n kept=$1
    local begin end
    shift
    begin=${EPOCHREALTIME/[.,]/}
    taskset -c 1 "$@" >/dev/null || fail "this failed: $*"
    end=${EPOCHREALTIME/[.,]/}
    if [ -z "$kept" ] || [ $((end - begin)) -lt "$kept" ]; then kept=$((end - begin)); fi
}

# A zone of two records more than the register has rows: SOA and NS, and an address for each row.
zone_file() {
    # shellcheck disable=SC2016
    printf '$ORIGIN example.\n$TTL 3600\n@ IN SOA ns hostmaster 1 7200 3600 1209600 3600\n@ IN NS ns\n'
    awk -v rows="$1" 'BEGIN {
        print "ns IN A 192.0.2.1"
        for (n = 1; n < rows; n++) printf "h%d IN A 10.%d.%d.%d\n", n, n / 65536, n / 256 % 256, n % 256
    }'
}

# The same names as local data of a server of unbound.
unbound_file() {
    printf 'server:\n  chroot: ""\n  username: ""\n  pidfile: ""\n  directory: "%s"\n' "$folder"
    printf '  local-zone: "example." static\n'
    awk -v rows="$1" 'BEGIN {
        for (n = 0; n < rows; n++)
            printf "  local-data: \"h%d.example. IN A 10.%d.%d.%d\"\n", n, n / 65536, n / 256 % 256, n % 256
    }'
}

# by_row MICROSECONDS ROWS: nanoseconds a row; a dash for nothing.
by_row() {
    awk -v a="$1" -v rows="$2" 'BEGIN { if (a == "-") printf "-"; else printf "%.0f", a * 1000 / rows }'
}

# ratio MICROSECONDS MICROSECONDS: of the first to the second; a dash where one is nothing.
ratio() {
    awk -v a="${1:-}" -v b="${2:-}" 'BEGIN { if (a == "" || b == "") printf "-"; else printf "%.2f", a / (b ? b : 1) }'
}

# saved_last SHAPE ROWS: the ratio to the peer that was saved last on such a machine.
saved_last() {
    [ ! -f "$saved" ] || awk -F'\t' -v m="$machine" -v s="$1" -v r="$2" \
        '$3 == m && $4 == s && $5 == r { x = $6 } END { print x }' "$saved"
}

# keep SHAPE ROWS RATIO RATIO: appends the ratios to the peer and to nsd-checkzone.
keep() {
    [ -n "$save" ] || return 0
    mkdir -p -- bench/results
    [ -f "$saved" ] || printf '#date\tcommit\tmachine\tshape\trows\tof the peer\tof nsd-checkzone\n' >"$saved"
    printf '%s\t%s\t%s\t%s\t%s\t%s\t%s\n' "$(date -u +%F)" "$commit" "$machine" "$@" >>"$saved"
}

machine="$(nproc) x $(sed -n 's/^model name[^:]*: //p' /proc/cpuinfo | head -n 1)"
for rows in "${sizes[@]}"; do
    zone_file "$rows" >"$folder/$rows.zone"
    unbound_file "$rows" >"$folder/$rows.conf"
    for shape in "${shapes[@]}"; do
        register=$folder/$shape.$rows.csv
        python3 tools/make_register.py "$shape" "$rows" >"$register"
        "$program" check "$register" >"$folder/ours"
        "$peer" check "$register" >"$folder/plain"
        cmp -- "$folder/ours" "$folder/plain" || fail "ddt check and the peer say other things of $shape, $rows rows"
    done
done

empty=''
for _ in 1 2 3 4 5 6 7; do
    lower empty /bin/true
done
printf '%s; /bin/true takes %s\n\n' "$machine" "$(shown "$empty")"
printf '| shape | rows | check | growth | peer | of the peer | nsd-checkzone | of nsd-checkzone | saved last |\n'
printf '|---|---|---|---|---|---|---|---|---|\n'
declare -A rows_of_costs
for shape in "${shapes[@]}"; do
    before=''
    for rows in "${sizes[@]}"; do
        ours='' plain='' theirs='' data='' once=''
        for _ in 1 2 3 4 5 6 7; do
            lower ours "$program" check "$folder/$shape.$rows.csv"
            lower plain "$peer" check "$folder/$shape.$rows.csv"
            lower once "$peer" bytes "$folder/$shape.$rows.csv"
            [ -z "$checkzone" ] || lower theirs "$checkzone" example "$folder/$rows.zone"
            [ -z "$checkconf" ] || lower data "$checkconf" "$folder/$rows.conf"
        done
        rows_of_costs[$shape]="$once $ours $plain ${theirs:--} ${data:--}"
        of_peer=$(ratio "$ours" "$plain") of_theirs=$(ratio "$ours" "$theirs")
        printf '| %s | %s | %s | %s | %s | %s | %s | %s | %s |\n' "$shape" "$rows" "$(shown "$ours")" \
            "$(ratio "$ours" "$before")" "$(shown "$plain")" "$of_peer" "$(shown "$theirs")" "$of_theirs" \
            "$(saved_last "$shape" "$rows")"
        keep "$shape" "$rows" "$of_peer" "$of_theirs"
        before=$ours
    done
done

rows=${sizes[-1]}
printf '\nNanoseconds a row, %s rows\n\n' "$rows"
printf '| shape | bytes once | check | peer | nsd-checkzone | unbound-checkconf |\n|---|---|---|---|---|---|\n'
for shape in "${shapes[@]}"; do
    printf '| %s ' "$shape"
    for cost in ${rows_of_costs[$shape]}; do
        printf '| %s ' "$(by_row "$cost" "$rows")"
    done
    echo '|'
done

printf '\n| shape | rows | check | assign | answer | compile | lookup |\n|---|---|---|---|---|---|---|\n'
for shape in "${shapes[@]}"; do
    register=$folder/$shape.$rows.csv
    group=$(awk -F, '$1 == "node" && $2 == "*" { print $3 }' "$register")
    check='' assign='' answer='' compile='' lookup=''
    for _ in 1 2 3 4 5 6 7; do
        lower check "$program" check "$register"
        lower assign "$program" assign "$register" '[0]10.1.2.3'
        lower answer "$program" answer "$register" "$group" '[0]10.1.2.3'
        lower compile "$program" compile "$register" "$group"
        lower lookup "$program" lookup "$register" '[0]10.1.2.3'
    done
    printf '| %s | %s | %s ' "$shape" "$rows" "$(shown "$check")"
    for call in "$assign" "$answer" "$compile" "$lookup"; do
        printf '| %s (%s) ' "$(shown "$call")" "$(ratio "$call" "$check")"
    done
    echo '|'
done
