# What the launcher, the test, the gate and the maker of releases share; to be sourced in the top folder of the tree. A
# program is named as its crate.
#
# crates/NAME/out/NAME is its build, and NAME.sources beside it holds the checksum of the sources that it was built from
# and the SHA-256 of what was built. release/NAME is its release: release/SOURCES holds the one, release/SHA256SUMS the
# other, a line for each program.
# shellcheck shell=bash

# The programs that are released. One more takes its name here, its words in run_words, a copy of ./ddt under its name,
# a page in man/, and .ci/release once it is built.
# shellcheck disable=SC2034
programs=(ddt ddtplan ddtd)

# run_words NAME: the words of a run that ends with status 0, in the crate's folder: rt builds a program by running it.
run_words() {
    case $1 in
        ddt) echo check data/campus.csv ;;
        ddtplan) echo blocks data/campus.csv ;;
        ddtd) echo check data/root.toml ;;
    esac
}

# crates_of NAME: the crates that a program stands on, and its own, by crates.txt, where a line is NAME: DEP DEP ..
crates_of() {
    awk -v program="$1" '/^[a-z]/ { name = $1; sub(/:$/, "", name); $1 = ""; deps[name] = $0 }
        function visit(name, each, parts, n) {
            if (!(name in deps) || name in seen) return
            seen[name] = 1
            n = split(deps[name], parts, " ")
            for (each = 1; each <= n; each++) visit(parts[each])
            print name
        }
        END { visit(program) }' crates.txt
}

# places_of NAME: where a program's sources are: crates.txt, and the code, definitions and proofs of each of its crates
places_of() {
    local crate part
    echo crates.txt
    for crate in $(crates_of "$1"); do
        for part in src specs proofs; do
            [ ! -d "crates/$crate/$part" ] || echo "crates/$crate/$part"
        done
    done
}

# checksum_of NAME: the checksum of a program's sources: the SHA-256 of the list of theirs, by path. Where one of them
# can't be read it prints nothing and fails.
checksum_of() {
    local places sum
    mapfile -t places < <(places_of "$1")
    sum=$(
        set -o pipefail
        find -L "${places[@]}" -type f \( -name '*.rt' -o -name '*.antt' -o -name crates.txt \) -print0 |
            LC_ALL=C sort -z | xargs -0 -r sha256sum | sha256sum
    ) && echo "${sum%% *}"
}

# sha256_of FILE: nothing where it can't be read
sha256_of() {
    local sum
    sum=$(sha256sum 2>/dev/null <"$1") && echo "${sum%% *}"
}

# note_build NAME CHECKSUM: the program that stands in the crate's folder was proved and built from these sources, so the
# launcher takes no other
note_build() {
    local build=crates/$1/out/$1
    rm -f -- "out/$1.found" 2>/dev/null
    echo "$2 $(sha256_of "$build")" >"$build.sources"
}

# is_built NAME CHECKSUM: whether the program that stands in the crate's folder was proved and built from these sources
is_built() {
    local build=crates/$1/out/$1
    [ -n "$2" ] && [ -x "$build" ] && [ "$(cat -- "$build.sources" 2>/dev/null)" = "$2 $(sha256_of "$build")" ]
}

# is_released NAME CHECKSUM: whether the program was released from these sources
is_released() {
    grep -qsxF "$2  $1" release/SOURCES
}

# is_whole NAME: whether the released program is, byte for byte, what was released
is_whole() {
    grep -qsxF "$(sha256_of "release/$1")  $1" release/SHA256SUMS
}
