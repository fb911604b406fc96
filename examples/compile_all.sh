# Compiles groups of a register, each into GROUP.toml, or none of them: sh compile_all.sh REGISTER GROUP..
#
# A register with a fault, or a full disk, leaves the files as they are. The last line says what was written.
set -eu
[ $# -ge 2 ] || { echo "usage: sh compile_all.sh REGISTER GROUP.." >&2; exit 2; }
ddt=./ddt
[ -x "$ddt" ] || ddt=ddt
register=$1
shift
"$ddt" check "$register"
new=$(mktemp -d ./compiled.XXXXXX)
trap 'rm -rf "$new"' EXIT
for group in "$@"; do
    "$ddt" compile "$register" "$group" >"$new/$group.toml"
done
mv "$new"/*.toml .
echo "written: $*"
