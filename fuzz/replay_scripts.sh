#!/usr/bin/env bash
# Compares what `ddt replay` prints with a plain resolver over lists, on scripts drawn by lot:
# fuzz/replay_scripts.sh [COUNT [SEED [--replaced]]]; by default 20,000 scripts, and the seed 1. With --replaced the
# scripts go over several registers, of which one replaces another.
#
# The program is the one that the launcher runs. replay_scripts.py says what is drawn and compared; it takes some
# minutes. Ends with the number of scripts that agree and of those that differ; the status is 0 only where none differs.
set -eu
cd -- "$(dirname -- "${BASH_SOURCE[0]}")/.."
program=$(release/program ddt)
exec python3 fuzz/replay_scripts.py --program "$program" --count "${1:-20000}" --seed "${2:-1}" "${@:3}"
