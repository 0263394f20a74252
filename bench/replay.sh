#!/bin/sh
# Replays large scripts, made by a seeded generator, with the built program, and prints the processor seconds, lines a second,
# how the sizes compare, and the peak memory: 100,000 reads and writes over 100, 10,000 and 64,000 files; appends to one file;
# and a large file that is written again and again.
#   bench/replay.sh [RUNS]
set -eu
cd "$(dirname "$0")/.."
program=crates/vr/out/vr
[ -x "$program" ] || { echo "build the program first: ./vr" >&2; exit 1; }
exec python3 bench/replay.py "$program" "${1:-5}"
