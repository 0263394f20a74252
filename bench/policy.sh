#!/bin/sh
# Checks policies of 0.4 and of 4 MiB in three shapes, made by a generator, with the built program, and prints for each shape
# the processor seconds, how the two sizes compare, and the peak memory over the size of the file.
#   bench/policy.sh [RUNS]
set -eu
cd "$(dirname "$0")/.."
program=crates/vr/out/vr
[ -x "$program" ] || { echo "build the program first: ./vr" >&2; exit 1; }
exec python3 bench/policy.py "$program" "${1:-5}"
