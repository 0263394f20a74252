#!/bin/sh
# Replays scripts with runs by the built program, and prints the processor time that the runs add: of a program that ends at
# once, over few and many files; of one that copies a large file; and of long ones, beside wasm-interp of Debian's wabt where
# that is installed.
#   bench/runs.sh [RUNS]
set -eu
cd "$(dirname "$0")/.."
program=crates/vr/out/vr
[ -x "$program" ] || { echo "build the program first: ./vr" >&2; exit 1; }
exec python3 bench/runs.py "$program" "${1:-3}"
