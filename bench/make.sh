#!/bin/sh
# Prints the processor seconds and the peak memory of `vr make 1`, 10, 100 and 1000 with the built program: each number is ten
# times the calls of the one before, and a thousand are 100,002.
#   bench/make.sh [RUNS]
set -eu
cd "$(dirname "$0")/.."
program=crates/vr/out/vr
[ -x "$program" ] || { echo "build the program first: ./vr" >&2; exit 1; }
exec python3 bench/make.py "$program" "${1:-3}"
