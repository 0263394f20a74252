#!/bin/sh
# Runs the programs of bench/programs to their end and prints steps a second of processor time, and how these compare
# with wasm-interp of Debian's wabt where that is installed, on the same file. Each program checks its own result, and
# traps where it is wrong. bench/programs/build.sh compiles them anew.
#   bench/interpreter.sh [RUNS]
set -eu
cd "$(dirname "$0")/.."
program=crates/vr_wasm_bench/out/vr_wasm_bench
[ -x "$program" ] || { echo "build the program first: (cd crates/vr_wasm_bench && rt run)" >&2; exit 1; }
exec python3 bench/interpreter.py "$program" "${1:-3}"
