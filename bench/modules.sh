#!/bin/sh
# Decodes and validates modules made by a seeded generator, each at two sizes, and prints seconds of processor time, how
# these grow for four times the bytes, and how they compare with wasm-validate of Debian's wabt where that is installed.
#   bench/modules.sh [RUNS]
set -eu
cd "$(dirname "$0")/.."
program=crates/vr_wasm_bench/out/vr_wasm_bench
[ -x "$program" ] || { echo "build the program first: (cd crates/vr_wasm_bench && rt run)" >&2; exit 1; }
exec python3 bench/modules.py "$program" "${1:-3}"
