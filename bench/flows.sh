#!/bin/sh
# Prints the flows of large policies, made by a generator, by a program of its own, and tells the processor seconds and the
# peak memory for each, at half its size and whole. Each is for all identities of the policy.
#   bench/flows.sh [RUNS]
set -eu
cd "$(dirname "$0")/.."
program=crates/vr_flow_cases/out/vr_flow_cases
[ -x "$program" ] || { echo "build the program first: (cd crates/vr_flow_cases && rt run < stdin)" >&2; exit 1; }
exec python3 bench/flows.py "$program" "${1:-3}"
