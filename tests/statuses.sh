#!/bin/sh
# Runs the built program over a table of inputs, most of them bad, and compares its status, its standard error and its
# standard output with what the table says.
#   tests/statuses.sh
set -eu
cd "$(dirname "$0")/.."
./vr hash examples/first/policy.json >/dev/null
exec python3 tests/statuses.py crates/vr/out/vr
