#!/bin/sh
# Replays scripts by the built program, and compares each text with the one that a table says: of reads, writes and
# appends, and of runs; and `make` over what is made apart from it.
#   tests/replays.sh
set -eu
cd "$(dirname "$0")/.."
./vr hash examples/first/policy.json >/dev/null
python3 tests/replays.py crates/vr/out/vr
python3 tests/making.py crates/vr/out/vr
exec python3 tests/runs.py crates/vr/out/vr
