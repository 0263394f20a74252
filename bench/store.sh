#!/bin/sh
# Times the load of a store of 10,000 files of 1 KiB, from the first schema on and again, and how long Python's sqlite3 takes
# to read the same rows; then 1,000 writes of `serve` into a store file, beside Python's sqlite3, and how soon it begins with
# 10,000 files.
#   bench/store.sh
set -eu
cd "$(dirname "$0")/.."
program=crates/vr_keeper_sql_cases/out/vr_keeper_sql_cases
[ -x "$program" ] || { echo "build the program first: (cd crates/vr_keeper_sql_cases && rt run)" >&2; exit 1; }
[ -x crates/vr/out/vr ] || { echo "build the program first: ./vr" >&2; exit 1; }
python3 bench/store.py "$program"
exec python3 bench/stored.py crates/vr/out/vr
