#!/bin/sh
# Runs `rt ci` with the words given here and prints, by the moments at which its own lines came, the seconds of each crate's
# proof and tests, from when the last crate below it was proved. Crates run side by side, so the sum is more than the
# whole. What comes of edits is told only once all are tried, so they have no seconds by crate.
#   bench/gate.sh [--anew] [NAME..]
set -eu
cd "$(dirname "$0")/.."
rt ci "$@" 2>&1 | python3 bench/gate.py crates.txt
