#!/bin/sh
# Runs the benches whose programs are built, keeps what they print in bench/results/, and draws the figures anew. The first line
# of each says when and where it ran. A bench that fails leaves what an earlier one printed.
#   bench/all.sh [NAME..]
set -eu
cd "$(dirname "$0")/.."
[ $# -gt 0 ] || set -- replay policy flows runs modules interpreter store http
for name in "$@"; do
    printed=$(mktemp)
    load=$(cut -d ' ' -f 1 /proc/loadavg)
    if "bench/$name.sh" >"$printed"; then
        {
            echo "# bench/$name.sh, $(date -u '+%-d %B %Y'), on $(nproc) processors, with a load of $load before it"
            cat "$printed"
        } >"bench/results/$name.txt"
        cat "bench/results/$name.txt"
    else
        echo "bench/all.sh: $name failed" >&2
    fi
    rm -f "$printed"
done
bench/plots.py
