#!/bin/sh
# Times the built program's `serve`: requests a second and latencies of GET and PUT of 1 KiB over connections that are kept,
# by `wrk`, beside node's http server over a map; and the memory after 100,000 PUTs of 1 KiB to 100 files.
#   bench/http.sh [SECONDS]      each row takes so many seconds: 5
set -eu
cd "$(dirname "$0")/.."
program=crates/vr/out/vr
[ -x "$program" ] || { echo "build the program first: ./vr" >&2; exit 1; }
exec python3 bench/http_rates.py "$program" "${1:-5}"
