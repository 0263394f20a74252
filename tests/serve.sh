#!/bin/sh
# Runs the built program's `serve`, and asks it over real sockets.
#   tests/serve.sh
set -eu
cd "$(dirname "$0")/.."
./vr hash examples/first/policy.json >/dev/null
exec python3 tests/serve.py crates/vr/out/vr
