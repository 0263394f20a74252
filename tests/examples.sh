#!/bin/sh
# Replays each case of examples/ by the built program, and compares what it writes with what the case expects; where the case
# says how people read it, what the filter makes of it. Where the compiler is installed, the programs are compiled anew and
# compared with those that the scripts have as hex.
#   tests/examples.sh
set -eu
cd "$(dirname "$0")/.."
wrong=0
cases=0
for expected in examples/*/expected.txt; do
    folder=$(dirname "$expected")
    cases=$((cases + 1))
    if ! ./vr replay "$folder/policy.json" "$folder/script.txt" | cmp -s - "$expected"; then
        echo "examples: $folder writes something else than expected.txt" >&2
        wrong=$((wrong + 1))
    fi
    if [ -f "$folder/readable.txt" ] &&
        ! examples/readable "$folder/policy.json" "$folder/script.txt" <"$expected" | cmp -s - "$folder/readable.txt"; then
        echo "examples: $folder reads otherwise than readable.txt" >&2
        wrong=$((wrong + 1))
    fi
done
tests/readable.py || wrong=$((wrong + 1))
if ! ./vr serve 2>&1 | grep -q '^usage: word 1$'; then
    echo "examples: this program doesn't serve; examples/serve is left out"
elif ! command -v curl >/dev/null; then
    echo "examples: curl is missing; examples/serve is left out"
else
    port=$(python3 -c 'import socket; it = socket.socket(); it.bind(("127.0.0.1", 0)); print(it.getsockname()[1])')
    cases=$((cases + 1))
    if ! timeout 120 examples/serve/run.sh "$port" | cmp -s - examples/serve/answers.txt; then
        echo "examples: examples/serve/run.sh writes something else than answers.txt" >&2
        wrong=$((wrong + 1))
    fi
fi
if command -v clang >/dev/null && command -v wasm-ld >/dev/null && [ -d /usr/include/wasm32-wasi ]; then
    built=$(mktemp -d)
    trap 'rm -rf "$built"' EXIT
    cp -r examples "$built/examples"
    if "$built/examples/programs/build.sh" >/dev/null 2>&1; then
        for program in examples/*/*.wasm; do
            cmp -s "$program" "$built/$program" || echo "examples: $program: this compiler gives other bytes; those stored are used"
        done
    else
        echo "examples: the compiler is not whole; the stored programs are used"
    fi
else
    echo "examples: clang, lld or wasi-libc is missing; the stored programs are used"
fi
echo "examples: $((cases - wrong)) of $cases cases as expected"
exit "$wrong"
