#!/bin/sh
# Two hospitals count the patients that they share, over `vr serve` on this machine: keys are made, the server is started, each
# party asks with its key, and the server ends by itself after the last connection. It writes what answers.txt has.
#   examples/serve/run.sh [PORT]
set -eu
here=$(cd "$(dirname "$0")" && pwd)
case=$here/../shared-patients
port=${1:-8080}
work=$(mktemp -d)
server=
trap '[ -z "$server" ] || kill "$server" 2>/dev/null || true; rm -rf "$work"' EXIT

# A key is 64 hex digits that its party and the server alone have. curl takes it from a file, so that no list of processes
# shows it.
umask 077
for party in 1 2 3; do
    key=$(od -An -v -N32 -tx1 /dev/urandom | tr -d ' \n')
    echo "$party $key" >>"$work/keys"
    echo "Party-Key: $key" >"$work/key-$party"
done
echo "Party-Key: none" >"$work/key-stranger"

"$here/../../vr" serve --port "$port" --sessions 12 --store "$work/store.db" "$case/policy.json" "$work/keys" \
    >"$work/out" 2>"$work/errors" &
server=$!
until grep -q '^listening' "$work/out"; do
    kill -0 "$server" 2>/dev/null || { cat "$work/errors" >&2; exit 1; }
    sleep 0.1
done

# ask PARTY METHOD TARGET [WORDS OF CURL ..]: what the party is answered, in one line. curl would wait for an interim response
# before it sends a file, of which the server has none: so no Expect.
ask() {
    party=$1 method=$2 target=$3
    shift 3
    status=$(curl -sS -X "$method" -H "@$work/key-$party" -H Expect: -D "$work/head" -o "$work/body" \
        -w '%{http_code}' "$@" "http://127.0.0.1:$port$target")
    code=$(sed -n 's/^Exit-Code: \([0-9]*\).*/ with code \1/p' "$work/head")
    echo "$party $method $target: $status$code $(cat "$work/body")" | sed 's/ *$//'
    : >"$work/body"
}

# Each hospital compares the hash with that of the policy that it signed.
ask 1 GET /policy/hash
ask 2 GET /policy/hash
# Somebody else brings the program. Without the second list it ends with code 2.
ask 3 PUT /files/programs/intersect.wasm -T "$case/intersect.wasm"
ask 1 PUT /files/anna/patients -T "$case/anna.txt"
ask 1 POST /pipelines/1
ask 2 PUT /files/lakeside/patients -T "$case/lakeside.txt"
# Nobody reads a list that isn't his, and who brings the program runs nothing.
ask 1 GET /files/lakeside/patients
ask 3 POST /pipelines/1
# The lists are counted, and both read the one number; who has no key reads nothing.
ask 2 POST /pipelines/1
ask 1 GET /files/result/shared
ask 2 GET /files/result/shared
ask stranger GET /files/result/shared

wait "$server"
server=
sed 's/^listening .*/listening PORT/' "$work/out"
