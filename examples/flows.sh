#!/bin/sh
# Draws what `vr flows` says of a policy, as SVG on standard output: who can learn something of which files, and of whose
# calls. A box is a region of files, an ellipse an identity. An arrow from a region to an identity says that it may learn of
# the files there; a dashed arrow from one identity to another, that the second may learn of the first one's calls.
#
#     examples/flows.sh POLICY > flows.svg
set -eu
[ $# -eq 1 ] || { echo "usage: flows.sh POLICY > flows.svg" >&2; exit 1; }
command -v dot >/dev/null || { echo "flows.sh: Graphviz's dot is missing (Debian's package graphviz)" >&2; exit 2; }
vr="$(dirname "$0")/../vr"
flows=$(mktemp)
trap 'rm -f "$flows"' EXIT
"$vr" flows "$1" >"$flows"
awk '
BEGIN {
    print "digraph flows {"
    print "  rankdir=LR; fontname=\"sans-serif\"; node [fontname=\"sans-serif\", fontsize=12]; edge [color=\"#5a6b7b\"];"
}
$1 == "flow" {
    printf "  \"id %s\" [label=\"identity %s\", shape=ellipse, style=filled, fillcolor=\"#e6f0fa\"];\n", $2, $2
    regions = 0
    for (at = 4; at <= NF; at++) {
        if ($at == "regions") { regions = 1; continue }
        if (regions) {
            printf "  \"%s\" [shape=box, style=filled, fillcolor=\"#fbf3e0\"];\n  \"%s\" -> \"id %s\";\n", $at, $at, $2
        } else if ($at != $2) {
            printf "  \"id %s\" -> \"id %s\" [style=dashed];\n", $at, $2
        }
    }
}
END { print "}" }' "$flows" | dot -Tsvg
