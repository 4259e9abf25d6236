#!/usr/bin/env bash
# Holds the engine against the second one: tools/compare.sh SEED COUNT [KIND ..]
# Makes COUNT requests of each kind (run, chain, curve, matrix, lattice and conv, or those that are named), lets both engines
# answer them, and says for each kind how many answers differ. The same seed makes the same requests. It ends with status 1 if
# an answer differs or an engine fails, and then keeps the requests and answers.
set -euo pipefail
usage="tools/compare.sh SEED COUNT [KIND ..]"
seed=${1:?$usage}
count=${2:?$usage}
shift 2
[ $# -gt 0 ] || set -- run chain curve matrix lattice conv
top=$(cd "$(dirname "$0")/.." && pwd)
second=$top/tools/second_engine.py
program=$("$top/tools/built" probe)
work=$(mktemp -d)

# Compares one kind, and fails where an answer differs.
compare() {
    local kind=$1 at=$work/$1
    python3 "$second" cases "$seed" "$count" "$kind" >"$at.requests"
    python3 "$second" answer <"$at.requests" >"$at.second"
    "$program" <"$at.requests" >"$at.first"
    paste -d '\t' "$at.first" "$at.second" | awk -F '\t' '$1 != $2 { print "line " NR ": " $1 "\n  second: " $2 }' >"$at.differs"
    echo "$kind: $(wc -l <"$at.requests") requests of seed $seed, $(($(wc -l <"$at.differs") / 2)) answered differently"
    head -n 2 "$at.differs"
    [ ! -s "$at.differs" ]
}

compared=()
for kind in "$@"; do
    compare "$kind" &
    compared+=($!)
done
failed=0
for each in "${compared[@]}"; do
    wait "$each" || failed=1
done
if [ "$failed" -ne 0 ]; then
    echo "requests and answers are kept in $work"
    exit 1
fi
rm -r "$work"
