#!/usr/bin/env bash
# The requests that the gate runs probe on, and the second engine's answers to them:
#     tools/stored.sh            writes them, crates/probe/stdin and crates/probe/stdout
#     tools/stored.sh --check    fails where something else is stored
# They are those at the limits, and 400 short random ones of each kind.
set -euo pipefail
cd "$(dirname "$0")"
crate=../crates/probe
work=$(mktemp -d)
trap 'rm -rf "$work"' EXIT
python3 second_engine.py limits >"$work/stdin"
python3 second_engine.py cases --short 2026 400 >>"$work/stdin"
python3 second_engine.py answer <"$work/stdin" >"$work/stdout"
case "${1:-}" in
"") cp "$work/stdin" "$work/stdout" "$crate" ;;
--check)
    if ! cmp "$work/stdin" "$crate/stdin" || ! cmp "$work/stdout" "$crate/stdout"; then
        echo "what is stored for probe is not what the second engine asks and answers" >&2
        exit 1
    fi
    ;;
*)
    echo "usage: tools/stored.sh [--check]" >&2
    exit 2
    ;;
esac
