#!/usr/bin/env bash
# Sets this engine beside Little CMS 2: bench/compare.sh [CORE]
# Both send the same rows through the same lattices, by turns and on one processor core, the last one where none is told. What
# is printed is Markdown: the machine, and tables of the shortest of twenty rounds with the median behind it. A round of each
# kind of row comes in every turn, so that what holds a core up for some seconds does not hold up all rounds of one kind.
set -euo pipefail
top=$(cd "$(dirname "$0")/.." && pwd)
core=${1:-$(($(nproc) - 1))}
turns=20
rounds=1

if ! pkg-config --exists lcms2 || ! command -v gcc >/dev/null; then
    echo "bench/compare.sh: Little CMS 2 or gcc is missing; on Debian: apt-get install gcc pkg-config liblcms2-dev" >&2
    exit 1
fi
ours=$("$top/tools/built" bench)
out=$top/out/bench
theirs=$out/littlecms
mkdir -p "$out"
# shellcheck disable=SC2046
gcc -std=c11 -D_POSIX_C_SOURCE=200809L -Wall -Wextra -Werror -O2 "$top/bench/littlecms.c" \
    $(pkg-config --cflags --libs lcms2) -o "$theirs"

# What both engines print, each line with the engine in front.
measured() {
    for engine in ours theirs; do
        "${!engine}" leaving | sed "s/^/row $engine /"
    done
    for turn in $(seq "$turns"); do
        echo "turn $turn of $turns" >&2
        for engine in ours theirs; do
            taskset -c "$core" "${!engine}" compare "$rounds" | sed "s/^/time $engine /"
        done
    done
}

machine() {
    echo "$(date -u +%F), one core of $(nproc), $(sed -n 's/^model name[^:]*: //p' /proc/cpuinfo | head -n 1);"
    echo "$(rt version | head -n 1), for x86-64-v2; $(gcc --version | head -n 1); Little CMS $(pkg-config --modversion lcms2)."
}

measured >"$out/measured"
machine
awk -f "$top/bench/table.awk" "$out/measured"
