#!/usr/bin/env bash
# Compares a picture that this engine converted with what Little CMS 2 makes of the same elements:
#     bench/profiles.sh A2B0:FILE B2A0:FILE .. ENTERING LEAVING
# Both pictures are PGM, PPM or PAM with raw samples. bench/picture.c says more.
set -euo pipefail
top=$(cd "$(dirname "$0")/.." && pwd)
program=$top/out/bench/picture
if ! pkg-config --exists lcms2 || ! command -v gcc >/dev/null; then
    echo "bench/profiles.sh: Little CMS 2 or gcc is missing; on Debian: apt-get install gcc pkg-config liblcms2-dev" >&2
    exit 1
fi
mkdir -p "$top/out/bench"
# shellcheck disable=SC2046
gcc -std=c11 -Wall -Wextra -pedantic -Werror -O2 "$top/bench/picture.c" $(pkg-config --cflags --libs lcms2) -o "$program"
exec "$program" "$@"
