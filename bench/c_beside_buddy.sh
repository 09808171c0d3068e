#!/bin/sh
# Runs the same programs over the library for C and over BuDDy 2.4, by turns, and prints a table of seconds, ratios and memory.
# The library is the one that `rt lib` builds in crates/dd, or the one that is named. BuDDy is Debian's package libbdd-dev.
set -e
root=$(cd "$(dirname "$0")/.." && pwd)
library=${1:-$root/crates/dd/out/libdd.a}
if [ ! -e /usr/include/bdd.h ] || ! command -v gcc > /dev/null; then
    echo "c_beside_buddy.sh: BuDDy or gcc is missing: apt-get install libbdd-dev gcc" >&2
    exit 1
fi
if [ ! -e "$library" ]; then
    echo "c_beside_buddy.sh: there is no $library: rt lib in crates/dd builds it" >&2
    exit 1
fi
room=$(mktemp -d)
trap 'rm -rf "$room"' EXIT
flags="-std=c11 -D_POSIX_C_SOURCE=199309L -O2"
gcc $flags -DWITH_BUDDY -o "$room/with_buddy" "$root/bench/c_programs.c" -lbdd
gcc $flags -I"$root/examples/c" -o "$room/with_dd" "$root/bench/c_programs.c" "$root/examples/c/heap.c" "$library"
python3 "$root/bench/c_beside_buddy.py" "$room/with_dd" "$room/with_buddy"
