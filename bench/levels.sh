#!/bin/sh
# Sweeps a store of about 1,000,000 nodes, walks over one of its levels, swaps that level and the next, and walks again; prints a table of
# the seconds of each and the greatest size of the program in memory. The program is built first where it is missing.
set -e
root=$(cd "$(dirname "$0")/.." && pwd)
times=$root/crates/held_times
[ -x "$times/out/held_times" ] || (cd "$times" && rt run -- 2 0 0 0 0 > /dev/null)
exec python3 "$root/bench/levels.py" "$times/out/held_times"
