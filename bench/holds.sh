#!/bin/sh
# Sweeps a store of up to 1,000,000 nodes in its holder's hands, few of them dead or all, and swaps two of its levels, over a `HeldStore` and by
# single steps at a table of words; prints a table of the seconds of each. The program is built first where it is missing.
set -e
root=$(cd "$(dirname "$0")/.." && pwd)
times=$root/crates/hold_times
[ -x "$times/out/hold_times" ] || (cd "$times" && rt run -- 0 100 2 0 0 0 1 0 0 > /dev/null)
exec python3 "$root/bench/holds.py" "$times/out/hold_times"
