#!/bin/sh
# Asks a `PlainStore`, and tables of words with one user and for sessions by the single steps of a seat, for leaves, nodes, remembered operations
# and a function of many nodes; prints tables of the time of each. The program is built first where it is missing.
set -e
root=$(cd "$(dirname "$0")/.." && pwd)
times=$root/crates/step_times
[ -x "$times/out/step_times" ] || (cd "$times" && rt run -- 0 0 0 0 0 0 0 0 > /dev/null)
exec python3 "$root/bench/steps.py" "$times/out/step_times"
