#!/bin/sh
# Times calls that wait for nobody, of one, two and four sessions at once. The program is built first where it is missing.
set -e
root=$(cd "$(dirname "$0")/.." && pwd)
times=$root/crates/call_times
[ -x "$times/out/call_times" ] || (cd "$times" && rt run -- 1 0 > /dev/null)
exec python3 "$root/bench/calls.py" "$times/out/call_times"
