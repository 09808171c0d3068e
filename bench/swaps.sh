#!/bin/sh
# Times 1,000 sweeps and 1,000 swaps of a store of about 100,000 nodes over 64 levels. The program is built first where it is missing.
set -e
root=$(cd "$(dirname "$0")/.." && pwd)
"$root/ddsh" play < "$root/examples/and.job" > /dev/null
exec python3 "$root/bench/swaps.py" "$root/crates/dd_shell/out/dd_shell"
