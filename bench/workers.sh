#!/bin/sh
# Builds networks by several workers and behind a sift, and prints a table of each. The program is built first where it is missing.
set -e
root=$(cd "$(dirname "$0")/.." && pwd)
"$root/ddsh" play < "$root/examples/and.job" > /dev/null
exec python3 "$root/bench/workers.py" "$root/crates/dd_shell/out/dd_shell"
