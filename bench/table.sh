#!/bin/sh
# Plays a fixed set of generated scripts, each in a size of about 10,000 and of about 100,000 nodes, and prints a table of
# the seconds and the greatest size of the program in memory. The program is built first where it is missing.
set -e
root=$(cd "$(dirname "$0")/.." && pwd)
"$root/ddsh" play < "$root/examples/and.job" > /dev/null
exec python3 "$root/bench/table.py" "$root/crates/dd_shell/out/dd_shell"
