#!/bin/sh
# Plays scripts that were chosen to be dear, each in three sizes n, 2n, 4n, and prints a table of the seconds and the greatest
# size of the program in memory. The program is built first where it is missing.
set -e
root=$(cd "$(dirname "$0")/.." && pwd)
"$root/ddsh" play < "$root/examples/and.job" > /dev/null
exec python3 "$root/bench/chosen.py" "$root/crates/dd_shell/out/dd_shell"
