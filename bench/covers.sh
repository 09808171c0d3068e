#!/bin/sh
# Makes irredundant covers of sums and parities, and the same ones again, and prints a table. The program is built first where it is missing.
set -e
root=$(cd "$(dirname "$0")/.." && pwd)
"$root/ddsh" play < "$root/examples/and.job" > /dev/null
exec python3 "$root/bench/covers.py" "$root/crates/dd_shell/out/dd_shell"
