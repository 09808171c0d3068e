#!/bin/sh
# Writes diagrams as networks of multiplexers and reads them again, and prints a table. The program is built first where it is missing.
set -e
root=$(cd "$(dirname "$0")/.." && pwd)
"$root/ddsh" play < "$root/examples/and.job" > /dev/null
exec python3 "$root/bench/multiplexers.py" "$root/crates/dd_shell/out/dd_shell"
