#!/bin/sh
# Reads networks of several models that are large or chosen, and prints a table. The program is built first where it is missing.
set -e
root=$(cd "$(dirname "$0")/.." && pwd)
"$root/ddsh" play < "$root/examples/and.job" > /dev/null
exec python3 "$root/bench/models.py" "$root/crates/dd_shell/out/dd_shell"
