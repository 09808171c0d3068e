#!/bin/sh
# Has the program read texts that were chosen to be dear for a reader, each in three sizes up to 64 MiB, in 4 GB of addresses and on a
# stack of 256 kB, and prints a table of seconds and memory. The program is built first where it is missing.
set -e
root=$(cd "$(dirname "$0")/.." && pwd)
"$root/ddsh" play < "$root/examples/and.job" > /dev/null
exec python3 "$root/bench/texts.py" "$root/crates/dd_shell/out/dd_shell" "$@"
