#!/bin/sh
# Plays ten thousand conjunctions of two of 1,024 variables under the default limit, and tells the seconds and the
# greatest size of the program in memory. The program is built first where it is missing.
set -e
root=$(cd "$(dirname "$0")/.." && pwd)
job=$(mktemp)
trap 'rm -f "$job"' EXIT
awk 'BEGIN {
    print "vars 1024"
    print "session"
    for (v = 0; v < 1024; v++) print "x" v " = var " v
    made = 0
    for (i = 0; i < 1024 && made < 10000; i++)
        for (j = i + 1; j < 1024 && made < 10000; j++)
            print "r" made++ " = and x" i " x" j
}' > "$job"
"$root/ddsh" play < "$root/examples/and.job" > /dev/null
python3 "$root/bench/timed_play.py" "$root/crates/dd_shell/out/dd_shell" "$job"
