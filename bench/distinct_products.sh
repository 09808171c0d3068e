#!/bin/sh
# Plays products of the first 2, 3, .. 447 variables, each from the one before it and one more variable: a line makes as
# many nodes as its product has variables, 100,128 in all. It shows what it costs to find a node and to make one. It tells
# the seconds and the greatest size of the program in memory. The program is built first where it is missing.
set -e
root=$(cd "$(dirname "$0")/.." && pwd)
job=$(mktemp)
trap 'rm -f "$job"' EXIT
awk 'BEGIN {
    vars = 447
    print "vars " vars
    print "session"
    for (v = 0; v < vars; v++) print "x" v " = var " v
    last = "x0"
    for (v = 1; v < vars; v++) {
        print "p" v " = and " last " x" v
        last = "p" v
    }
}' > "$job"
"$root/ddsh" play < "$root/examples/and.job" > /dev/null
python3 "$root/bench/timed_play.py" "$root/crates/dd_shell/out/dd_shell" "$job"
