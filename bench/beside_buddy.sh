#!/bin/sh
# Plays the same scripts of operations on BDDs with ddsh and with BuDDy 2.4, each with 65,536 entries in its computed table,
# three times each, and prints a table of seconds, their ratio and the greatest sizes in memory. The program is built first
# where it is missing. BuDDy is Debian's package libbdd-dev; it and a C compiler have to be there.
set -e
root=$(cd "$(dirname "$0")/.." && pwd)
if [ ! -e /usr/include/bdd.h ] || ! command -v cc > /dev/null; then
    echo "beside_buddy.sh: BuDDy or a C compiler is missing: apt-get install libbdd-dev gcc" >&2
    exit 1
fi
room=$(mktemp -d)
trap 'rm -rf "$room"' EXIT
cc -O2 -o "$room/driver" "$root/bench/buddy_driver.c" -lbdd
"$root/ddsh" play < "$root/examples/and.job" > /dev/null
exec python3 "$root/bench/beside_buddy.py" "$root/crates/dd_shell/out/dd_shell" "$room/driver"
