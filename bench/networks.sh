#!/bin/sh
# Builds the same networks with ddsh, with BuDDy 2.4 and, where it is there, with ABC and its CUDD, three times each, and prints a
# table of seconds, nodes, ratios and memory. The program is built first where it is missing. BuDDy is Debian's package libbdd-dev, ABC
# its package berkeley-abc; BuDDy and a C compiler have to be there.
set -e
root=$(cd "$(dirname "$0")/.." && pwd)
if [ ! -e /usr/include/bdd.h ] || ! command -v cc > /dev/null; then
    echo "networks.sh: BuDDy or a C compiler is missing: apt-get install libbdd-dev gcc" >&2
    exit 1
fi
room=$(mktemp -d)
trap 'rm -rf "$room"' EXIT
cc -O2 -o "$room/driver" "$root/bench/buddy_driver.c" -lbdd
"$root/ddsh" play < "$root/examples/and.job" > /dev/null
exec python3 "$root/bench/networks.py" "$root/crates/dd_shell/out/dd_shell" "$room/driver"
