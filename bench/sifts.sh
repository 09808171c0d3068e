#!/bin/sh
# Times sifts of functions under orders that do not suit them, with ddsh and, where it and a C compiler are there, with BuDDy 2.4 (Debian's
# package libbdd-dev). The program is built first where it is missing.
set -e
root=$(cd "$(dirname "$0")/.." && pwd)
"$root/ddsh" play < "$root/examples/and.job" > /dev/null
program=$root/crates/dd_shell/out/dd_shell
if [ ! -e /usr/include/bdd.h ] || ! command -v cc > /dev/null; then
    exec python3 "$root/bench/sifts.py" "$program"
fi
room=$(mktemp -d)
trap 'rm -rf "$room"' EXIT
cc -O2 -o "$room/driver" "$root/bench/buddy_driver.c" -lbdd
python3 "$root/bench/sifts.py" "$program" "$room/driver"
