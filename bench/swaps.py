"""Plays a script that makes a store of about 100,000 nodes over 64 levels, then the same with 1,000 sweeps behind it and with 1,000 swaps,
and prints a table of the seconds that these take.

usage: swaps.py PROGRAM
"""
import os
import random
import re
import subprocess
import sys
import tempfile

VARIABLES = 64
CALLS = 1000
RUNS = 3

TOLD = re.compile(r"status 0, (\d+) of \1 lines ok, left \d+, ([\d.]+) s, (\d+) MB")
timed = os.path.join(os.path.dirname(os.path.abspath(__file__)), "timed_play.py")


def sums(rng):
    """A sum of variables, each times a number of its own: a level has as many nodes as the variables above it have sums."""
    yield f"vars {VARIABLES}"
    yield "session"
    last = None
    for v in reversed(range(VARIABLES)):
        yield f"x{v} = var {v}"
        yield f"a{v} = ofbdd x{v}"
        yield f"k{v} = num {rng.randrange(1, 96)}"
        yield f"t{v} = times a{v} k{v}"
        if last is not None:
            yield f"s{v} = plus {last} t{v}"
        yield from (f"drop {r}{v}" for r in "xak")
        last = f"s{v}" if last is not None else f"t{v}"


def seconds_of(lines):
    with tempfile.NamedTemporaryFile("w", suffix=".job") as job:
        job.write("\n".join(lines) + "\n")
        job.flush()
        told = subprocess.run([sys.executable, timed, sys.argv[1], job.name], stdout=subprocess.PIPE, check=True, text=True).stdout.strip()
    row = TOLD.fullmatch(told)
    if row is None:
        sys.exit(told)
    return float(row.group(2))


def least(lines):
    return min(seconds_of(lines) for _ in range(RUNS))


rng = random.Random(7)
base = list(sums(rng))
calls = {
    "sweeps": ["sweep"] * CALLS,
    "swaps, to and fro at each level in turn": [f"swap {k // 2 % (VARIABLES - 1)}" for k in range(CALLS)],
}
alone = least(base)
print(f"{'calls':40} {'seconds':>8}")
for name, lines in calls.items():
    print(f"{name:40} {least(base + lines) - alone:8.2f}")
