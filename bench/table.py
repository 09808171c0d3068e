"""Plays generated scripts and prints a table of seconds and memory.

usage: table.py PROGRAM

  products     the products of the first 2, 3, .. n variables, each from the one before it
  quantifiers  one product of n variables, and for each of them what is left without it
  sums         of n variables, each times a power of two of its own, so that no two values are equal
  unions       the families of the first 2, 3, .. n elements, each from the one before it
"""
import os
import re
import subprocess
import sys
import tempfile


def chained(command, operands):
    """The command on the first two operands, then on that and the third, and so on: registers c1, c2, .."""
    last = operands[0]
    for place, operand in enumerate(operands[1:], 1):
        yield f"c{place} = {command} {last} {operand}"
        last = f"c{place}"


def products(n):
    yield f"vars {n}"
    yield "session"
    yield from (f"x{v} = var {v}" for v in range(n))
    yield from chained("and", [f"x{v}" for v in range(n)])


def quantifiers(n):
    yield f"vars {n}"
    yield "session"
    yield from (f"x{v} = var {v}" for v in range(n))
    yield from chained("and", [f"x{v}" for v in reversed(range(n))])
    yield from (f"e{v} = exists c{n - 1} {v}" for v in range(n))


def sums(n):
    yield f"vars {n}"
    yield "session"
    for v in range(n):
        yield f"x{v} = var {v}"
        yield f"a{v} = ofbdd x{v}"
        yield f"k{v} = num {2 ** (n - 1 - v)}"
        yield f"t{v} = times a{v} k{v}"
    yield from chained("plus", [f"t{v}" for v in reversed(range(n))])


def unions(n):
    yield "vars 0"
    yield f"elements {n}"
    yield "session"
    yield from (f"e{e} = single {e}" for e in range(n))
    yield from chained("union", [f"e{e}" for e in range(n)])


# Each script with its two sizes, and about how many nodes it makes of each.
SCRIPTS = [
    (products, [(141, 10_000), (447, 100_000)]),
    (quantifiers, [(141, 10_000), (447, 100_000)]),
    (sums, [(12, 8_000), (16, 131_000)]),
    (unions, [(141, 10_000), (447, 100_000)]),
]

TOLD = re.compile(r"status 0, (\d+) of \1 lines ok, left \d+, ([\d.]+) s, (\d+) MB")
timed = os.path.join(os.path.dirname(os.path.abspath(__file__)), "timed_play.py")

print(f"{'script':12} {'nodes':>8} {'lines':>6} {'seconds':>8} {'MB':>5}")
for script, sizes in SCRIPTS:
    for n, nodes in sizes:
        with tempfile.NamedTemporaryFile("w", suffix=".job") as job:
            job.write("\n".join(script(n)) + "\n")
            job.flush()
            # Each run is timed by a program of its own, which tells the greatest size of that run alone.
            told = subprocess.run(
                [sys.executable, timed, sys.argv[1], job.name],
                stdout=subprocess.PIPE,
                check=True,
                text=True,
            ).stdout.strip()
        row = TOLD.fullmatch(told)
        if row is None:
            sys.exit(f"{script.__name__}: {told}")
        lines, seconds, size = row.groups()
        print(f"{script.__name__:12} {nodes:8} {lines:>6} {seconds:>8} {size:>5}")
