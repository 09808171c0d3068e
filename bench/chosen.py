"""Plays scripts that were chosen to be dear, each in three sizes n, 2n, 4n, and prints a table of seconds.

usage: chosen.py PROGRAM

  opening     a store of as many slots, variables and elements as there can be
  parity      vcompose at the last of n variables of a parity: two functions a level, one the other's complement
  ladder      the same of two functions a level that are no complements
  subsets     n calls of `on` for one small family, beside n unions of two (unions)
  bounds      n calls of `atleast` for one small function
  comb        support of a chain whose then arcs lead to products of many literals below
  far_apart   n numbers that are multiples of 2^20
  lattice     vcompose on a diagram of 26 levels and about 5 n nodes, chosen at random; its making alone (making)
"""
import os
import random
import re
import subprocess
import sys
import tempfile


def variables(n, limit=262_144):
    yield f"vars {n}"
    yield f"limit {limit}"
    yield "session"
    yield from (f"x{v} = var {v}" for v in range(n))


def opening(_n):
    yield from ["vars 1024", "elements 1024", "limit 8388607", "session"]


def parity(n):
    yield from variables(n + 1)
    last = f"x{n - 1}"
    for v in reversed(range(n - 1)):
        yield f"p{v} = xor x{v} {last}"
        last = f"p{v}"
    yield f"r = vcompose {last} {n - 1} x{n}"


def ladder(n):
    yield from variables(n + 1)
    yield f"a{n - 1} = and x{n - 1} x{n}"
    yield f"b{n - 1} = or x{n - 1} x{n}"
    for v in reversed(range(n - 1)):
        yield f"a{v} = ite x{v} a{v + 1} b{v + 1}"
        yield f"b{v} = ite x{v} b{v + 1} a{v + 1}"
    yield f"r = vcompose a0 {n - 1} x{n}"


def families(call, n):
    yield from ["vars 0", "elements 4", "session", "a = single 1", "b = single 2"]
    yield from (f"r{i} = {call}" for i in range(n))


def subsets(n):
    return families("on a 1", n)


def unions(n):
    return families("union a b", n)


def bounds(n):
    yield from ["vars 4", "session", "v = var 1", "a = ofbdd v"]
    yield from (f"r{i} = atleast a 1" for i in range(n))


def comb(n):
    yield from variables(n)
    half = n // 2
    yield f"q{n - 2} = and x{n - 2} x{n - 1}"
    for v in reversed(range(half, n - 2)):
        yield f"q{v} = and x{v} q{v + 1}"
    last = f"x{half}"
    for v in reversed(range(half)):
        yield f"f{v} = ite x{v} q{half + v % (half - 2)} {last}"
        last = f"f{v}"
    yield from (f"s{i} = support {last}" for i in range(20))


def far_apart(n):
    yield from ["vars 0", "session"]
    yield from (f"n{i} = num {i << 20}" for i in range(n))


def making(n):
    chance = random.Random(1)
    levels = 26
    yield from variables(levels, 2_000_000)
    below = [f"x{v}" for v in range(levels - 5, levels)]
    for v in reversed(range(levels - 5)):
        width = min(n // 4, 2**v)
        here = [f"g{v}x{i}" for i in range(width)]
        for name in here:
            yield f"{name} = ite x{v} {chance.choice(below)} {chance.choice(below)}"
        below = here


def lattice(n):
    yield from making(n)
    yield "r = vcompose g0x0 25 x24"


# Each script with its least size.
SCRIPTS = [
    (opening, 1),
    (parity, 128),
    (ladder, 128),
    (unions, 10_000),
    (subsets, 10_000),
    (bounds, 10_000),
    (comb, 256),
    (far_apart, 25_000),
    (making, 8_000),
    (lattice, 8_000),
]

TOLD = re.compile(r"status 0, .*, ([\d.]+) s, (\d+) MB")
timed = os.path.join(os.path.dirname(os.path.abspath(__file__)), "timed_play.py")


def play(lines):
    """The seconds and the size in memory of a play of these lines."""
    with tempfile.NamedTemporaryFile("w", suffix=".job") as job:
        job.write("\n".join(lines) + "\n")
        job.flush()
        told = subprocess.run(
            [sys.executable, timed, sys.argv[1], job.name],
            stdout=subprocess.PIPE,
            check=True,
            text=True,
        ).stdout.strip()
    row = TOLD.fullmatch(told)
    if row is None:
        sys.exit(told)
    return row.groups()


print(f"{'script':12} {'n':>7} {'n':>7} {'2n':>7} {'4n':>7} {'MB at 4n':>9}")
for script, n in SCRIPTS:
    plays = [play(script(n * times)) for times in (1, 2, 4)]
    seconds = " ".join(f"{s:>7}" for s, _ in plays)
    print(f"{script.__name__:12} {n:>7} {seconds} {plays[2][1]:>9}", flush=True)
