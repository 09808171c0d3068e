"""Plays scripts that make functions under an order that does not suit them, with and without a sift behind them, and prints a table of the
seconds that the sift takes; with a driver of BuDDy those of its BDD_REORDER_SIFT too.

usage: sifts.py PROGRAM [DRIVER]

  pairs     the sum of twelve products of two variables each, whose firsts all stand before their seconds
  halves    the same of thirteen products over 64 variables, of which 38 are not used
  parities  twenty parities of about half of 1,000 variables each
"""
import os
import random
import re
import subprocess
import sys
import tempfile

RUNS = 3
TOLD = re.compile(r"status 0, (\d+) of (\d+) lines ok, left \d+, ([\d.]+) s, (\d+) MB")
timed = os.path.join(os.path.dirname(os.path.abspath(__file__)), "timed_play.py")


def pairs(count, variables, of):
    yield f"vars {variables}"
    yield "session"
    yield from (f"x{i} = var {of(i)}" for i in range(2 * count))
    last = None
    for i in range(count):
        yield f"p{i} = and x{i} x{i + count}"
        if last is not None:
            yield f"s{i} = or {last} p{i}"
            yield f"drop {last}"
            yield f"drop p{i}"
        last = f"p{i}" if last is None else f"s{i}"


def parities(variables, count):
    rng = random.Random(5)
    yield f"vars {variables}"
    yield "session"
    yield from (f"x{v} = var {v}" for v in range(variables))
    for f in range(count):
        last = None
        for v in reversed([v for v in range(variables) if rng.randrange(2)]):
            if last is None:
                last = f"x{v}"
                continue
            yield f"f{f}_{v} = xor x{v} {last}"
            if last.startswith("f"):
                yield f"drop {last}"
            last = f"f{f}_{v}"


SCRIPTS = {
    "pairs": list(pairs(12, 24, lambda i: i)),
    "halves": list(pairs(13, 64, lambda i: 2 * i + 5)),
    "parities": list(parities(1000, 20)),
}


def seconds_of(lines):
    with tempfile.NamedTemporaryFile("w", suffix=".job") as job:
        job.write("\n".join(lines) + "\n")
        job.flush()
        told = subprocess.run([sys.executable, timed, sys.argv[1], job.name], stdout=subprocess.PIPE, check=True, text=True).stdout.strip()
    row = TOLD.fullmatch(told)
    if row is None or row.group(1) != row.group(2):
        sys.exit(told)
    return float(row.group(3))


LETTERS = {"not": "n", "and": "a", "or": "o", "xor": "x"}


def program_of(lines):
    """The script as the driver of BuDDy reads it."""
    registers, steps, variables = {}, [], 0

    def number(name):
        return registers.setdefault(name, len(registers))

    for words in map(str.split, lines):
        if words[0] == "vars":
            variables = int(words[1])
        elif words[0] == "drop":
            steps.append(f"d 0 {number(words[1])}")
        elif words[0] == "sift":
            steps.append("s 0")
        elif words[1:3] == ["=", "var"]:
            steps.append(f"v {number(words[0])} {words[3]}")
        elif words[1:2] == ["="]:
            operands = " ".join(str(number(it)) for it in words[3:])
            steps.append(f"{LETTERS[words[2]]} {number(words[0])} {operands}")
    return "\n".join([f"{variables} {len(registers)}", *steps]) + "\n"


def buddy_seconds(lines):
    told = [subprocess.run([sys.argv[2]], input=program_of(lines), capture_output=True, check=True, text=True).stdout.split() for _ in range(RUNS)]
    return min(float(seconds) for seconds, *_ in told)


def least(lines):
    return min(seconds_of(lines) for _ in range(RUNS))


print(f"{'script':10} {'lines':>6} {'ddsh':>8}" + (f" {'BuDDy':>8}" if sys.argv[2:] else ""))
for name, lines in SCRIPTS.items():
    row = f"{name:10} {len(lines):6} {least([*lines, 'sift']) - least(lines):8.2f}"
    if sys.argv[2:]:
        row += f" {buddy_seconds([*lines, 'sift']) - buddy_seconds(lines):8.2f}"
    print(row)
