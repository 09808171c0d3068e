"""Prints how many calls that wait for nobody one, two and four sessions make in a second, each in a thread of its own.

usage: calls.py PROGRAM

A round is a copy of a row, a comparison of the two and a drop of the copy. What is not to be timed, as the opening, is taken off: it is timed
alone. Each figure is of the clock, the least of ten runs.
"""
import subprocess
import sys
import time

ROUNDS = 2_000_000


def run(*words):
    """The least seconds of ten runs."""
    seconds = []
    for _ in range(10):
        before = time.monotonic()
        subprocess.run([sys.argv[1], *map(str, words)], check=True, stdout=subprocess.DEVNULL)
        seconds.append(time.monotonic() - before)
    return min(seconds)


print("sessions | calls, millions a second | times that of one")
one = None
for sessions in (1, 2, 4):
    rate = sessions * 3 * ROUNDS / (run(sessions, ROUNDS) - run(sessions, 0)) / 1e6
    one = one or rate
    print(f"{sessions:8} | {rate:24.1f} | {rate / one:17.2f}")
