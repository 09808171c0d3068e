"""Prints a table of the seconds that sweeps, walks over a level and a swap take in a store in its holder's hands.

usage: levels.py PROGRAM

The store has the function x0 xK + x1 x(K+1) + .. of 2K variables: 2^(K+1) nodes, and 1,024 at level 10. What is not to be timed, as the
making of the function, is taken off: it is timed alone. Each figure is the least of three runs.
"""
import re
import resource
import subprocess
import sys
import time

LEVEL = 10
WALKS = 10_000


def run(pairs, sweeps, walks, swaps):
    """The least of three runs' seconds, and what the last one told."""
    words = [str(word) for word in (pairs, sweeps, LEVEL, walks, swaps)]
    seconds = []
    for _ in range(3):
        start = time.monotonic()
        told = subprocess.run([sys.argv[1], *words], check=True, capture_output=True, text=True).stdout
        seconds.append(time.monotonic() - start)
    return min(seconds), [int(number) for number in re.findall(r"\d+", told)]


print("nodes      | a sweep | walks | of nodes | walks behind a swap | of nodes | MB")
for pairs in (17, 18, 19):
    made, (in_use, *_) = run(pairs, 1, 0, 0)
    swept, _ = run(pairs, 11, 0, 0)
    walked, (_, met, *_) = run(pairs, 1, WALKS, 0)
    swapped, _ = run(pairs, 1, 0, 1)
    both, (*_, after) = run(pairs, 1, WALKS, 1)
    size = resource.getrusage(resource.RUSAGE_CHILDREN).ru_maxrss // 1024
    behind = (both - swapped) - (walked - made)
    print(f"{in_use:10,} | {(swept - made) / 10:7.3f} | {walked - made:5.2f} | {met:8,} | {behind:19.2f} | {after:8,} | {size:2}")
