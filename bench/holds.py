"""Prints tables of the seconds of processor time that a sweep, a hold, a swap and a sift of two levels take in a store in its holder's hands,
and by single steps at a table of words.

usage: holds.py PROGRAM

The store has the function x0 xK + x1 x(K+1) + .. of 2K variables: 2^(K+1) nodes, which something holds (few are dead) or nothing (all are),
in a store of twice as many slots. What is not to be timed, as the making of the function, is taken off: it is timed alone. Each figure is of
the least of four runs. A hold is what a holder does before its first sweep and behind its last: by single steps it loads the words of all slots.
"""
import resource
import subprocess
import sys


def run(*words):
    """The least of four runs' seconds of processor time."""
    seconds = []
    for _ in range(4):
        before = resource.getrusage(resource.RUSAGE_CHILDREN)
        subprocess.run([sys.argv[1], *map(str, words)], check=True, capture_output=True)
        after = resource.getrusage(resource.RUSAGE_CHILDREN)
        seconds.append(after.ru_utime - before.ru_utime + after.ru_stime - before.ru_stime)
    return min(seconds)


def slots(pairs):
    """As many slots as are taken while the function is made, and some."""
    return 2 ** (pairs + 2) + 64


def sweeps(steps, pairs):
    """The seconds of a sweep that finds nothing dead, of one that frees all nodes, and of a hold."""
    few = (run(steps, slots(pairs), pairs, 1, 1, 11, 10, 0, 0) - run(steps, slots(pairs), pairs, 1, 1, 1, 10, 0, 0)) / 10
    many = run(steps, slots(pairs), pairs, 0, 1, 1, 10, 0, 0) - run(steps, slots(pairs), pairs, 0, 1, 0, 10, 0, 0)
    hold = (run(steps, slots(pairs), pairs, 1, 11, 0, 10, 0, 0) - run(steps, slots(pairs), pairs, 1, 1, 0, 10, 0, 0)) / 10
    return few, many, hold


def swap(steps, level):
    """The seconds of a swap of a level and the next, on average of ten."""
    return (run(steps, slots(18), 18, 1, 1, 1, level, 10, 0) - run(steps, slots(18), 18, 1, 1, 1, level, 0, 0)) / 10


def sift(steps, level):
    """The seconds of a sift of a level and the next, which makes four swaps, on average of three."""
    return (run(steps, slots(18), 18, 1, 1, 1, level, 0, 3) - run(steps, slots(18), 18, 1, 1, 1, level, 0, 0)) / 3


print("slots      | few dead: HeldStore | by steps | all dead: HeldStore | by steps | a hold: HeldStore | by steps")
for pairs in (15, 16, 17, 18, 19):
    (few, many, hold), (few_steps, many_steps, hold_steps) = sweeps(0, pairs), sweeps(1, pairs)
    print(f"{slots(pairs):10,} | {few:19.4f} | {few_steps:8.4f} | {many:19.4f} | {many_steps:8.4f} | {hold:17.4f} | {hold_steps:8.4f}")
print("level      | a swap:   HeldStore | by steps")
for level in (14, 15, 16):
    print(f"{level:10} | {swap(0, level):19.4f} | {swap(1, level):8.4f}")
print("level      | a sift:   HeldStore | by steps")
for level in (14, 15, 16):
    print(f"{level:10} | {sift(0, level):19.3f} | {sift(1, level):8.3f}")
