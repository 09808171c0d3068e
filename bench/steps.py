"""Prints tables of the time that leaves and nodes which are new, those that are there, operations whose answers are remembered and a function of many
nodes take over a `PlainStore`, by the single steps of a seat at a table of words with one user, and by those of a seat at a table of words that
sessions share.

usage: steps.py PROGRAM

Each has 262,144 slots. What is not to be timed, as the making of the store, is taken off: it is timed alone. Each figure is of the
processor's time, the least of fifteen runs (of so many as the variable RUNS says, if it is set), of which those over the three are made by turns.
"""
import os
import resource
import subprocess
import sys

ROUNDS = 40
RUNS = int(os.environ.get("RUNS", 15))
# A `PlainStore`, a table with one user, and one that sessions share.
WAYS = (0, 1, 2)
COUNTS = (50_000, 100_000, 200_000)
# How many variables there are, and at how many of them the nodes stand.
OVER = ((4, 4), (1024, 1024), (1024, 3))
# How many pairs have their conjunctions asked for again, and how often.
PAIRS, HITS = 8, 1_000_000


def spent(usage):
    return usage.ru_utime + usage.ru_stime


def once(*words):
    """The processor's seconds of a run."""
    before = spent(resource.getrusage(resource.RUSAGE_CHILDREN))
    subprocess.run([sys.argv[1], *map(str, words)], check=True, stdout=subprocess.DEVNULL)
    return spent(resource.getrusage(resource.RUSAGE_CHILDREN)) - before


def least(all_words):
    """Of each of these words the least seconds."""
    return [min(seconds) for seconds in zip(*([once(*words) for words in all_words] for _ in range(RUNS)))]


def in_turn(step, seconds):
    """The seconds, so many at a time."""
    return [seconds[i:i + step] for i in range(0, len(seconds), step)]


def asked(vars, leaves, levels, nodes):
    """Nanoseconds of a new one and of one that is there, of each way."""
    words = [(way, vars, 0, leaves, levels, nodes, 0, rounds) for way in WAYS for rounds in (0, 1, 1 + ROUNDS)]
    count = leaves + nodes
    all_times = [((new - empty) / count * 1e9, (often - new) / count / ROUNDS * 1e9) for empty, new, often in in_turn(3, least(words))]
    return zip(*all_times)


def told(ways, form):
    """The figures of the three ways, and those by steps to that of the store."""
    store, plain, shared = ways
    return f"{store:{form}} | {plain:{form}} | {shared:{form}} | {plain / store:.2f} | {shared / store:.2f}"


HEAD = "store | one user | shared | one user to store | shared to store"
print(f"leaves | new, ns: {HEAD} | there, ns: {HEAD}")
for leaves in COUNTS:
    new, there = asked(0, leaves, 0, 0)
    print(f"{leaves:7,} | {told(new, '6.0f')} | {told(there, '6.1f')}", flush=True)
print(f"nodes | variables | at | new, ns: {HEAD} | there, ns: {HEAD}")
for nodes in COUNTS:
    for vars, levels in OVER:
        new, there = asked(vars, 0, levels, nodes)
        print(f"{nodes:7,} | {vars:5,} | {levels:5,} | {told(new, '6.0f')} | {told(there, '6.1f')}", flush=True)
print(f"operations remembered, ns: {HEAD}")
words = [(way, 2 * PAIRS, PAIRS, 0, 0, 0, hits, 1) for way in WAYS for hits in (0, HITS)]
print(told([(hit - empty) / HITS * 1e9 for empty, hit in in_turn(2, least(words))], "6.1f"), flush=True)
print(f"pairs' nodes | made, ms: {HEAD}")
for pairs in (12, 14, 16):
    words = [(way, 2 * pairs, made, 0, 0, 0, 0, 0) for way in WAYS for made in (0, pairs)]
    print(f"{2 ** (pairs + 1):12,} | {told([(made - empty) * 1000 for empty, made in in_turn(2, least(words))], '8.1f')}", flush=True)
