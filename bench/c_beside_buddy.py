"""Runs two programs of bench/c_programs.c by turns, and prints a table.

usage: c_beside_buddy.py WITH_DD WITH_BUDDY

The seconds are those of processor time of the operations, and of the operations with what is asked of them behind (a count, a comparison),
the least of RUNS runs; `whole` is what the whole run took in the program, opening and closing with it. A ratio is that of the least seconds
of the operations, and beside it stand the least and the greatest ratio of the least of each third of the runs.
"""
import os
import subprocess
import sys
import tempfile

RUNS = 15
# Sizes of the tables, the library's and BuDDy's: nodes, and remembered results. First as in beside_buddy.sh; then BuDDy's as its own example
# of the program has them, and the library's near the least that serves.
PROGRAMS = [
    (["queens", "8"], [(["2000000", "65536"], ["2000000", "65536"]), (["65536", "8192"], ["16384", "10000"])]),
    (["adder", "256"], [(["2000000", "65536"], ["2000000", "65536"]), (["400000", "1000"], ["500", "1000"])]),
]


def run(words):
    """The seconds of the operations and of what was asked behind, what was found, the seconds of the whole run in the program, and its MB."""
    with tempfile.TemporaryFile() as sink:
        child = subprocess.Popen(words, stdout=sink)
        _, status, used = os.wait4(child.pid, 0)
        sink.seek(0)
        text = sink.read().split()
        if status or len(text) != 3:
            sys.exit(f"{words}: status {status}")
        return float(text[0]), float(text[1]), text[2], used.ru_utime, used.ru_maxrss / 1024


def main():
    with_dd, with_buddy = sys.argv[1:]
    print(f"{'program':<12}{'opened':<16}{'BuDDy opened':<16}{'dd s':>8}{'BuDDy s':>9}{'ratio':>7}{'of thirds':>13}{'with count':>12}{'BuDDy':>8}{'whole':>8}{'BuDDy':>8}{'MB':>6}{'BuDDy':>7}")
    for program, openings in PROGRAMS:
        for own, sizes in openings:
            ours, others = [], []
            for _ in range(RUNS):
                ours.append(run([with_dd, *program, *own]))
                others.append(run([with_buddy, *program, *sizes]))
            if len({found[2] for found in ours + others}) != 1:
                sys.exit(f"{program}: they find different things")
            least = lambda runs, of: min(of(each) for each in runs)
            operations, both, whole = lambda r: r[0], lambda r: r[0] + r[1], lambda r: r[3]
            third = RUNS // 3
            ratios = [least(ours[i:i + third], operations) / least(others[i:i + third], operations) for i in range(0, RUNS, third)]
            print(f"{' '.join(program):<12}{' '.join(own):<16}{' '.join(sizes):<16}{least(ours, operations):>8.4f}{least(others, operations):>9.4f}{least(ours, operations) / least(others, operations):>7.2f}"
                  f"{f'{min(ratios):.2f} to {max(ratios):.2f}':>13}{least(ours, both):>12.4f}{least(others, both):>8.4f}{least(ours, whole):>8.3f}{least(others, whole):>8.3f}"
                  f"{max(r[4] for r in ours):>6.0f}{max(r[4] for r in others):>7.0f}", flush=True)


main()
