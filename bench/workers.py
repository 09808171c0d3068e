"""Builds networks by several workers, and behind a sift, and prints two tables.

usage: workers.py PROGRAM

The first has the seconds of one run by the clock and of all processors together, the least of three, and the greatest size in MB. The
workers' sessions take turns by one store, so no run by several is to be faster. The second has the nodes of networks in the order of their
inputs and in the order that a sift leaves, with the seconds of both runs; and the same of ABC's `collapse`, with its reordering and
without, where ABC is there.
"""
import random
import shutil
import subprocess
import sys
import tempfile
import time

from networks import RUNS, generated, multiplier, timed


def by_workers(program, name, text, words):
    for workers in (1, 2, 4, 8, 16):
        least = None
        for _ in range(RUNS):
            begun = time.monotonic()
            status, used, size, told = timed([program, *words[:1], "--workers", str(workers), *words[1:]], text)
            wall = time.monotonic() - begun
            if status:
                told = f"status {status}"
            if least is None or wall < least[0]:
                least = wall, used, size, told
        print(f"{name:<24}{workers:>8}{least[0]:>9.2f}{least[1]:>9.2f}{least[2]:>7.0f}  {least[3].strip().splitlines()[-1]}", flush=True)


def shuffled(net, rng):
    """The network with its inputs in another order, so that there is something to gain."""
    lines = net.text().split("\n")
    names = lines[1].split()[1:]
    rng.shuffle(names)
    lines[1] = ".inputs " + " ".join(names)
    return "\n".join(lines)


def last_number(text):
    return int(text.strip().splitlines()[-1].split()[-1])


def sifted(program, abc, name, text):
    cells = []
    for words in (["build"], ["build", "--sift"]):
        status, used, _, told = timed([program, *words, "--limit", "8000000"], text)
        cells.append(f"{last_number(told) if status == 0 else '-':>9}{used:>9.2f}")
    for flag in ("-r", "") if abc else ():
        with tempfile.NamedTemporaryFile("w", suffix=".blif") as file:
            file.write(text)
            file.flush()
            _, used, _, told = timed([abc, "-q", f"read_blif {file.name}; strash; collapse {flag}; print_stats"], "")
        found = [part for part in told.replace("=", " ").split() if part.isdigit()]
        cells.append(f"{found[-2] if len(found) > 1 else '-':>9}{used:>9.2f}")
    print(f"{name:<24}" + "".join(cells), flush=True)


def main():
    program = sys.argv[1]
    abc = shutil.which("berkeley-abc") or shutil.which("abc")
    print(f"{'network':<24}{'workers':>8}{'wall s':>9}{'all s':>9}{'MB':>7}")
    by_workers(program, "multiplier 10", multiplier(10).text(), ["build", "--limit", "8000000"])
    by_workers(program, "multiplier 10, usual", multiplier(10).text(), ["build"])
    by_workers(program, "gen 256", "", ["gen", "256"])
    by_workers(program, "1,048,576 signals", many_signals(), ["build"])
    print(f"\n{'network':<24}{'nodes':>9}{'s':>9}{'sifted':>9}{'s':>9}" + (f"{'ABC':>9}{'s':>9}{'ABC sift':>9}{'s':>9}" if abc else ""))
    sifted(program, abc, "multiplier 8", multiplier(8).text())
    rng = random.Random(7)
    for bits in range(4, 24):
        sifted(program, abc, f"gen {bits} shuffled", shuffled(generated(bits), rng))


def many_signals():
    """As many signals as a text may have: a chain of gates, of which the last thousand are outputs."""
    inputs, signals = 16, 1 << 20
    lines = [".inputs " + " ".join(f"i{k}" for k in range(inputs)), ".outputs " + " ".join(f"g{k}" for k in range(signals - 1000, signals))]
    for k in range(inputs, signals):
        left = f"i{k % inputs}" if k % 3 else f"g{k - 1}" if k > inputs else "i0"
        right = f"g{k - 1}" if k > inputs else "i1"
        lines.append(f".names {left} {right} g{k}\n1- 1")
    return "\n".join(lines) + "\n.end\n"


if __name__ == "__main__":
    main()
