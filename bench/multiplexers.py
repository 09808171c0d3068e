"""Writes diagrams as networks of multiplexers, at n, 2n, 4n and 8n nodes, and reads these again: seconds of processor time of whole
runs, and their greatest size in MB.

usage: multiplexers.py PROGRAM

Each output ors products of two inputs that stand far apart in the order. `report` is `build`, `--blif` the same with the network behind it,
`read` a `build --limit 0` of that network, which is read and put together and finds no room, and `built` a whole `build` of it.
"""
import sys

from networks import timed


def far(pairs):
    """One output for each number of pairs: the or of so many products, in the order of all first inputs and then all second ones."""
    lines = []
    inputs = []
    for j, k in enumerate(pairs):
        first = [f"x{j}a{i}" for i in range(k)]
        second = [f"x{j}b{i}" for i in range(k)]
        inputs += first + second
        lines.append(".names " + " ".join(f"{a} {b}" for a, b in zip(first, second)) + f" f{j}")
        lines += ["-" * (2 * i) + "11" + "-" * (2 * (k - 1 - i)) + " 1" for i in range(k)]
    head = [".inputs " + " ".join(inputs), ".outputs " + " ".join(f"f{j}" for j in range(len(pairs)))]
    return "\n".join(head + lines + [".end"]) + "\n"


def nodes_of(told):
    return next(line.split()[1] for line in told.splitlines() if line.startswith("nodes "))


def main():
    program = sys.argv[1]
    print(f"{'nodes':>9}{'report':>9}{'MB':>6}{'--blif':>9}{'MB':>6}{'read':>9}{'MB':>6}{'built':>9}{'MB':>6}")
    for most in (15, 16, 17, 18):
        given = far(range(most, 12, -1))
        runs = [timed([program, "build", "--limit", "8000000"], given), timed([program, "build", "--blif", "--limit", "8000000"], given)]
        told = runs[1][3]
        text = told[told.index(".model dd\n"):]
        runs += [timed([program, "build", "--limit", "0"], text), timed([program, "build", "--limit", "8000000"], text)]
        cells = "".join(f"{seconds:>9.2f}{size:>6.0f}" for _, seconds, size, _ in runs)
        print(f"{nodes_of(told):>9}{cells}", flush=True)


main()
