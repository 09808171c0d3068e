"""Builds networks with ddsh, with BuDDy and, where it is there, with ABC, and prints a table of seconds, nodes, ratios and memory.

usage: networks.py PROGRAM DRIVER

  multiplier N   an array multiplier of N by N bits, of gates with two inputs
  gen K          the network that `ddsh gen` makes for K bits, with its summary

The seconds are processor time of whole runs, reading and writing with them, the least of three. BuDDy makes the same products and sums
in the same order, lets none go and counts no classes; what it takes for its operations alone is told beside (`work`). ABC reads the same text, collapses it to diagrams
in CUDD with the inputs in their order (`collapse -r`), and prints its statistics.
"""
import os
import shutil
import subprocess
import sys
import tempfile

RUNS = 3

ROWS = {"n": "0 1", "a": "11 1", "o": "1- 1\n-1 1", "x": "10 1\n01 1"}


class Network:
    """Gates in order, as a text and as a program of the driver."""

    def __init__(self, inputs):
        self.inputs = inputs
        self.gates = []
        self.outputs = []

    def make(self, op, *operands):
        self.gates.append((op, operands))
        return self.inputs + len(self.gates) - 1

    def text(self):
        lines = [".model m", ".inputs " + " ".join(f"r{i}" for i in range(self.inputs)), ".outputs " + " ".join(f"r{o}" for o in self.outputs)]
        for number, (op, operands) in enumerate(self.gates):
            names = " ".join(f"r{r}" for r in operands)
            lines.append(f".names {names}{' ' if names else ''}r{self.inputs + number}")
            if op in ROWS:
                lines.append(ROWS[op])
        return "\n".join(lines + [".end"]) + "\n"

    def program(self):
        """The products and the sums that `ddsh build` makes; a gate without rows is an input and its complement."""
        steps, spare = [], self.inputs + len(self.gates)
        for number, (op, operands) in enumerate(self.gates):
            made = self.inputs + number
            if op == "x":
                one, other = operands
                steps += [f"n {spare} {other}", f"a {spare + 1} {one} {spare}", f"n {spare + 2} {one}",
                          f"a {spare + 3} {spare + 2} {other}", f"o {made} {spare + 1} {spare + 3}"]
                spare += 4
            elif op == "z":
                steps += [f"n {spare} 0", f"a {made} 0 {spare}"]
                spare += 1
            else:
                steps.append(f"{op} {made} " + " ".join(map(str, operands)))
        return "\n".join([f"{self.inputs} {spare}", *(f"v {i} {i}" for i in range(self.inputs)), *steps]) + "\n"


def added(net, a, b, carry):
    half = net.make("x", a, b)
    return net.make("x", half, carry), net.make("o", net.make("a", a, b), net.make("a", half, carry))


def multiplier(n):
    net = Network(2 * n)
    zero = net.make("z")
    row = [zero] * (2 * n)
    for j in range(n):
        carry = zero
        for i in range(n):
            row[i + j], carry = added(net, row[i + j], net.make("a", i, n + j), carry)
        row[j + n] = carry
    net.outputs = row
    return net


def generated(k):
    """The sums, their complements and the carry; the inputs are a(k-1) b(k-1) .. a0 b0."""
    net = Network(2 * k)
    carry = net.make("z")
    for i in range(k):
        a, b = 2 * (k - 1 - i), 2 * (k - 1 - i) + 1
        total, carry = added(net, a, b, carry)
        net.outputs += [total, net.make("x", net.make("x", a, b), carry), net.make("n", total)]
    net.outputs.append(carry)
    return net


def timed(words, text):
    """The seconds of processor time, the greatest size in MB, and what was written."""
    with tempfile.TemporaryFile() as source, tempfile.TemporaryFile() as sink:
        source.write(text.encode())
        source.seek(0)
        child = subprocess.Popen(words, stdin=source, stdout=sink)
        _, status, used = os.wait4(child.pid, 0)
        sink.seek(0)
        return status, used.ru_utime + used.ru_stime, used.ru_maxrss / 1024, sink.read().decode(errors="replace")


def least(words, text):
    """The least seconds of some runs with what that run wrote, and the greatest size."""
    runs = [timed(words, text) for _ in range(RUNS)]
    status, seconds, _, told = min(runs, key=lambda run: run[1])
    return seconds, max(run[2] for run in runs), told if status == 0 else f"status {status}"


def ratio(ours, other):
    return f"{ours / other:.2f}" if other else "-"


def line(name, ours, buddy, abc):
    nodes = ours[2].strip().split("\n")[-1]
    work = buddy[2].split()[0]
    print(f"{name:<16}{nodes:>14}{ours[0]:>9.3f}{ours[1]:>6.0f}{buddy[0]:>9.3f}{work:>9}{buddy[1]:>6.0f}{ratio(ours[0], buddy[0]):>8}"
          f"{abc[0]:>9.3f}{abc[1]:>6.0f}{ratio(ours[0], abc[0]):>8}", flush=True)


def main():
    program, driver = sys.argv[1:]
    abc = shutil.which("berkeley-abc") or shutil.which("abc")
    print(f"{'network':<16}{'':>14}{'ddsh s':>9}{'MB':>6}{'BuDDy s':>9}{'work s':>9}{'MB':>6}{'ratio':>8}{'ABC s':>9}{'MB':>6}{'ratio':>8}")
    networks = [("multiplier 8", multiplier(8), ["build", "--limit", "8000000"]), ("multiplier 10", multiplier(10), ["build", "--limit", "8000000"]),
                ("gen 64", generated(64), ["gen", "64"]), ("gen 128", generated(128), ["gen", "128"]), ("gen 256", generated(256), ["gen", "256"])]
    for name, net, words in networks:
        text = net.text()
        ours = least([program, *words], text if words[0] == "build" else "")
        other = least([driver], net.program())
        others = (0.0, 0.0, "")
        if abc:
            with tempfile.NamedTemporaryFile("w", suffix=".blif") as file:
                file.write(text)
                file.flush()
                others = least([abc, "-q", f"read_blif {file.name}; strash; collapse -r; print_stats"], "")
        line(name, ours, other, others)


if __name__ == "__main__":
    main()
