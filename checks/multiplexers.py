#!/usr/bin/env python3
"""Has the program write the outputs of networks as networks of multiplexers, and judges these by plain tables of values.

usage: multiplexers.py PROGRAM

Each network is one that checks/networks.py makes, an example or one of constants. Some have names that ask for a longer prefix or are
not written as they stand, and some are sifted. The text behind the report has to be the one that is made here from the outputs' tables,
where a line is a function up to complement, whether or not a stored diagram stands before it. By the reader of checks/networks.py each
output of that text has its table. Built again, its report is that of the network, with the names as they are written. At last a network
is written that has just as many signals as a text may have.
"""
import random
import subprocess
import sys

from diagrams import Broken, functions_of
from networks import crossed, hierarchical, made, read, report_of, tables, values_of
from sifts import part

MOST_SIGNALS = 1_048_576
NAMES = ("n", "n_", "n__", "nx", "n1", "n_2", "ni0", "no0", "_n", "\\", "n\\", "back\\", "mid\\dle", ".end", "11", "x=y", "é", "N1")


def renamed(rng, text):
    """A text with some of its names changed. A blank keeps a line that ends with a backslash from being joined with the next one."""
    further, names, lines = rng.sample(NAMES, len(NAMES)), {}, []
    for line in text.split("\n"):
        word, *own = line.split(" ")
        if word in (".inputs", ".outputs", ".names"):
            for name in own:
                names.setdefault(name, further.pop() if rng.random() < 0.4 else name)
            line = " ".join([word, *(names[name] for name in own)])
        lines.append(line + " " if line.endswith("\\") else line)
    return "\n".join(lines)


def written(inputs, outputs):
    """What the names of node lines begin with, and how each name of an input or an output is written."""
    front, called = "n", {}
    while any(name.startswith(front) for name in inputs + outputs):
        front += "_"
    for letter, names in (("i", inputs), ("o", outputs)):
        for place, name in enumerate(names):
            called.setdefault(name, f"{front}{letter}{place}" if "#" in name or name.endswith("\\") else name)
    return front, called


class Lines:
    """The node lines of some functions under an order: the variable, the then child and the else child of each, which is below 0 where
    it is complemented."""

    def __init__(self, order):
        self.order, self.lines, self.known = order, [], {}

    def index(self, values):
        """The line of a function, below 0 where the line is its complement. No line is complemented where all variables are 1."""
        if not values[-1]:
            return -self.index(tuple(1 - value for value in values))
        if all(values):
            return 1
        if values not in self.known:
            variable = next(v for v in self.order if part("b", values, v, 0) != part("b", values, v, 1))
            high = self.index(part("b", values, variable, 1))
            low = self.index(part("b", values, variable, 0))
            self.lines.append((variable, high, low))
            self.known[values] = len(self.lines) + 1
        return self.known[values]


def due_of(inputs, outputs, functions, order):
    """The text of the multiplexers that is due."""
    front, called = written(inputs, outputs)
    diagram = Lines(order)
    roots = [diagram.index(function) for function in functions]
    lines = [".model dd", " ".join([".inputs", *map(called.get, inputs)]), " ".join([".outputs", *map(called.get, outputs)])]
    lines += [f".names {front}1", "1"]
    for index, (variable, high, low) in enumerate(diagram.lines, 2):
        lines += [f".names {called[inputs[variable]]} {front}{high} {front}{abs(low)} {front}{index}", "11- 1", f"0-{int(low > 0)} 1"]
    for place, (name, root) in enumerate(zip(outputs, roots)):
        if name not in inputs and name not in outputs[:place]:
            lines += [f".names {front}{abs(root)} {called[name]}", f"{int(root > 0)} 1"]
    return "".join(line + "\n" for line in [*lines, ".end"])


def with_names(report, outputs):
    """A report with other names of its outputs."""
    lines = [line.split(" ") for line in report.split("\n")]
    return "\n".join(" ".join([*words[:2], outputs[int(words[1])], *words[3:]] if words[0] == "out" else words) for words in lines)


def means(text, inputs, outputs, functions):
    """Whether a text without faults is a network with these inputs and outputs, which are these functions."""
    if "#" in text or "\\\n" in text:
        return False
    ins, outs, covers = read(text)
    table, size, _ = tables(ins, covers)
    return (ins, outs) == (inputs, outputs) and [values_of(table(name), size) for name in outs] == functions


def stores(text, nodes, functions):
    """Whether a stored diagram has so many nodes and these functions."""
    variables, count, found = functions_of(text)
    return count == nodes and [values_of(it, 1 << variables) for it in found] == functions


def told(program, words, text):
    """What a run of `build` writes, behind the status if that is another than 0."""
    ran = subprocess.run([program, "build", *words], input=text.encode(), capture_output=True, timeout=300)
    status = f"status {ran.returncode}\n" if ran.returncode else ""
    return status + ran.stderr.decode() + ran.stdout.decode()


def judged(program, text, net, options, patterns):
    """What is not as due of a network that is written and built again, or nothing."""
    inputs, outputs, covers = net
    table, size, _ = tables(inputs, covers)
    functions = [values_of(table(name), size) for name in outputs]
    report = report_of(net, patterns, "--sift" in options)
    *_, order, nodes, _ = report.split("\n")
    due = due_of(inputs, outputs, functions, [int(it) for it in order.split()[1:]])
    called = written(inputs, outputs)[1]
    if not means(due, [called[it] for it in inputs], [called[it] for it in outputs], functions):
        return f"the text that is due is another network\n{due}"
    came = told(program, ["--blif", *options, *patterns], text)
    if came != report + due:
        return f"came\n{came}\ndue\n{report}{due}"
    came = told(program, ["--store", *options, *patterns, "--blif"], text)
    stored = came.removeprefix(report).removesuffix(due)
    if came != report + stored + due or not stores(stored, int(nodes.split()[1]), functions):
        return f"with a stored diagram came\n{came}\ndue were\n{report}\nand\n{due}"
    came, again = told(program, patterns, due), with_names(report_of(net, patterns), [called[it] for it in outputs])
    return "" if came == again else f"built again came\n{came}\ndue\n{again}"


def wide(count):
    """A network of one input and so many outputs, all of one name."""
    return ".inputs a\n.outputs" + " f" * count + "\n.names f\n1\n"


def most(program):
    """Whether the network with just as many signals as may be is written as is due."""
    count = MOST_SIGNALS - 2
    outs = "".join(f"out {place} f 0 +\n" for place in range(count))
    network = ".model dd\n.inputs a\n.outputs" + " f" * count + "\n.names n1\n1\n.names n1 f\n1 1\n.end\n"
    return told(program, ["--blif"], wide(count)) == f"inputs 1\noutputs {count}\n{outs}order 0\nnodes 1\n{network}"


def networks():
    """The networks, each with its name, its text, the whole and the options."""
    for name in ("adders", "chain", "far_chain", "faults", "counter", "differs", "differs_fixed"):
        with open(f"examples/{name}.blif") as file:
            text = file.read()
        yield name, text, read(text), []
    constants = ".outputs k nz k\n.names k\n1\n.names nz\n"
    yield "constants", constants, ([], ["k", "nz", "k"], {"k": ([], [("", "1")]), "nz": ([], [])}), []
    rng = random.Random(2026)
    for k in range(200):
        if k % 4 == 0:
            text, net, _, _ = hierarchical(rng)
        else:
            text = renamed(rng, crossed(rng) if k % 4 == 1 else made(rng))
            net = read(text)
        yield f"network {k}", text, net, ["--sift"] if k % 4 == 1 else []


def main():
    program, rng = sys.argv[1], random.Random(2026)
    count, faults, marked, by_place, moved = 0, 0, 0, 0, 0
    for name, text, net, options in networks():
        size = 1 << len(net[0])
        patterns = [f"{k:0{max(1, len(net[0]))}b}" for k in (range(size) if size <= 64 else rng.sample(range(size), 64))]
        try:
            fault = judged(program, text, net, options, patterns)
        except (Broken, ValueError, KeyError, IndexError) as broken:
            fault = f"no stored diagram: {broken!r}"
        front, called = written(net[0], net[1])
        count, marked, by_place = count + 1, marked + (front != "n"), by_place + any(it != called[it] for it in called)
        moved += report_of(net, [], bool(options)) != report_of(net, [])
        if fault:
            faults += 1
            print(f"NOT AS DUE {name}: {fault}\n{text}")
    if not most(program):
        faults += 1
        print(f"NOT AS DUE {MOST_SIGNALS} signals")
    kinds = f"{marked} with a longer prefix, {by_place} with names by place, {moved} in another order"
    print(f"{count} networks written as multiplexers and built again, {kinds}, and one of {MOST_SIGNALS} signals, {faults} faults")
    return faults > 0 or 0 in (marked, by_place, moved)


if __name__ == "__main__":
    sys.exit(main())
