#!/usr/bin/env python3
"""Builds networks with the program and judges the reports by plain tables of values.

usage: networks.py PROGRAM

Each network here is a text of the Berkeley Logic Interchange Format with a few inputs, and the words behind `build`. Its outputs
are evaluated at each assignment of the inputs; classes, values and the number of nodes are counted from these tables, where no
node occurs: the nodes are the distinct functions, up to complement, among the cofactors by the first inputs of the order. Some are
built by three workers, and some are sifted: the order is then reckoned by the rule of sifting over the tables. A comment of an
example that begins with `out`, `eval` or `nodes` is a line of its report. Others are of several models, with latches and with copies
in copies: they are put together here, from the models and not from their text. The networks of `gen` have known summaries.
"""
import random
import subprocess
import sys

from sifts import Store, parts

USUAL_LIMIT = 262144


class Model:
    """A model: its name, its inputs and outputs, and in the order of the lines its covers, its latches and the copies that it holds."""

    def __init__(self, name=None):
        self.name, self.inputs, self.outputs, self.items = name, [], [], []


def models_of(text):
    """The models of a text without faults, the main one first."""
    models, rows, is_begun = [Model()], None, False
    for line in text.replace("\\\n", "").split("\n"):
        words = line.split("#")[0].split()
        if not words:
            continue
        if words[0] == ".model":
            if is_begun:
                models.append(Model())
            models[-1].name = words[1]
        elif words[0] == ".inputs":
            models[-1].inputs += words[1:]
        elif words[0] == ".outputs":
            models[-1].outputs += words[1:]
        elif words[0] == ".names":
            rows = []
            models[-1].items.append(("cover", words[1:-1], words[-1], rows))
        elif words[0] == ".latch":
            models[-1].items.append(("latch", words[1], words[2]))
        elif words[0] == ".subckt":
            models[-1].items.append(("copy", words[1], dict(word.split("=", 1) for word in words[2:])))
        elif not words[0].startswith("."):
            rows.append((words[0] if len(words) == 2 else "", words[-1]))
        is_begun = True
    return models


def named_within(name, number, joined):
    """How the signals of the copy of this number are named in the whole, where the joined ones are signals of a model named like this."""
    return lambda own: name(joined[own]) if own in joined else f"{number}#{own}"


def whole(models):
    """The inputs, the outputs and the covers of the main model with its copies put in, and those inside of them."""
    inputs, outputs, covers, copies = list(models[0].inputs), list(models[0].outputs), {}, 0
    known = {model.name: model for model in models}

    def put(model, name):
        nonlocal copies
        for kind, *item in model.items:
            if kind == "cover":
                ins, own, rows = item
                covers[name(own)] = ([name(one) for one in ins], rows)
            elif kind == "latch":
                inputs.append(name(item[1]))
                outputs.append(name(item[0]))
            else:
                copies += 1
                put(known[item[0]], named_within(name, copies, item[1]))

    put(models[0], lambda own: own)
    return inputs, outputs, covers


def read(text):
    """The inputs, the outputs and the covers of a text without faults."""
    return whole(models_of(text))


def tables(inputs, covers):
    """The table of each signal: bit k is its value at assignment k, whose bit i is the value of input i."""
    size = 1 << len(inputs)
    known = {}
    for i, name in enumerate(inputs):
        known[name] = sum(1 << k for k in range(size) if k >> i & 1)
    every = (1 << size) - 1

    def table(name):
        if name not in known:
            ins, rows = covers[name]
            matched = 0
            for literals, _ in rows:
                row = every
                for literal, signal in zip(literals, ins):
                    if literal != "-":
                        row &= table(signal) if literal == "1" else every ^ table(signal)
                matched |= row
            known[name] = every ^ matched if rows and rows[0][1] == "0" else matched
        return known[name]

    return table, size, every


def values_of(table, size):
    return tuple(table >> k & 1 for k in range(size))


def nodes(functions, order):
    """The number of distinct cofactors by the first inputs of the order, up to complement."""
    return len(set().union(*(parts("b", values, order) for values in functions)))


class Outputs(Store):
    """The functions of a network's outputs, with the sizes of the orders that were met."""

    def __init__(self, n, functions):
        super().__init__(n, 0, [("b", values) for values in functions])
        self.known = {}

    def sizes(self, orders, which):
        key = tuple(orders[0])
        if key not in self.known:
            self.known[key] = super().sizes(orders, which)
        return self.known[key]


def order_of(n, functions, sifts):
    """The order of the inputs, or the one that a sift leaves."""
    order = list(range(n))
    if not sifts:
        return order
    return Outputs(n, functions).sift([order, []], 0, 5 + n + USUAL_LIMIT)[0]


def report_of(net, patterns, sifts=False):
    inputs, outputs, covers = net
    table, size, every = tables(inputs, covers)
    functions = [table(name) for name in outputs]
    lines = [f"inputs {len(inputs)}", f"outputs {len(outputs)}"]
    for i, name in enumerate(outputs):
        first = next(j for j in range(i + 1) if functions[j] in (functions[i], every ^ functions[i]))
        lines.append(f"out {i} {name} {first} {'+' if functions[first] == functions[i] else '-'}")
    for pattern in patterns:
        at = sum(1 << i for i, bit in enumerate(pattern[: len(inputs)]) if bit == "1")
        lines.append(f"eval {pattern} -> " + "".join(str(f >> at & 1) for f in functions))
    values = [values_of(f, size) for f in functions]
    order = order_of(len(inputs), values, sifts)
    lines.append(" ".join(["order"] + [str(i) for i in order]))
    lines.append(f"nodes {nodes(values, order)}")
    return "".join(line + "\n" for line in lines)


def report(text, patterns, sifts=False):
    return report_of(read(text), patterns, sifts)


def made(rng, most=6):
    """A network of a few gates over a few inputs, at most so many, in any order of its covers."""
    inputs = [f"i{k}" for k in range(rng.randint(1, most))]
    signals, covers = list(inputs), []
    for k in range(rng.randint(1, 9)):
        ins = [rng.choice(signals) for _ in range(rng.randint(0, 4))]
        out = rng.choice("01")
        rows = ["".join(rng.choice("01-") for _ in ins) for _ in range(rng.randint(0, 4))]
        covers.append(f".names {' '.join(ins + [f'g{k}'])}\n" + "".join(f"{row} {out}\n".lstrip() for row in rows))
        signals.append(f"g{k}")
    rng.shuffle(covers)
    outputs = [rng.choice(signals) for _ in range(rng.randint(1, 6))]
    return f".model m\n.inputs {' '.join(inputs)}\n.outputs {' '.join(outputs)}\n" + "".join(covers) + ".end\n"


def crossed(rng):
    """A network of a few sums of products of pairs of inputs, which stand far from each other: an order where they do not has fewer nodes."""
    inputs = [f"i{k}" for k in range(rng.randint(4, 6))]
    covers, outputs = [], [f"f{k}" for k in range(rng.randint(1, 2))]
    for output in outputs:
        rows = []
        for _ in range(rng.randint(2, 3)):
            row = ["-"] * len(inputs)
            for k in rng.sample(range(len(inputs)), 2):
                row[k] = rng.choice("01")
            rows.append("".join(row) + " 1\n")
        covers.append(f".names {' '.join(inputs)} {output}\n" + "".join(rows))
    return f".inputs {' '.join(inputs)}\n.outputs {' '.join(outputs)}\n" + "".join(covers) + ".end\n"


def cover_of(rng, signals, own):
    """A cover of a few signals."""
    ins = [rng.choice(signals) for _ in range(rng.randint(0, min(3, len(signals))))]
    out = rng.choice("01")
    return "cover", ins, own, [("".join(rng.choice("01-") for _ in ins), out) for _ in range(rng.randint(0, 3))]


def copy_of(rng, model, signals, own):
    """A copy of a model, and the signals that it defines: some outputs are left out, and so are those with a `=`, which no word can join.
    A formal name that is both is an input."""
    joined = {formal: rng.choice(signals) for formal in model.inputs}
    defined = []
    for formal in sorted(set(model.outputs) - set(model.inputs)):
        if "=" not in formal and rng.random() < 0.7:
            defined.append(f"{own}{len(defined)}")
            joined[formal] = defined[-1]
    return ("copy", model.name, dict(rng.sample(sorted(joined.items()), len(joined)))), defined


def model_with(rng, name, below):
    """A model that may hold these: its covers and copies use what stands before them, its latches anything, and then all are shuffled."""
    model = Model(name)
    model.inputs = ["a", "b", "c"][: rng.randint(1, 3)]
    latches = [f"q{k}" for k in range(rng.choice((0, 0, 1, 2)))]
    signals = model.inputs + latches
    for k in range(rng.randint(1, 4)):
        if below and rng.random() < 0.6:
            item, defined = copy_of(rng, rng.choice(below), signals, rng.choice((f"w{k}_", f"w{k}=")))
        else:
            item, defined = cover_of(rng, signals, f"g{k}"), [f"g{k}"]
        model.items.append(item)
        signals = signals + defined
    model.items += [("latch", rng.choice(signals), shown) for shown in latches]
    rng.shuffle(model.items)
    model.outputs = [rng.choice(signals) for _ in range(rng.randint(1, 3))]
    return model


def line_of(rng, item):
    """A line of a model, and the rows behind it."""
    kind, *words = item
    if kind == "cover":
        ins, own, rows = words
        return f".names {' '.join(ins + [own])}\n" + "".join(f"{row} {out}\n".lstrip() for row, out in rows)
    if kind == "latch":
        return f".latch {words[0]} {words[1]}{rng.choice(('', ' 0', ' 3', ' re a', ' al NIL 2'))}\n"
    return f".subckt {words[0]} {' '.join(f'{formal}={actual}' for formal, actual in words[1].items())}\n"


def text_of(rng, models):
    """The text of some models: of the main one the line `.model` may be missing, and of each the `.end`."""
    text = ""
    for k, model in enumerate(models):
        head = f".model {model.name}\n" if k > 0 or rng.random() < 0.8 else ""
        ports = f".inputs {' '.join(model.inputs)}\n.outputs {' '.join(model.outputs)}\n"
        text += head + ports + "".join(line_of(rng, item) for item in model.items) + rng.choice((".end\n", ".end\n\n", ""))
    return text


def reached_from(model, known):
    """The names of the models of which a model holds copies, and of those that these hold."""
    found = set()
    for kind, *item in model.items:
        if kind == "copy":
            found |= {item[0]} | reached_from(known[item[0]], known)
    return found


def hierarchical(rng):
    """A text of 2 to 5 models with latches and copies, the whole that is due, whether a model is not reached, and whether copies stand in
    copies. A model that is not reached may hold a copy of itself, or of no model."""
    while True:
        below = []
        for k in range(rng.randint(2, 5)):
            below.append(model_with(rng, f"m{k}", below))
        main, further = below[-1], below[:-1]
        net = whole([main] + further)
        if len(net[0]) <= 8 and len(net[2]) <= 60:
            break
    reached = reached_from(main, {model.name: model for model in further})
    nested = any(kind == "copy" for model in further if model.name in reached for kind, *_ in model.items)
    unreached = [model for model in further if model.name not in reached]
    for model in unreached:
        if rng.random() < 0.5:
            model.items.append(("copy", rng.choice((model.name, "none")), {"a": "a", "x": "x"}))
    rng.shuffle(further)
    return text_of(rng, [main] + further), net, bool(unreached), nested


def generated(program):
    """How many of the networks that are made, by one worker or by several, have another summary than is due."""
    faults = 0
    runs = [(k, 1) for k in range(1, 257)] + [(64, workers) for workers in (1, 2, 8) for _ in range(20)]
    for k, workers in runs:
        words = [program, "gen", "--workers", str(workers), str(k)]
        ran = subprocess.run(words, stdin=subprocess.DEVNULL, capture_output=True, timeout=60)
        due = f"inputs {2 * k}\noutputs {3 * k + 1}\nclasses {k + 1}\nnodes {5 * k - 1}\n"
        if ran.returncode != 0 or ran.stderr or ran.stdout.decode() != due:
            faults += 1
            print(f"NOT AS DUE {' '.join(words[1:])}: status {ran.returncode}\n{ran.stdout.decode()}")
    return faults


def said(text):
    """The lines of the report that comments tell."""
    lines = [line[2:] for line in text.split("\n") if line.startswith("# ")]
    return [line for line in lines if line.split()[:1] and line.split()[0] in ("out", "eval", "nodes")]


def in_one_text(first, second):
    words = [sys.executable, "examples/one_text.py", f"examples/{first}.blif", f"examples/{second}.blif"]
    return subprocess.run(words, capture_output=True, check=True, text=True).stdout


def pairs():
    """Two networks in one text, each with the lines that say which outputs are equal: their numbers, and the signs."""
    yield "chain", "far_chain", ["out 1 2.f 0 +"]
    yield "differs", "differs", ["out 2 2.carry 0 +", "out 3 2.broken 1 +"]
    yield "adders", "adders", ["out 7 2.s0 0 +", "out 12 2.t2 2 +", "out 13 2.even 0 -"]


def main():
    program = sys.argv[1]
    jobs = []
    for name, patterns in [
        ("adders", ["0000", "1111", "0110", "1011"]),
        ("chain", ["110000", "101010"]),
        ("far_chain", ["100100", "111000"]),
        ("faults", ["110000", "100000", "000011"]),
        ("arbiter", ["1010000000", "1010010000"]),
        ("differs", ["0110", "1111", "1010"]),
        ("differs_fixed", ["00", "10", "01", "11"]),
        ("counter", ["10110", "10111", "01111"]),
    ]:
        with open(f"examples/{name}.blif") as file:
            text = file.read()
        jobs.append((name, text, read(text), [], patterns, said(text)))
    for first, second, lines in pairs():
        text = in_one_text(first, second)
        jobs.append((f"{first} and {second}", text, read(text), [], [], lines))
    rng = random.Random(2026)
    for kind, options in [("", []), ("by three workers ", ["--workers", "3"]), ("sifted ", ["--sift"])]:
        for k in range(300):
            patterns = ["".join(rng.choice("01") for _ in range(rng.randint(1, 8))) for _ in range(rng.randint(0, 3))]
            text = crossed(rng) if "--sift" in options and k % 2 else made(rng)
            jobs.append((f"network {kind}{k}", text, read(text), options, patterns, []))
    nestings, leavings = 0, 0
    for k in range(300):
        patterns = ["".join(rng.choice("01") for _ in range(rng.randint(1, 10))) for _ in range(rng.randint(1, 3))]
        text, net, leaves, nests = hierarchical(rng)
        jobs.append((f"network of models {k}", text, net, [], patterns, []))
        nestings, leavings = nestings + nests, leavings + leaves
    faults, moved = generated(program), 0
    for name, text, net, options, patterns, lines in jobs:
        ran = subprocess.run([program, "build", *options, *patterns], input=text.encode(), capture_output=True, timeout=60)
        due = report_of(net, patterns, "--sift" in options)
        moved += due.split("\n")[-3] != " ".join(["order"] + [str(i) for i in range(len(net[0]))])
        missing = [line for line in lines if line not in due.split("\n")]
        if missing:
            faults += 1
            print(f"NOT IN THE REPORT of {name}: {missing}")
        if ran.returncode != 0 or ran.stderr or ran.stdout.decode() != due:
            faults += 1
            print(f"NOT AS DUE {name}: status {ran.returncode}\n{text}\ncame\n{ran.stdout.decode()}\ndue\n{due}")
    print(f"{len(jobs)} networks judged, {moved} of them in another order, {nestings} with nested copies, and 256 made, {faults} faults")
    return faults > 0 or 0 in (moved, nestings, leavings)


if __name__ == "__main__":
    sys.exit(main())
