#!/usr/bin/env python3
"""Stores the outputs of networks with the program, loads them again, and judges both by plain tables of values.

usage: diagrams.py PROGRAM

Each network is one that checks/networks.py makes or an example. The text behind its report is read here, by a reader of its own: each
root has the table of its output, there are as many lines as nodes were counted, and each line's children stand before it. Loaded
again, the report is that of the network, but for the outputs' names. A diagram of 300,000 nodes has no room.
"""
import random
import subprocess
import sys

from networks import made, read, report, tables


class Broken(Exception):
    """What is wrong with a stored text."""


def functions_of(text):
    """The number of variables, the number of lines, and the table of each root: bit k is its value at assignment k."""
    lines = text.split("\n")
    at = lines.index(".nodes")
    fields = {line.split()[0]: line.split()[1:] for line in lines[:at]}
    if lines[-2:] != [".end", ""] or [line.split()[0] for line in lines[:at]] != [
        *(".ver", ".mode", ".varinfo", ".nnodes", ".nvars", ".nsuppvars", ".ids", ".permids", ".nroots", ".rootids")
    ]:
        raise Broken("the lines are others, or in another order")
    nvars, ids, positions = int(fields[".nvars"][0]), [int(it) for it in fields[".ids"]], [int(it) for it in fields[".permids"]]
    by_rank = [ids[place] for place in sorted(range(len(ids)), key=lambda place: (positions[place], place))]
    every = (1 << (1 << nvars)) - 1
    known = {1: every}
    signed = lambda index: known[index] if index > 0 else every ^ known[-index]
    for number, line in enumerate(lines[at + 1 : -2], 1):
        index, name, internal, high, low = line.split()
        if int(index) != number or (number == 1) != (name == "T") or (number > 1 and int(name) != by_rank[int(internal)]):
            raise Broken(f"a line of another form: {line}")
        if number > 1:
            of_variable = sum(1 << k for k in range(1 << nvars) if k >> int(name) & 1)
            known[number] = of_variable & known[int(high)] | (every ^ of_variable) & signed(int(low))
    if len(known) != int(fields[".nnodes"][0]) or len(fields[".rootids"]) != int(fields[".nroots"][0]):
        raise Broken("there are more or fewer lines or roots than are said")
    return nvars, len(known), [signed(int(it)) for it in fields[".rootids"]]


def judged(program, text, patterns):
    """What is not as due of a network that is stored and loaded again, or nothing."""
    inputs, outputs, covers = read(text)
    table, _, _ = tables(inputs, covers)
    due = report(text, patterns)
    ran = subprocess.run([program, "build", "--store", *patterns], input=text.encode(), capture_output=True, timeout=60)
    told = ran.stdout.decode()
    if ran.returncode or ran.stderr or not told.startswith(due):
        return f"status {ran.returncode}\ncame\n{told}\ndue\n{due}"
    stored = told[len(due) :]
    nvars, nodes, functions = functions_of(stored)
    if nvars != len(inputs) or functions != [table(name) for name in outputs] or not due.endswith(f"nodes {nodes}\n"):
        return f"the stored diagram is another one\n{stored}"
    ran = subprocess.run([program, "load", *patterns], input=stored.encode(), capture_output=True, timeout=60)
    lines = [line.split(" ") for line in due.split("\n")]
    again = "\n".join(" ".join([*words[:2], f"r{words[1]}", *words[3:]] if words[0] == "out" else words) for words in lines)
    if ran.returncode or ran.stderr or ran.stdout.decode() != again:
        return f"loaded again: status {ran.returncode}\ncame\n{ran.stdout.decode()}\ndue\n{again}"
    return ""


def large(rng):
    """The text of a diagram of 300,000 nodes, no two of them equal up to complement."""
    levels, nodes = 14, []
    below = [1]
    for level in reversed(range(levels)):
        wanted, seen, new = min(60_000, 300_000 - len(nodes)), set(), []
        every = len(below) < 300
        pairs = ((high, sign * low) for high in below for low in below for sign in (1, -1)) if every else iter(lambda: (rng.choice(below), rng.choice((1, -1)) * rng.choice(below)), None)
        for high, low in pairs:
            if len(new) == wanted:
                break
            if high != low and (high, low) not in seen:
                seen.add((high, low))
                nodes.append((level, high, low))
                new.append(len(nodes) + 1)
        below = below + new if every else new
    head = f".ver DDDMP-2.0\n.mode A\n.varinfo 0\n.nnodes {len(nodes) + 1}\n.nvars {levels}\n.nsuppvars {levels}\n"
    ids = " ".join(str(it) for it in range(levels))
    head += f".ids {ids}\n.permids {ids}\n.nroots 1\n.rootids {len(nodes) + 1}\n.nodes\n1 T 1 0 0\n"
    return head + "".join(f"{i} {v} {v} {h} {l}\n" for i, (v, h, l) in enumerate(nodes, 2)) + ".end\n", levels, len(nodes)


def main():
    program = sys.argv[1]
    rng = random.Random(2026)
    jobs = []
    for name in ("adders", "chain", "far_chain", "faults", "arbiter", "counter", "differs", "differs_fixed"):
        with open(f"examples/{name}.blif") as file:
            jobs.append((name, file.read(), ["01", "1"]))
    for k in range(100):
        patterns = ["".join(rng.choice("01") for _ in range(rng.randint(1, 8))) for _ in range(rng.randint(0, 3))]
        jobs.append((f"network {k}", made(rng, 8), patterns))
    faults = 0
    for name, text, patterns in jobs:
        try:
            fault = judged(program, text, patterns)
        except (Broken, ValueError, KeyError, IndexError) as broken:
            fault = f"no stored diagram: {broken!r}"
        if fault:
            faults += 1
            print(f"NOT AS DUE {name}: {fault}\n{text}")
    text, variables, nodes = large(rng)
    ran = subprocess.run([program, "load"], input=text.encode(), capture_output=True, timeout=60)
    slots = 5 + variables + 262_144
    if nodes < 300_000 or ran.returncode != 4 or ran.stderr or ran.stdout.decode() != f"fault: full {slots} of {slots}\n":
        faults += 1
        print(f"NOT AS DUE {nodes} nodes: status {ran.returncode}\n{ran.stdout.decode()[:200]}")
    print(f"{len(jobs)} networks stored and loaded again, and a diagram of {nodes} nodes, {faults} faults")
    return 1 if faults else 0


if __name__ == "__main__":
    sys.exit(main())
