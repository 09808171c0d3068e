"""Plays jobs of 64 sections with every kind of call, and judges each history.

usage: paced.py PACED_RUNS PROGRAM [RUNS [copies]]

With `copies` it is one job, whose sections copy a row, drop it and compare the copy. Else each job is made by a seed, which is printed where something is wrong. Some have so few slots that operations and swaps are refused. Three of four are
played by PACED_RUNS, at whose gate each thread goes on, yields or sleeps by the seed, and the others by PROGRAM without a gate; both on one, on two or
on all processors. Each run has 60 seconds.
"""
import os
import random
import re
import subprocess
import sys
from collections import Counter

from legal import Illegal, judge

SECTIONS, COMMANDS = 64, 24

# Each assignment as the kind that it makes, and its words: a kind for a register, V a variable, E an element, L and M a level. What may be
# chosen has one choice alone, so that the judge need not follow many: `restrict` is given a function twice, and `isop` a variable.
ASSIGNED = [
    ("b", "true"), ("b", "false"), ("b", "var V"), ("b", "not b"), ("b", "and b b"), ("b", "or b b"), ("b", "xor b b"), ("b", "ite b b b"),
    ("b", "cofactor b V 1"), ("b", "exists b V"), ("b", "forall b V"), ("b", "andexists b b V"), ("b", "compose b V b"),
    ("b", "vcompose b V b"), ("b", "restrict b"), ("b", "support b"), ("b", "atleast a 1"), ("b", "pattern a"), ("b", "coverof z"),
    ("a", "num 2"), ("a", "ofbdd b"), ("a", "plus a a"), ("a", "minus a a"), ("a", "times a a"), ("a", "min a a"), ("a", "max a a"),
    ("a", "threshold a a"), ("a", "addite b a a"), ("a", "sum a V"),
    ("z", "empty"), ("z", "base"), ("z", "single E"), ("z", "union z z"), ("z", "meet z z"), ("z", "diff z z"), ("z", "on z E"),
    ("z", "off z E"), ("z", "flip z E"), ("z", "product z z"), ("z", "quotient z z"), ("z", "isop"),
]  # fmt: skip
TOLD = ["same b b", "same a a", "same z z", "leq b b", "eval b", "eval a", "eval z", "sweep", "swap L", "eswap M", "sift", "esift"]
# How often each of the others is taken for one of TOLD.
ASSIGNS, TELLS = 3, 2


class Section:
    """A section that is made up: its registers by kind, and its commands."""

    def __init__(self, rng):
        self.rng, self.count, self.lines = rng, 0, []
        self.live = {"b": [], "a": [], "z": []}
        for kind, words in (("b", "var 0"), ("b", "var 3"), ("a", "num 1"), ("z", "single 1")):
            self.assign(kind, words)

    def assign(self, kind, words):
        name = f"r{self.count}"
        self.count += 1
        self.lines.append(f"{name} = {words}")
        self.live[kind].append(name)

    def filled(self, words):
        given = {"V": str(self.rng.randrange(4)), "E": str(self.rng.randrange(8)), "L": str(self.rng.randrange(3)), "M": str(self.rng.randrange(7))}
        filled = []
        for word in words.split():
            if word in self.live:
                filled.append(self.rng.choice(self.live[word]))
            else:
                filled.append(re.sub("^[VELM]", lambda m: given[m[0]], word))
        return " ".join(filled)

    def make(self, kind, words):
        if words == "isop":
            self.assign("b", self.filled("var V"))
            words = f"isop {self.live['b'][-1]} {self.live['b'][-1]}"
        elif words == "restrict b":
            register = self.rng.choice(self.live["b"])
            words = f"restrict {register} {register}"
        self.assign(kind, self.filled(words))

    def step(self):
        rng = self.rng
        kind = rng.choice("bbaz")
        match rng.randrange(ASSIGNS + TELLS + 4):
            case 0:
                self.lines.append(f"post {rng.randrange(8)} {rng.choice(self.live[kind])}")
            case 1:
                register = rng.choice(self.live[kind])
                self.assign(kind, f"fetch {rng.randrange(8)} {register}")
            case 2:
                self.assign(kind, f"copy {rng.choice(self.live[kind])}")
            case 3:
                if len(self.live[kind]) > 3:
                    gone = self.live[kind].pop(rng.randrange(len(self.live[kind])))
                    self.lines.append(f"drop {gone}")
            case choice if choice < 4 + TELLS:
                words = self.filled(rng.choice(TOLD))
                if words.startswith("eval"):
                    words += " " + "".join(rng.choice("01") for _ in range(8 if words.split()[1] in self.live["z"] else 4))
                self.lines.append(words)
            case _:
                self.make(*rng.choice(ASSIGNED))


def job_of(seed):
    rng = random.Random(seed)
    lines = ["vars 4", "elements 8"] + ([f"limit {rng.randrange(11, 24)}"] if seed % 5 == 0 else [])
    for _ in range(SECTIONS):
        section = Section(rng)
        while len(section.lines) < COMMANDS:
            section.step()
        lines += ["session", *section.lines]
    return "\n".join(lines) + "\n"


def copies():
    """The job of sections that only wait to make their first row."""
    return "\n".join(["vars 1"] + ["session", "a = var 0", "b = copy a", "drop a", "same b b"] * SECTIONS) + "\n"


def judge_copies(history):
    """A legal history of `copies` is as long as this, and each comparison says yes."""
    judge(copies(), history)
    lines = history.split("\n")
    calls, places = lines[:-2], [int(line.split()[0]) for line in lines[:-2]]
    if places != list(range(5 * SECTIONS)) or lines[-2:] != ["left 6", ""]:
        raise Illegal(f"{len(calls)} lines, {lines[-2]!r} at the end")
    if sum(call.endswith(" same b b -> yes") for call in calls) != SECTIONS:
        raise Illegal("a comparison does not say yes")


def played(paced, program, seed, job):
    """The history of one run."""
    words = [paced, str(seed)] if seed % 4 else [program, "play"]
    processors = (1, 2, os.cpu_count())[seed % 3]
    run = subprocess.run(["taskset", "-c", f"0-{processors - 1}", *words], input=job.encode(), capture_output=True, timeout=60)
    if run.returncode or run.stderr:
        raise Illegal(f"status {run.returncode}, {run.stdout[:200]!r} and {run.stderr!r} on standard error")
    return run.stdout.decode()


def main(paced, program, runs="1000", kind=""):
    faults, said = 0, Counter()
    for seed in range(int(runs)):
        job = copies() if kind == "copies" else job_of(seed)
        try:
            history = played(paced, program, seed, job)
            if kind == "copies":
                judge_copies(history)
            else:
                judge(job, history)
        except (Illegal, subprocess.TimeoutExpired) as fault:
            print(f"NO LEGAL HISTORY of seed {seed}: {fault}")
            faults += 1
            continue
        for line in history.split("\n")[:-2]:
            call, _, reply = line.partition(" -> ")
            words = call.split()[2:]
            said[words[2] if words[1:2] == ["="] else words[0]] += 1
            if reply.startswith(("full", "overflow", "apart")):
                said[reply.split()[0]] += 1
    print(", ".join(f"{word} {count}" for word, count in sorted(said.items())))
    print(f"{runs} runs of {SECTIONS} sections, {sum(said.values())} calls: {faults} faults")
    return faults > 0


if __name__ == "__main__":
    sys.exit(main(*sys.argv[1:]))
