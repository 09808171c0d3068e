"""Plays jobs of several sessions, which may end in more than one way, and judges each history that comes of it.

usage: sessions.py PROGRAM EXAMPLE..

Each example is played some times, and so are a job of 64 sections with 200 calls each and one whose sections copy a row, drop it and compare the copy. A comment behind `eval`, `same` or `leq` begins
with the reply that is due, and one behind an assignment may begin with `overflow` or `full`. Then come jobs of four sections of which two
exchange levels of both orders and sift them all the time, some of them with so few slots that a swap may be refused, jobs in whose full table a dropped
number makes room for the last one that is made, and two long jobs of one section: one that makes more dead nodes than there are slots, and
one that makes and drops many registers.
"""
import random
import subprocess
import sys

from legal import Illegal, judge
from paced import copies, judge_copies

RUNS = 100
SWAP_JOBS = 100
EXAMPLE_RUNS = 10


def played(program, job):
    run = subprocess.run([program, "play"], input=job.encode(), capture_output=True)
    if run.returncode or run.stderr:
        raise Illegal(f"status {run.returncode}, {run.stderr!r} on standard error")
    return run.stdout.decode()


def said(job):
    """The calls with a comment behind them, each with the reply that it says."""
    for line in job.split("\n"):
        call, _, comment = line.partition("#")
        words, reply = call.split(), (comment.split() or [""])[0].rstrip(":")
        if words and reply and (words[0] in ("eval", "same", "leq") or reply in ("overflow", "full")):
            yield " ".join(words), reply


def judge_with_comments(job, history):
    judge(job, history)
    for call, reply in said(job):
        if f" {call} -> {reply}\n" not in history:
            raise Illegal(f"a comment says {reply} of {call}")


class Section:
    """A section that is made up: its registers by kind, and its commands."""

    def __init__(self, rng):
        self.rng, self.lines, self.count = rng, [], 0
        self.live = {"b": [], "a": [], "z": []}
        for kind, words in (("b", "var 0"), ("b", "var 3"), ("a", "num 1"), ("z", "single 1")):
            self.assign(kind, words)

    def assign(self, kind, words):
        name = f"r{self.count}"
        self.count += 1
        self.lines.append(f"{name} = {words}")
        self.live[kind].append(name)

    def one(self, kind):
        return self.rng.choice(self.live[kind])

    def step(self):
        rng = self.rng
        kind = rng.choice("bbbaz")
        f, g = self.one(kind), self.one(kind)
        match rng.randrange(10):
            case 0:
                self.lines.append(f"post {rng.randrange(8)} {f}")
            case 1:
                self.assign(kind, f"fetch {rng.randrange(8)} {f}")
            case 2:
                self.assign(kind, f"copy {f}")
            case 3:
                self.lines.append(f"same {f} {g}")
            case 4:
                self.lines.append(f"eval {f} " + "".join(rng.choice("01") for _ in range(4)))
            case 5 if len(self.live[kind]) > 3:
                self.live[kind].remove(f)
                self.lines.append(f"drop {f}")
            case 6 if rng.randrange(20) == 0:
                self.lines.append("sweep")
            case _:
                words = {
                    "b": ["and", "or", "xor"],
                    "a": ["min", "max", "threshold"],
                    "z": ["union", "meet", "diff", "product"],
                }[kind]
                self.assign(kind, f"{rng.choice(words)} {f} {g}")


def swapped_sections(seed):
    """Two sections that only exchange levels and sift, and two that make, copy, drop and evaluate meanwhile."""
    rng = random.Random(seed)
    lines = ["vars 4", "elements 4"] + ([f"limit {rng.randrange(60, 120)}"] if seed % 4 == 0 else [])
    for _ in range(2):
        swaps = [rng.choice(["sift", "esift"]) if rng.randrange(10) == 0 else f"{rng.choice(['swap', 'eswap'])} {rng.randrange(3)}" for _ in range(200)]
        lines += ["session", *swaps]
    for _ in range(2):
        section = Section(rng)
        while len(section.lines) < 200:
            section.step()
        lines += ["session", *section.lines]
    return "\n".join(lines) + "\n"


def many_sections(seed):
    rng = random.Random(seed)
    lines = ["vars 4", "elements 4"]
    for _ in range(64):
        section = Section(rng)
        while len(section.lines) < 200:
            section.step()
        lines += ["session", *section.lines]
    return "\n".join(lines) + "\n"


def toggles(count, most):
    """Which variable to take into or out of a parity, so that no parity comes twice."""
    for step in range(1, count + 1):
        yield most - 1 - (step & -step).bit_length() + 1


def dead_nodes(count, most):
    """A job of parities, each made of the one before it, which is dropped: about most / 2 nodes die at each step."""
    lines = [f"vars {most}", "limit 1000", "session"]
    lines += [f"v{v} = var {v}" for v in range(most)] + ["p0 = false"]
    holds = [0] * most
    for step, v in enumerate(toggles(count, most), 1):
        lines += [f"p{step} = xor p{step - 1} v{v}", f"drop p{step - 1}"]
        holds[v] ^= 1
    ends = []
    for v in range(most):
        lines.append(f"eval p{count} " + "".join("01"[w == v] for w in range(most)))
        ends.append(str(holds[v]))
    return "\n".join(lines) + "\n", ends


# The limit, and the commands: all slots are in use before the last number is made, and one of them is dead. 5 slots and one for the
# variable are permanent, and so are the numbers 0 and 1.
ROOMS = {
    "plus": (7, ["k = num 5", "drop k", "a = num 1", "s = plus a a", "eval s 0 # 2"]),
    "minus": (7, ["k = num 5", "drop k", "a = num 0", "b = num 1", "s = minus a b", "eval s 0 # -1"]),
    "times": (8, ["a = num 2", "k = num 5", "drop k", "s = times a a", "eval s 0 # 4"]),
    "sum": (7, ["k = num 5", "drop k", "a = num 1", "s = sum a 0", "eval s 1 # 2"]),
}


def makes_room(program, word):
    """What is wrong with the play in which a dead number makes room for one by this word, or nothing."""
    limit, lines = ROOMS[word]
    job = "\n".join(["vars 1", f"limit {limit}", "session", *lines]) + "\n"
    try:
        history = played(program, job)
        judge_with_comments(job, history)
        return f"full before a sweep:\n{history}" if " -> full" in history else ""
    except Illegal as fault:
        return str(fault)


def many_registers(count):
    lines = ["vars 4", "session"] + [f"v{v} = var {v}" for v in range(4)]
    for step in range(count):
        lines += [f"c{step} = copy v{step % 4}", f"drop c{step}"]
    return "\n".join(lines + ["eval v2 0010", "eval v2 1101"]) + "\n", ["1", "0"]


def evals(history):
    calls = [line.rpartition(" -> ") for line in history.split("\n")]
    return [reply for call, _, reply in calls if " eval " in call]


def main(program, *examples):
    faults = 0
    jobs = [(name, open(name).read(), EXAMPLE_RUNS) for name in examples]
    jobs.append(("64 sections", many_sections(1), RUNS))
    jobs += [(f"swaps {seed}", swapped_sections(seed), 1) for seed in range(SWAP_JOBS)]
    for name, job, runs in jobs:
        for _ in range(runs):
            try:
                judge_with_comments(job, played(program, job))
            except Illegal as fault:
                print(f"NO LEGAL HISTORY of {name}: {fault}")
                faults += 1
                break
    try:
        for _ in range(RUNS):
            judge_copies(played(program, copies()))
    except Illegal as fault:
        print(f"NO LEGAL HISTORY of copies: {fault}")
        faults += 1
    for word in ROOMS:
        fault = makes_room(program, word)
        if fault:
            print(f"NOT AS DUE room for {word}: {fault}")
            faults += 1
    for name, (job, due) in (("dead nodes", dead_nodes(346_000, 20)), ("many registers", many_registers(500_000))):
        history = played(program, job)
        if evals(history) != due or " -> full" in history:
            print(f"NOT AS DUE {name}: {evals(history)}, due {due}")
            faults += 1
    print(f"{len(examples)} examples, 2 jobs of 64 sessions {RUNS} times each, {SWAP_JOBS} jobs with swaps, {len(ROOMS)} full tables and 2 long jobs: {faults} faults")
    return faults > 0


sys.exit(main(*sys.argv[1:]))
