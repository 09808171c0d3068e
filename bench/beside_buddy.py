"""Plays scripts of operations on BDDs with ddsh and with BuDDy, and prints a table of seconds, ratios and memory.

usage: beside_buddy.py PROGRAM DRIVER

  multiplier N   the outputs of an array multiplier of N by N bits
  adder N        the outputs of a ripple adder of N bits, the operands' bits by turns in the order
  queens N       N queens on a board, as the conjunction of what each square asks
  parity N       the exclusive disjunction of N variables, and of its halves
  relation N     random conjunctions of N variables, joined, and quantified over every second variable

The seconds of BuDDy are those of its operations. From those of ddsh the seconds of a script with as many lines are taken off whose
operations have nothing to do, so that reading and writing are told apart; both are in the table.
"""
import os
import random
import resource
import subprocess
import sys
import tempfile

RUNS = 3


class Script:
    """Operations on registers by number, as a job of ddsh and as a program of the driver."""

    WORDS = {"n": "not", "a": "and", "o": "or", "x": "xor", "i": "ite"}

    def __init__(self, vars):
        self.vars = vars
        self.steps = []
        self.variable = {}

    def make(self, op, *operands):
        self.steps.append((op, len(self.steps), operands))
        return len(self.steps) - 1

    def var(self, v):
        if v not in self.variable:
            self.variable[v] = self.make("v", v)
        return self.variable[v]

    def exists(self, f, variables):
        return self.make("e", f, *variables)

    def job(self, idle=False):
        """The text of a job; an idle one has the same lines with operations of variables on themselves."""
        lines = [f"vars {self.vars}", "limit 8388607", "session"]
        for op, made, operands in self.steps:
            if op == "v":
                lines.append(f"r{made} = var {operands[0]}")
            elif op == "e":
                names = " ".join(str(v) for v in operands[1:])
                lines.append(f"r{made} = exists r{0 if idle else operands[0]} {names}")
            else:
                names = " ".join(f"r{0 if idle else r}" for r in operands)
                lines.append(f"r{made} = {self.WORDS[op]} {names}")
        return "\n".join(lines) + "\n"

    def program(self):
        lines = [f"{self.vars} {len(self.steps)}"]
        for op, made, operands in self.steps:
            if op == "e":
                lines.append(f"e {made} {operands[0]} {len(operands) - 1} " + " ".join(map(str, operands[1:])))
            else:
                lines.append(f"{op} {made} " + " ".join(map(str, operands)))
        return "\n".join(lines) + "\n"


def added(s, a, b, carry):
    """A full adder: the sum and the carry."""
    half = s.make("x", a, b)
    return s.make("x", half, carry), s.make("o", s.make("a", a, b), s.make("a", half, carry))


def multiplier(n):
    s = Script(2 * n)
    a = [s.var(i) for i in range(n)]
    b = [s.var(n + i) for i in range(n)]
    zero = s.make("x", a[0], a[0])
    row = [zero] * (2 * n)
    for j in range(n):
        carry = zero
        for i in range(n):
            row[i + j], carry = added(s, row[i + j], s.make("a", a[i], b[j]), carry)
        row[j + n] = carry
    return s


def adder(n):
    s = Script(2 * n)
    carry = None
    for i in range(n):
        a, b = s.var(2 * i), s.var(2 * i + 1)
        if carry is None:
            carry = s.make("x", a, a)
        _, carry = added(s, a, b, carry)
    return s


def queens(n):
    s = Script(n * n)
    at = [[s.var(n * i + j) for j in range(n)] for i in range(n)]
    no = [[s.make("n", at[i][j]) for j in range(n)] for i in range(n)]
    board = None
    for i in range(n):
        some = at[i][0]
        for j in range(1, n):
            some = s.make("o", some, at[i][j])
        board = some if board is None else s.make("a", board, some)
    for i in range(n):
        for j in range(n):
            free = None
            for k in range(n):
                for l in range(n):
                    hit = (i, j) != (k, l) and (i == k or j == l or i + j == k + l or i - j == k - l)
                    if hit:
                        free = no[k][l] if free is None else s.make("a", free, no[k][l])
            board = s.make("a", board, s.make("o", no[i][j], free))
    return s


def parity(n):
    s = Script(n)
    halves = []
    for start in (0, 1):
        whole = s.var(start)
        for v in range(start + 2, n, 2):
            whole = s.make("x", whole, s.var(v))
        halves.append(whole)
    for _ in range(200):
        halves.append(s.make("x", halves[-2], halves[-1]))
    return s


def relation(n):
    chance = random.Random(n)
    s = Script(n)
    whole = None
    for _ in range(4 * n):
        part = None
        for v in chance.sample(range(n), 4):
            literal = s.var(v) if chance.random() < 0.5 else s.make("n", s.var(v))
            part = literal if part is None else s.make("a", part, literal)
        whole = part if whole is None else s.make("o", whole, part)
        s.exists(whole, range(0, n, 2))
    return s


SCRIPTS = [("multiplier", multiplier, 8), ("multiplier", multiplier, 9), ("multiplier", multiplier, 10), ("adder", adder, 256), ("queens", queens, 8),
           ("parity", parity, 512), ("relation", relation, 24)]


def timed(words, text):
    """The seconds of processor time, the greatest size in MB, and what was written."""
    with tempfile.TemporaryFile() as source, tempfile.TemporaryFile() as sink:
        source.write(text.encode())
        source.seek(0)
        child = subprocess.Popen(words, stdin=source, stdout=sink)
        _, status, used = os.wait4(child.pid, 0)
        sink.seek(0)
        return status, used.ru_utime + used.ru_stime, used.ru_maxrss / 1024, sink.read()


def main():
    program, driver = sys.argv[1:]
    print(f"{'script':<16}{'lines':>8}{'ddsh s':>9}{'lines s':>9}{'work s':>9}{'BuDDy s':>9}{'ratio':>8}{'ddsh MB':>9}{'BuDDy MB':>10}")
    for name, make, size in SCRIPTS:
        s = make(size)
        whole, idle, other, room, other_room, ends = [], [], [], 0, 0, b""
        for _ in range(RUNS):
            status, seconds, megabytes, text = timed([program, "play"], s.job())
            if status != 0:
                ends = b"status %d " % status + text[-60:]
            elif b"-> full" in text:
                ends = b"full"
            whole.append(seconds)
            room = max(room, megabytes)
            idle.append(timed([program, "play"], s.job(idle=True))[1])
            status, _, megabytes, text = timed([driver], s.program())
            other.append(float(text.split()[0]) if status == 0 else float("nan"))
            other_room = max(other_room, megabytes)
        work = max(min(whole) - min(idle), 0)
        ratio = work / min(other) if min(other) > 0 else float("nan")
        print(f"{name + ' ' + str(size):<16}{len(s.steps):>8}{min(whole):>9.3f}{min(idle):>9.3f}{work:>9.3f}{min(other):>9.3f}{ratio:>8.2f}{room:>9.0f}{other_room:>10.0f}"
              + (f"  {ends.decode(errors='replace')}" if ends else ""), flush=True)


main()
