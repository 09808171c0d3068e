"""Judges whether a history is a legal one of a job, by plain tables of values and nothing of the package's own.

A function is the tuple of its values at assignments 0, 1, 2, ..; a family the tuple that tells for each combination whether it
is a member. So a job may have ten variables and ten elements at most.
"""
from itertools import product

LEAST, MOST = -(2**46), 2**46 - 1
MANY = 10
# At how many places an answer of `restrict` may be left free, so that all of them are gone through.
FREE = 8
# Of how many products a cover may be chosen, so that all covers are gone through.
PRIMES = 12
# The commands whose result is there already, so that they are never refused a slot.
READY = {"true", "false", "var", "not", "empty", "base", "copy", "fetch"}
# The commands that make numbers and families. What copies and fetches make is of the kind of their operand, the others make BDDs.
NUMBERS = {"num", "ofbdd", "plus", "minus", "times", "min", "max", "threshold", "addite", "sum"}
FAMILIES = {"empty", "base", "single", "union", "meet", "diff", "on", "off", "flip", "product", "quotient", "isop"}


class Illegal(Exception):
    """Why a history is none of the job."""


class TooLarge(Exception):
    """A job with too many variables or elements to be judged by tables."""


class Overflow(Exception):
    """A value is out of range."""


class Apart(Exception):
    """The first of two functions is not below the second."""


def job_of(text):
    """The numbers of variables and elements of a job's text, and the words of the commands of each section."""
    lines = [line.split("#")[0].split() for line in text.split("\n")]
    vars_, elements, sections = 0, 0, []
    for words in filter(None, lines):
        if words == ["session"]:
            sections.append([])
        elif sections:
            sections[-1].append(words)
        elif words[0] == "vars":
            vars_ = int(words[1])
        elif words[0] == "elements":
            elements = int(words[1])
    return vars_, elements, sections


def with_bit(k, v, bit):
    return k | 1 << v if bit else k & ~(1 << v)


def cofactor(f, v, bit):
    return tuple(f[with_bit(k, v, bit)] for k in range(len(f)))


def depends(f, v):
    return cofactor(f, v, 0) != cofactor(f, v, 1)


def number_of_bits(word):
    return 0 if word == "none" else sum(1 << at for at, bit in enumerate(word) if bit == "1")


def quantified(f, variables, join):
    for v in variables:
        f = tuple(map(join, cofactor(f, v, 0), cofactor(f, v, 1)))
    return f


def at_once(f, pairs):
    """f with each function put for its variable, all at once."""

    def moved(k):
        to = k
        for v, g in pairs:
            to = with_bit(to, v, g[k])
        return to

    return tuple(f[moved(k)] for k in range(len(f)))


def in_range(values):
    values = tuple(values)
    if any(not LEAST <= value <= MOST for value in values):
        raise Overflow
    return values


def literals_of(c, n):
    """The literals of a product of literals as pairs of a variable and a value, or None if it is no such product."""
    if not any(c):
        return None
    literals = []
    for v in range(n):
        if depends(c, v):
            if any(cofactor(c, v, 0)) == any(cofactor(c, v, 1)):
                return None
            literals.append((v, int(any(cofactor(c, v, 1)))))
    is_product = all(bool(c[k]) == all(k >> v & 1 == bit for v, bit in literals) for k in range(len(c)))
    return literals if is_product else None


def may_restrict_to(f, c, r, n):
    """Whether r is one of the answers that a restrict of f by c may give."""
    if not any(c):
        return not any(r)
    inside = {f[k] for k in range(len(f)) if c[k]}
    literals = literals_of(c, n)
    if literals is not None:
        for v, bit in literals:
            f = cofactor(f, v, bit)
        return r == f
    return (
        all(r[k] == f[k] for k in range(len(f)) if c[k])
        and all(depends(f, v) or not depends(r, v) for v in range(n))
        and (len(inside) > 1 or len(set(r)) == 1)
    )


def restrictions(f, c, n):
    """All answers that a restrict of f by c may give."""
    literals = literals_of(c, n)
    if literals is not None or not any(c):
        for v, bit in literals or []:
            f = cofactor(f, v, bit)
        return [f if any(c) else (0,) * len(f)]
    if c.count(0) > FREE:
        raise TooLarge
    answers = product(*[(f[k],) if c[k] else (0, 1) for k in range(len(f))])
    return [r for r in answers if may_restrict_to(f, c, r, n)]


def product_of(p, q):
    members = {a | b for a in range(len(p)) if p[a] for b in range(len(q)) if q[b]}
    return tuple(int(a in members) for a in range(len(p)))


def quotient_of(p, q):
    divisor = [b for b in range(len(q)) if q[b]]
    return tuple(int(bool(divisor) and all(a & b == 0 and p[a | b] for b in divisor)) for a in range(len(p)))


def holds(a, k, n):
    """Whether a combination holds at k as a product of literals: element 2v is the variable v, and 2v + 1 its complement."""
    return not any(a >> 2 * v + (k >> v & 1) & 1 for v in range(n))


def function_of_cover(p, n):
    members = [a for a in range(len(p)) if p[a]]
    return tuple(int(any(holds(a, k, n) for a in members)) for k in range(2**n))


def covers_between(lower, upper, n, m):
    """All irredundant covers between two functions. Raises Apart if the first is not below the second."""
    if any(x > y for x, y in zip(lower, upper)):
        raise Apart
    is_within = lambda a: all(upper[k] for k in range(2**n) if holds(a, k, n))
    within = [a for a in map(sum, product(*[(0, 1 << 2 * v, 2 << 2 * v) for v in range(n)])) if is_within(a)]
    primes = [a for a in within if not any(a >> e & 1 and is_within(a & ~(1 << e)) for e in range(2 * n))]
    if len(primes) > PRIMES:
        raise TooLarge
    covers = lambda chosen: all(any(holds(a, k, n) for a in chosen) for k in range(2**n) if lower[k])
    subsets = [[a for a, is_in in zip(primes, choice) if is_in] for choice in product((0, 1), repeat=len(primes))]
    irredundant = [it for it in subsets if covers(it) and not any(covers([b for b in it if b != a]) for a in it)]
    return [tuple(int(a in it) for a in range(2**m)) for it in irredundant]


def made(words, given, n, m):
    """The functions that a command may make of these operands: one, but for `restrict` and `isop`. Raises Overflow if a value is out
    of range, and Apart if bounds are."""
    word, rest = words[0], words[1:]
    size, places = 2**n, range(2**n)
    numbers = [int(it) for it in rest if it.lstrip("-").isdigit()]
    one = (1,) * size
    f, g, h = (given + [None, None, None])[:3]
    match word:
        case "true" | "false":
            return [(int(word == "true"),) * size]
        case "var":
            return [tuple(k >> numbers[0] & 1 for k in places)]
        case "not":
            return [tuple(1 - x for x in f)]
        case "and" | "meet":
            return [tuple(x & y for x, y in zip(f, g))]
        case "or" | "union":
            return [tuple(x | y for x, y in zip(f, g))]
        case "xor":
            return [tuple(x ^ y for x, y in zip(f, g))]
        case "diff":
            return [tuple(x & 1 - y for x, y in zip(f, g))]
        case "ite" | "addite":
            return [tuple(y if x else z for x, y, z in zip(f, g, h))]
        case "cofactor":
            return [cofactor(f, numbers[0], numbers[1])]
        case "exists":
            return [quantified(f, numbers, max)]
        case "forall":
            return [quantified(f, numbers, min)]
        case "andexists":
            return [quantified(tuple(x & y for x, y in zip(f, g)), numbers, max)]
        case "compose":
            return [at_once(f, [(numbers[0], g)])]
        case "vcompose":
            return [at_once(f, list(zip(numbers, given[1:])))]
        case "restrict":
            return restrictions(f, g, n)
        case "support":
            on = [v for v in range(n) if depends(f, v)]
            return [tuple(int(all(k >> v & 1 for v in on)) for k in places)]
        case "num":
            return [tuple(numbers[0] * x for x in one)]
        case "ofbdd":
            return [f]
        case "plus":
            return [in_range(x + y for x, y in zip(f, g))]
        case "minus":
            return [in_range(x - y for x, y in zip(f, g))]
        case "times":
            return [in_range(x * y for x, y in zip(f, g))]
        case "min":
            return [tuple(map(min, f, g))]
        case "max":
            return [tuple(map(max, f, g))]
        case "threshold":
            return [tuple(x if x >= y else 0 for x, y in zip(f, g))]
        case "sum":
            return [in_range(map(sum, zip(cofactor(f, numbers[0], 0), cofactor(f, numbers[0], 1))))]
        case "atleast":
            return [tuple(int(x >= numbers[0]) for x in f)]
        case "pattern":
            return [tuple(int(x != 0) for x in f)]
        case "empty":
            return [(0,) * 2**m]
        case "base" | "single":
            only = 1 << numbers[0] if word == "single" else 0
            return [tuple(int(a == only) for a in range(2**m))]
        case "on" | "off" | "flip":
            return [changed(word, f, numbers[0])]
        case "product":
            return [product_of(f, g)]
        case "quotient":
            return [quotient_of(f, g)]
        case "isop":
            return covers_between(f, g, n, m)
        case "coverof":
            return [function_of_cover(f, n)]
    raise Illegal(f"no such command: {word}")


def changed(word, p, e):
    has = lambda a: a >> e & 1
    match word:
        case "on":
            return tuple(int(not has(a) and p[a | 1 << e]) for a in range(len(p)))
        case "off":
            return tuple(int(not has(a) and p[a]) for a in range(len(p)))
    return tuple(p[a ^ 1 << e] for a in range(len(p)))


class Session:
    """What is left of a section, the registers that its calls made, by their order, and the kind of each register."""

    def __init__(self, commands):
        self.left, self.assigned, self.has_stopped, self.kinds = list(commands), [], False, {}
        for words in commands:
            if words[1:2] == ["="]:
                self.kinds[words[0]] = self.kind_made(words[2:])

    def kind_made(self, words):
        if words[0] in ("copy", "fetch"):
            return self.kinds[words[-1]]
        return "a" if words[0] in NUMBERS else "z" if words[0] in FAMILIES else "b"

    def due(self):
        """The words of its next call, or None."""
        if self.left and not self.has_stopped:
            return self.left[0]
        return ["drop", self.assigned[0]] if self.assigned else None

    def told(self, words, reply):
        """Goes past its next call."""
        if self.left and not self.has_stopped:
            self.left.pop(0)
        self.has_stopped = self.has_stopped or reply in ("full", "overflow", "apart")
        if words[0] == "drop":
            self.assigned.remove(words[1])
        elif words[1:2] == ["="] and reply in ("ok", "posted", "empty"):
            self.assigned.append(words[0])


def after(words, reply, session, kinds, world, n, m):
    """The worlds that may be left of one by this call and its reply: what each session's registers stand for, and for each
    cell of the board that was posted its kind and its function. The world itself is changed where only one is left."""
    if words[1:2] == ["="] and words[2] == "copy":
        world[session, words[0]] = world[session, words[3]]
        return [world] if reply == "ok" else []
    if words[1:2] == ["="] and words[2] == "fetch":
        kind, f = world.get(("cell", int(words[3])), (None, None))
        is_posted = kind == kinds[words[4]]
        world[session, words[0]] = f if is_posted else world[session, words[4]]
        return [world] if reply == ("posted" if is_posted else "empty") else []
    if words[1:2] == ["="]:
        given = [world[session, it] for it in words[3:] if (session, it) in world]
        try:
            functions = made(words[2:], given, n, m)
        except Overflow:
            return [world] if reply in ("overflow", "full") else []
        except Apart:
            return [world] if reply == "apart" else []
        if reply == "full":
            return [] if words[2] in READY else [world]
        if reply != "ok":
            return []
        if len(functions) > 1:
            return [world | {(session, words[0]): f} for f in functions]
        world[session, words[0]] = functions[0]
        return [world]
    match words[0]:
        case "drop":
            is_due = reply == "ok"
            del world[session, words[1]]
        case "post":
            is_due = reply == "ok"
            world["cell", int(words[1])] = (kinds[words[2]], world[session, words[2]])
        case "sweep" | "sift" | "esift":
            is_due = reply == "ok"
        case "swap" | "eswap":
            # Whether the table is full for it depends on nodes, which no table of values tells.
            is_due = reply in ("ok", "full")
        case "same":
            f, g = world[session, words[1]], world[session, words[2]]
            is_due = reply == ("yes" if f == g else "no")
        case "leq":
            f, g = world[session, words[1]], world[session, words[2]]
            is_due = reply == ("yes" if all(x <= y for x, y in zip(f, g)) else "no")
        case "eval":
            is_due = reply == str(world[session, words[1]][number_of_bits(words[2])])
        case _:
            is_due = False
    return [world] if is_due else []


def judge(job, history):
    """Raises Illegal unless the text is that of a legal history of the job, and then the number of permanent slots."""
    n, m, sections = job_of(job)
    if max(n, m) > MANY:
        raise TooLarge
    sessions, worlds = [Session(commands) for commands in sections], [{}]
    *lines, last = history.removesuffix("\n").split("\n")
    for place, line in enumerate(lines):
        call, arrow, reply = line.rpartition(" -> ")
        words = call.split()
        if not arrow or words[:1] != [str(place)] or not words[1:] or not words[1].isdigit() or int(words[1]) >= len(sessions):
            raise Illegal(f"no line of place {place}: {line}")
        number, words = int(words[1]), words[2:]
        if call != " ".join([str(place), str(number), *words]) or words != sessions[number].due():
            raise Illegal(f"not the next call of its session: {line}")
        worlds = [it for world in worlds for it in after(words, reply, number, sessions[number].kinds, world, n, m)]
        if not worlds:
            raise Illegal(f"no such reply is due: {line}")
        sessions[number].told(words, reply)
    if any(session.due() for session in sessions):
        raise Illegal("a call is left out at the end")
    if last != f"left {5 + n}" or not history.endswith("\n"):
        raise Illegal(f"the last line: {last}")
