"""Plays jobs that sift an order and then exchange two levels, in stores that have just the slots for that exchange, and in ones that
lack one. Which order a sift leaves, and how many nodes there are then, is reckoned here by the rule of sifting over whole tables of values,
and nothing of the package's own; a swap's reply tells whether both agree.

usage: sifts.py PROGRAM
"""
import random
import subprocess
import sys

from legal import Illegal, judge

JOBS = 200
CORNERS = ("ties", "a slot too few", "growth at its bound")
# A function's values at the assignments 0, 1, 2, .. are a tuple. So are a family's memberships.


def part(kind, f, v, bit):
    """The cofactor by a variable; of a family the members with an element, which is taken out of them, or those without it."""
    if kind != "z":
        return tuple(f[k | 1 << v if bit else k & ~(1 << v)] for k in range(len(f)))
    return tuple(int(not k >> v & 1 and f[k | 1 << v if bit else k]) for k in range(len(f)))


def same_node(kind, f):
    """What stands for all functions that one node has: a BDD's function and its complement."""
    return (kind, min(f, tuple(1 - x for x in f))) if kind == "b" else (kind, f)


def parts(kind, f, order):
    """All cofactors of a function by the first variables of an order."""
    found, last = {same_node(kind, f)}, {f}
    for v in order:
        last = {part(kind, g, v, bit) for g in last for bit in (0, 1)}
        found |= {same_node(kind, g) for g in last}
    return found


def top(node, order):
    """The first of the order that a node's function depends on, or None."""
    kind, f = node
    for v in order:
        if any(k >> v & 1 and x for k, x in enumerate(f)) if kind == "z" else part(kind, f, v, 0) != part(kind, f, v, 1):
            return v
    return None


class Store:
    """The functions that are held, of n variables, and the families of m elements."""

    def __init__(self, n, m, functions):
        size, sets = 2**n, 2**m
        permanent = [("b", (1,) * size), ("z", (0,) * sets), ("z", (1,) + (0,) * (sets - 1)), ("a", (0,) * size), ("a", (1,) * size)]
        permanent += [("b", tuple(k >> v & 1 for k in range(size))) for v in range(n)]
        self.functions = permanent + functions
        # What sifts met: a size just at the bound of growth, a swap that lacked one slot, two variables with as many nodes.
        self.corners = set()

    def nodes(self, orders):
        return set().union(*(parts(kind, f, orders[kind == "z"]) for kind, f in self.functions))

    def sizes(self, orders, which):
        """How many nodes there are, and how many of each variable, or of each element."""
        nodes = self.nodes(orders)
        tops = [top(node, orders[which]) for node in nodes if (node[0] == "z") == bool(which)]
        return len(nodes), {v: tops.count(v) for v in orders[which]}

    def need(self, orders, which, level):
        size, width = self.sizes(orders, which)
        return size, 2 * width[orders[which][level]] + width[orders[which][level + 1]]

    def sift(self, orders, which, limit):
        """Both orders after a sift of one of them, by the rule."""
        _, width = self.sizes(orders, which)
        if len(set(width.values())) < len(width):
            self.corners.add("ties")
        for v in sorted(orders[which], key=lambda v: (-width[v], v)):
            orders = self.sift_one(orders, which, limit, v)
        return orders

    def sift_one(self, orders, which, limit, v):
        order = orders[which]
        home, last = order.index(v), len(order) - 1

        def at(place):
            others = [u for u in order if u != v]
            moved = others[:place] + [v] + others[place:]
            return [orders[0], moved] if which else [moved, orders[1]]

        def size(place):
            return self.sizes(at(place), which)[0]

        met = [(size(home), home)]
        ways = [1, -1] if last - home < home else [-1, 1]
        for way in ways:
            place = home
            while 0 <= place + way <= last:
                used, need = self.need(at(place), which, min(place, place + way))
                if used + need > limit:
                    if used + need == limit + 1:
                        self.corners.add("a slot too few")
                    break
                place += way
                met.append((size(place), place))
                if 100 * met[-1][0] == 120 * min(s for s, _ in met):
                    self.corners.add("growth at its bound")
                if 100 * met[-1][0] > 120 * min(s for s, _ in met):
                    break
        least = min(s for s, _ in met)
        return at(next(place for s, place in met if s == least))


def lines_of(kind, f, name, n, m, count):
    """Commands that make a function by its values, from the last variable up, and drop what they needed on the way."""
    lines, made = [], {}

    def fresh():
        count[0] += 1
        return f"{name}{count[0]}"

    def make(g, v):
        if (g, v) in made:
            return made[g, v]
        it = fresh()
        if kind == "z":
            if v == m:
                lines.append(f"{it} = " + ("base" if g[0] else "empty"))
            else:
                low, high = make(part("z", g, v, 0), v + 1), make(part("z", g, v, 1), v + 1)
                other = fresh()
                lines.extend([f"{other} = flip {high} {v}", f"{it} = union {low} {other}", f"drop {other}"])
        elif v == n:
            lines.append(f"{it} = " + (f"num {g[0]}" if kind == "a" else "true" if g[0] else "false"))
        else:
            low, high = make(part(kind, g, v, 0), v + 1), make(part(kind, g, v, 1), v + 1)
            x = fresh()
            lines.extend([f"{x} = var {v}", f"{it} = {'addite' if kind == 'a' else 'ite'} {x} {high} {low}", f"drop {x}"])
        made[g, v] = it
        return it

    root = make(f, 0)
    return lines + [f"drop {it}" for it in made.values() if it != root], root


def function(rng, kind, n, m):
    size = 2 ** (m if kind == "z" else n)
    density = rng.choice([1, 2, 3])
    values = [0, 1, 2] if kind == "a" else [0, 1]
    f = [rng.choice(values) if rng.randrange(density) == 0 else 0 for _ in range(size)]
    for _ in range(rng.randrange(m if kind == "z" else n)):
        # Some variables don't count, so that widths and sizes tie.
        v = rng.randrange(m if kind == "z" else n)
        f = list(part(kind, tuple(f), v, 0))
    return kind, tuple(f)


def reply_to(history, call):
    lines = [line for line in history.split("\n") if f" {call} -> " in line]
    return lines[-1].rpartition(" -> ")[2] if lines else None


def judged(program, store, n, m, which, limit, lines, level):
    """Whether the sift was reached, and a fault or nothing."""
    orders = store.sift([list(range(n)), list(range(m))], which, limit)
    size, need = store.need(orders, which, level)
    due = "ok" if size + need <= limit else "full"
    sift, swap = ("esift", f"eswap {level}") if which else ("sift", f"swap {level}")
    head = [f"vars {n}", f"elements {m}", f"limit {limit}", "session"]
    job = "\n".join([*head, *lines, sift, swap]) + "\n"
    run = subprocess.run([program, "play"], input=job.encode(), capture_output=True)
    history = run.stdout.decode()
    try:
        judge(job, history)
    except Illegal as fault:
        return True, f"{fault}\n{job}"
    if reply_to(history, sift) != "ok":
        return False, ""
    reply = reply_to(history, swap)
    return True, "" if reply == due else f"{swap} was {reply}, due {due}: {size} nodes and {need} in the order {orders[which]}\n{job}"


# x0 x2 + x1 x3, whose two pairs stand apart: 21 slots are enough to bring them together, and 20 are not.
PAIRS = ("b", tuple(int(k & 5 == 5 or k & 10 == 10) for k in range(16)))


def corners():
    for limit in (20, 21, 1000):
        yield 4, 0, [PAIRS], 0, limit
    yield 0, 4, [("z", PAIRS[1])], 1, 1000
    yield 6, 0, [("b", tuple(int(bin(k).count("1") >= 3) for k in range(64)))], 0, 1000
    yield 3, 0, [], 0, 11


def main(program):
    rng, faults, plays, corners_met = random.Random(11), 0, 0, dict.fromkeys(CORNERS, 0)
    jobs = [(n, m, functions, which, [limit]) for n, m, functions, which, limit in corners()]
    for _ in range(JOBS):
        which = rng.randrange(2)
        n, m = (0, rng.randrange(3, 6)) if which else (rng.randrange(3, 7), 0)
        kinds = "z" if which else "ba"
        jobs.append((n, m, [function(rng, rng.choice(kinds), n, m) for _ in range(rng.randrange(1, 4))], which, None))
    for n, m, functions, which, limits in jobs:
        store = Store(n, m, functions)
        lines, count = [], [0]
        for kind, f in functions:
            lines += lines_of(kind, f, "r", n, m, count)[0]
        level = rng.randrange((m if which else n) - 1)
        if limits is None:
            size, need = store.need(store.sift([list(range(n)), list(range(m))], which, 10**6), which, level)
            limits = [max(5 + n, size + need - 1), size + need]
        for limit in limits:
            reached, fault = judged(program, store, n, m, which, limit, lines, level)
            plays += reached
            for corner in store.corners if reached else ():
                corners_met[corner] += 1
            store.corners = set()
            if fault:
                print(f"NOT AS DUE a sift: {fault}")
                faults += 1
    met = ", ".join(f"{corner} in {count}" for corner, count in corners_met.items())
    print(f"{len(jobs)} sifts over tables of values, {plays} swaps behind them judged ({met}), {faults} faults")
    return faults > 0 or plays < JOBS or 0 in corners_met.values()


if __name__ == "__main__":
    sys.exit(main(*sys.argv[1:]))
