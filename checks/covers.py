#!/usr/bin/env python3
"""Plays `isop` and `coverof` for all pairs of functions of three variables, and judges each cover on plain lists.

usage: covers.py PROGRAM
       covers.py --self

Of the 65,536 pairs 6,561 are in order: the lower function implies the upper one. Their covers are asked for under four orders of the
variables and of the seven elements, which are made by swaps. Each of the 128 sets of elements is looked for in the family, so that all of
it is known: it has to meet the seven sentences of an irredundant cover, and `coverof` has to give its function. Of the other pairs 1,280
are drawn by a fixed seed, and each is played in a session of its own, which has to end with `apart`.

With --self no program is played. The judge has to find each sentence broken in a cover that was made wrong by hand, to take a right one,
and to judge all families of two literals and one further element, between functions of one variable, as legal.py does.
"""
import random
import subprocess
import sys
from itertools import islice, product

from legal import Apart, Illegal, covers_between

VARS, ELEMENTS = 3, 7
PLACES, SETS, FUNCTIONS = range(2**VARS), range(2**ELEMENTS), range(2 ** 2**VARS)
# The order of the variables and that of the elements, from the top. In the last one each complement stands above its variable.
ORDERS = {
    "those of the numbers": ((0, 1, 2), (0, 1, 2, 3, 4, 5, 6)),
    "variables turned round": ((2, 1, 0), (0, 1, 2, 3, 4, 5, 6)),
    "elements turned round": ((0, 1, 2), (6, 5, 4, 3, 2, 1, 0)),
    "both mixed": ((1, 2, 0), (5, 1, 6, 4, 3, 0, 2)),
}
JOBS = 16
APART, SEED = 1_280, 2026
SECONDS = 60
MOST_SHOWN = 5

# Covers of `ite a b c`, of which the elements 0 and 1 are a and its complement, 2 and 3 those of b, and so on. Each of the wrong ones is
# made to break the sentence that it is named by, and breaks just these.
RIGHT = [[0, 2], [1, 4]]
WRONG = {
    "below": ([*RIGHT, [7]], {"below", "literals", "needs_each"}),
    "literals": ([[0, 2, 6], [1, 4]], {"literals", "needs_literals"}),
    "reaches": ([[0, 2]], {"reaches"}),
    "stays": ([[0, 2], [4]], {"stays"}),
    "consistent": ([*RIGHT, [2, 3]], {"consistent", "needs_each"}),
    "needs_each": ([*RIGHT, [2, 4]], {"needs_each"}),
    "needs_literals": ([[0, 2, 4], [0, 2, 5], [1, 4]], {"needs_literals"}),
}


def has(number, at):
    return bool(number >> at & 1)


def values(function):
    """The values of a function at all places, the function being a number of which they are the bits."""
    return [has(function, k) for k in PLACES]


def bits(number, count):
    return "".join("01"[has(number, at)] for at in range(count))


SET_WORDS, PLACE_WORDS = [bits(c, ELEMENTS) for c in SETS], [bits(k, VARS) for k in PLACES]


def fits(c, k, n):
    """Whether the literals of a combination hold at k: element 2v is the variable v, and 2v + 1 its complement."""
    return all((not has(c, 2 * v) or has(k, v)) and (not has(c, 2 * v + 1) or not has(k, v)) for v in range(n))


def broken(lower, upper, family, n, m):
    """Which of the seven sentences a family of m elements breaks as an irredundant cover between two functions of n variables."""
    places = range(2**n)
    elements = lambda c: [e for e in range(c.bit_length()) if has(c, e)]
    covers = lambda members, k: any(c < 2**m and fits(c, k, n) for c in members)
    without = lambda c: [b for b in family if b != c]
    is_needed = lambda c: any(lower[k] and not covers(without(c), k) for k in places)
    is_literal_needed = lambda c, e: any(not upper[k] and fits(c & ~(1 << e), k, n) for k in places)
    sentences = {
        "below": all(c < 2**m for c in family),
        "literals": all(e < 2 * n for c in family for e in elements(c)),
        "reaches": all(covers(family, k) for k in places if lower[k]),
        "stays": all(upper[k] for k in places if covers(family, k)),
        "consistent": not any(has(c, e) and has(c, e + 1) for c in family for e in range(0, c.bit_length(), 2)),
        "needs_each": all(is_needed(c) for c in family),
        "needs_literals": all(is_literal_needed(c, e) for c in family for e in elements(c)),
    }
    return {name for name, is_kept in sentences.items() if not is_kept}


def swaps(word, order):
    """The swaps that bring 0, 1, 2, .. into an order."""
    now, lines = sorted(order), []
    for place, wanted in enumerate(order):
        for level in reversed(range(place, now.index(wanted))):
            now[level], now[level + 1] = now[level + 1], now[level]
            lines.append(f"{word} {level}")
    return lines


def ordered(name):
    variables, elements = ORDERS[name]
    return swaps("swap", variables) + swaps("eswap", elements)


def part(function, v, value):
    """A function with a value put for a variable."""
    return sum(has(function, k & ~(1 << v) | value << v) << k for k in PLACES)


def making(functions):
    """Lines that make these functions, each in a register that is named by its number, and those that they are chosen from."""
    projections = [sum(has(k, v) << k for k in PLACES) for v in range(VARS)]
    words = {FUNCTIONS[0]: "false", FUNCTIONS[-1]: "true"} | {it: f"var {v}" for v, it in enumerate(projections)}
    made = []

    def make(function):
        if function in made:
            return
        if function not in words:
            v = next(v for v in range(VARS) if part(function, v, 0) != part(function, v, 1))
            operands = projections[v], part(function, v, 1), part(function, v, 0)
            for operand in operands:
                make(operand)
            words[function] = "ite {} {} {}".format(*(f"f{it}" for it in operands))
        made.append(function)

    for function in functions:
        make(function)
    return [f"f{it} = {words[it]}" for it in made]


def registers(made):
    return [line.split(" ")[0] for line in made]


def asking(lower, upper):
    """The commands about two functions that are in order."""
    z, g = f"z{lower}x{upper}", f"g{lower}x{upper}"
    members = [f"eval {z} {word}" for word in SET_WORDS]
    function = [f"eval {g} {word}" for word in PLACE_WORDS]
    return [f"{z} = isop f{lower} f{upper}", f"{g} = coverof {z}", *members, *function, f"drop {z}", f"drop {g}"]


def replies(program, lines, left, unplayed=()):
    """The replies of a session to these lines, and to the drops of what is left behind them. Raises Illegal where it has other calls."""
    job = "\n".join([f"vars {VARS}", f"elements {ELEMENTS}", "session", *lines, *unplayed]) + "\n"
    try:
        run = subprocess.run([program, "play"], input=job.encode(), capture_output=True, timeout=SECONDS)
    except subprocess.TimeoutExpired:
        raise Illegal(f"no end within {SECONDS} seconds") from None
    if run.returncode or run.stderr:
        raise Illegal(f"status {run.returncode}, {run.stderr[:200]!r} on standard error")
    calls = enumerate([*lines, *(f"drop {register}" for register in left)])
    due = [*(f"{place} 0 {call}" for place, call in calls), f"left {5 + VARS}"]
    history = run.stdout.decode().splitlines()
    told = [line.partition(" -> ") for line in history]
    if [call for call, _, _ in told] != due:
        at = next((at for at, (came, call) in enumerate(zip(told, due)) if came[0] != call), min(len(told), len(due)))
        raise Illegal(f"not the calls that are due: {history[max(at - 2, 0):at + 1]}, and due is {due[at:at + 1]}")
    return [reply for _, _, reply in told[:-1]]


def judged(lower, upper, told):
    """What is not as due of the replies about two functions that are in order, or nothing."""
    came, asked = told[:2] + told[-2:], told[2:-2]
    if came != ["ok"] * 4 or not {"0", "1"}.issuperset(asked):
        return f"the replies are {told}"
    family = [c for c, reply in zip(SETS, asked) if reply == "1"]
    faults = broken(values(lower), values(upper), family, VARS, ELEMENTS)
    if faults:
        return f"no irredundant cover: {[SET_WORDS[c] for c in family]} breaks {sorted(faults)}"
    due = ["01"[any(fits(c, k, VARS) for c in family)] for k in PLACES]
    return "" if asked[len(SETS) :] == due else f"coverof tells {asked[len(SETS):]}, not {due}"


def is_below(lower, upper):
    return lower & ~upper == 0


def covers(program, order, lowers):
    """What is not as due of each pair in order whose lower function is one of these, or nothing, each with the names of the pair."""
    made = making(FUNCTIONS)
    parts = [(None, ordered(order)), (None, made)]
    for lower in lowers:
        parts += [((lower, upper), asking(lower, upper)) for upper in FUNCTIONS if is_below(lower, upper)]
        parts.append((None, ["sweep"]))
    try:
        told = iter(replies(program, [line for _, lines in parts for line in lines], registers(made)))
    except Illegal as fault:
        yield f"lower functions {lowers}", str(fault)
        return
    for pair, lines in parts:
        came = list(islice(told, len(lines)))
        if pair:
            yield f"functions {pair}", judged(*pair, came)
        elif came != ["ok"] * len(lines):
            yield "beside the covers", f"the replies to {lines} are {came}"
    if list(told) != ["ok"] * len(made):
        yield "behind the covers", "a drop has another reply than ok"


def apart(program, order, lower, upper):
    """What is not as due of a session about two functions that are not in order, or nothing."""
    made = making([lower, upper])
    lines = [*ordered(order), *made, f"z = isop f{lower} f{upper}"]
    due = ["ok"] * (len(lines) - 1) + ["apart"] + ["ok"] * len(made)
    try:
        told = replies(program, lines, registers(made), ["g = coverof z", f"eval f{lower} 000"])
    except Illegal as fault:
        return str(fault)
    return "" if told == due else f"the replies to {lines} and to the drops are {told}"


def played(program):
    """Each pair that is played: whether it is in order, its names, and what is not as due, or nothing."""
    step = len(FUNCTIONS) // JOBS
    for order in ORDERS:
        for first in FUNCTIONS[::step]:
            for names, fault in covers(program, order, FUNCTIONS[first : first + step]):
                yield True, f"{order}, {names}", fault
    pairs = [pair for pair in product(FUNCTIONS, repeat=2) if not is_below(*pair)]
    for number, pair in enumerate(random.Random(SEED).sample(pairs, APART)):
        order = list(ORDERS)[number % len(ORDERS)]
        yield False, f"{order}, functions {pair}", apart(program, order, *pair)


def judge_itself():
    """What the judge tells otherwise than is due: of covers that were made by hand, and of families of one variable."""
    combination = lambda elements: sum(1 << e for e in elements)
    function = [has(k, 1) if has(k, 0) else has(k, 2) for k in PLACES]
    for name, (cover, due) in {"right": (RIGHT, set()), **WRONG}.items():
        found = broken(function, function, [combination(elements) for elements in cover], VARS, ELEMENTS)
        if found != due:
            yield f"the cover for {name} breaks {sorted(found)}, and due are {sorted(due)}"
    for lower, upper in product(product((False, True), repeat=2), repeat=2):
        try:
            due = covers_between(lower, upper, 1, 3)
        except Apart:
            due = []
        for members in product((0, 1), repeat=8):
            family = [c for c in range(8) if members[c]]
            if (broken(lower, upper, family, 1, 3) == set()) != (members in due):
                yield f"the family {family} between {lower} and {upper} is judged otherwise by legal.py"


def main(program):
    if program == "--self":
        faults = list(judge_itself())
        print(*faults, f"{len(WRONG)} wrong covers, a right one, and all families of one variable judged: {len(faults)} faults", sep="\n")
        return faults != []
    counts, faults = {True: 0, False: 0}, 0
    for is_in_order, names, fault in played(program):
        counts[is_in_order] += 1
        faults += fault != ""
        if fault and faults <= MOST_SHOWN:
            print(f"NOT AS DUE {names}: {fault}", flush=True)
    print(f"covers: {counts[True]:,} pairs under four orders, {counts[False]:,} apart: {faults} faults")
    return faults > 0


if __name__ == "__main__":
    sys.exit(main(*sys.argv[1:]))
