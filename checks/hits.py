#!/usr/bin/env python3
"""Jobs that end only where the operators remember their answers, each with what it has to tell at some bits.

Without a computed table each of the operations takes more than 2^30 steps. The first argument is the program.
"""

import subprocess
import sys

SECONDS = 30


def parity(names, name):
    """The exclusive disjunction of these variables, one line each."""
    lines = [f"{name}0 = var {names[0]}"]
    for i, variable in enumerate(names[1:], 1):
        lines += [f"{name}v{i} = var {variable}", f"{name}{i} = xor {name}{i - 1} {name}v{i}"]
    return lines, f"{name}{len(names) - 1}"


def even_sets(elements, name):
    """The family of all sets of even size of these elements, and that of odd size beside it."""
    lines = [f"{name}e0 = base", f"{name}o0 = empty"]
    for i, element in enumerate(elements):
        lines += [
            f"{name}x{i} = flip {name}o{i} {element}",
            f"{name}y{i} = flip {name}e{i} {element}",
            f"{name}e{i + 1} = union {name}e{i} {name}x{i}",
            f"{name}o{i + 1} = union {name}o{i} {name}y{i}",
        ]
    return lines, f"{name}e{len(elements)}"


def bits(count, ones):
    return "".join("1" if i in ones else "0" for i in range(count))


def jobs():
    """Each job with its name and the values that its last lines tell."""
    even, x = parity(range(0, 64, 2), "x")
    odd, y = parity(range(1, 64, 2), "y")
    head = ["vars 64", "session"] + even + odd
    asks = [f"eval r {bits(64, ones)}" for ones in ([], [5], [5, 6], range(64), range(63))]
    yield "xor of two parities", head + [f"r = xor {x} {y}"] + asks, [0, 1, 0, 0, 1]
    yield (
        "sum of two parities",
        head + [f"a = ofbdd {x}", f"b = ofbdd {y}", "r = plus a b"] + asks,
        [0, 1, 2, 0, 1],
    )
    yield (
        "product of two parities as numbers",
        head + [f"a = ofbdd {x}", f"b = ofbdd {y}", "r = times a b"] + asks,
        [0, 0, 1, 0, 0],
    )
    whole, p = parity(range(63), "p")
    some = " ".join(str(v) for v in range(63))
    head = ["vars 64", "session"] + whole + ["z = var 63"]
    yield (
        "a parity and a variable, quantified",
        head + [f"r = andexists {p} z {some}", f"q = exists {p} {some}"]
        + [f"eval r {bits(64, [63])}", f"eval r {bits(64, [])}", f"eval q {bits(64, [])}"],
        [1, 0, 1],
    )
    yield (
        "restriction, support and composition of a parity",
        head + [f"r = restrict {p} z", f"s = support {p}", f"c = compose {p} 62 z"]
        + [f"eval r {bits(64, [3])}", f"eval s {bits(64, range(63))}", f"eval s {bits(64, range(62))}"]
        + [f"eval c {bits(64, [63])}", f"eval c {bits(64, [62])}"],
        [1, 1, 0, 1, 0],
    )
    first, e = even_sets(range(0, 64, 2), "e")
    second, o = even_sets(range(1, 64, 2), "o")
    asks = [f"eval r {bits(64, ones)}" for ones in ([], [0, 2], [0, 2, 1, 3], [0, 1], range(64))]
    yield (
        "product of the even sets of the even and of the odd elements",
        ["vars 0", "elements 64", "session"] + first + second + [f"r = product {e} {o}"] + asks,
        [1, 1, 1, 0, 1],
    )
    lines = ["vars 40", "session", "n = num 3", "s0 = num 0"]
    for v in range(40):
        lines += [f"v{v} = var {v}", f"w{v} = ofbdd v{v}", f"t{v} = times w{v} n", f"s{v + 1} = plus s{v} t{v}"]
    lines += ["b = atleast s40 61", f"eval s40 {bits(40, range(40))}", f"eval s40 {bits(40, [7, 9])}"]
    lines += [f"eval b {bits(40, range(20))}", f"eval b {bits(40, range(21))}"]
    yield "a sum of 40 equal weights", lines, [120, 6, 0, 1]


def told(program, lines):
    """What the job's `eval` lines tell, or what went wrong."""
    text = "\n".join(lines) + "\n"
    try:
        run = subprocess.run([program, "play"], input=text, capture_output=True, text=True, timeout=SECONDS)
    except subprocess.TimeoutExpired:
        return f"no end within {SECONDS} seconds"
    if run.returncode != 0 or run.stderr:
        return f"status {run.returncode}: {run.stdout[:200]}{run.stderr[:200]}"
    return [int(line.rsplit(" -> ", 1)[1]) for line in run.stdout.splitlines() if " eval " in line]


def main():
    faults = 0
    for name, lines, due in jobs():
        came = told(sys.argv[1], lines)
        if came != due:
            print(f"NOT AS DUE {name}: {came}, not {due}")
            faults += 1
    print(f"operations that end by remembered answers: {faults} faults")
    return 1 if faults else 0


if __name__ == "__main__":
    sys.exit(main())
