"""Makes irredundant covers by `isop f f`, each script at n, 2n and 4n and at the most variables that there are elements for, and prints a
table: seconds of processor time of whole plays, the least of three.

usage: covers.py PROGRAM

  sum      each of the n + 1 outputs of the sum of two numbers of n bits, of 2n variables: the bits of both side by side, the highest first
  parity   the parity of n variables, whose cover has 2^(n - 1) combinations

`functions` is a play that makes the functions alone, `covers` one that makes their covers too, and `again` one that makes each of these
100 times more.
"""
import sys

from networks import least

AGAIN = 100


def head(variables):
    yield from [f"vars {variables}", f"elements {2 * variables}", "session"]
    yield from (f"x{v} = var {v}" for v in range(variables))


def sums(n):
    """The lines that make the outputs of the sum, and the outputs."""
    lines, carry = [*head(2 * n), "c0 = false"], "c0"
    for i in range(n):
        a, b = f"x{2 * (n - 1 - i)}", f"x{2 * (n - 1 - i) + 1}"
        lines += [f"h{i} = xor {a} {b}", f"s{i} = xor h{i} {carry}", f"c{i + 1} = ite h{i} {carry} {a}"]
        carry = f"c{i + 1}"
    return lines, [*(f"s{i}" for i in range(n)), carry]


def parity(n):
    lines, last = list(head(n)), f"x{n - 1}"
    for v in reversed(range(n - 1)):
        lines.append(f"p{v} = xor x{v} {last}")
        last = f"p{v}"
    return lines, [last]


# Each script with its name and its sizes.
SCRIPTS = [("sum", sums, (4, 8, 16, 256)), ("parity", parity, (7, 14, 28, 512))]


def play(lines):
    """The seconds of a play of these lines, which all have to say `ok`."""
    seconds, _, told = least([sys.argv[1], "play"], "\n".join(lines) + "\n")
    if told.count(" -> ok\n") != told.count("\n") - 1:
        sys.exit(told[:2000])
    return seconds


def main():
    print(f"{'script':8}{'n':>4}{'functions':>11}{'covers':>8}{'again':>8}")
    for name, script, sizes in SCRIPTS:
        for n in sizes:
            lines, functions = script(n)
            covers = [f"z{i} = isop {f} {f}" for i, f in enumerate(functions)]
            again = [f"y{time}x{i} = isop {f} {f}" for time in range(AGAIN) for i, f in enumerate(functions)]
            made, covered, kept = play(lines), play(lines + covers), play(lines + covers + again)
            print(f"{name:8}{n:>4}{made:>11.3f}{covered:>8.3f}{kept:>8.3f}", flush=True)


main()
