"""Reads networks of several models that are large or chosen, each at n, 2n and 4n, and prints a table of the seconds by the clock and the
greatest size in MB of whole runs of `build`.

usage: models.py PROGRAM

Where a text has no outputs it is read whole, put together, and refused at its end, so that reading alone is timed.
"""
import sys
import time

from networks import timed

HEAD = ".model t\n.inputs a\n.outputs a\n"


def joins(n):
    """One `.subckt` that joins n formal outputs."""
    lines = [".model t", ".inputs a", ".outputs q", ".subckt x " + " ".join(f"o{i}=s{i}" for i in range(n)), ".names s0 q", "1 1", ".model x"]
    return "\n".join(lines + [".outputs " + " ".join(f"o{i}" for i in range(n))] + [f".names o{i}" for i in range(n)]) + "\n"


def models(n):
    """n models that nothing holds."""
    return HEAD + "".join(f".model m{i}\n" for i in range(n))


def instances(n):
    """n copies of an empty model."""
    return HEAD + ".subckt x\n" * n + ".model x\n"


def chain(n):
    """n models of which each holds the next one."""
    link = ".model m{}\n.inputs i\n.outputs o\n.subckt m{} i=i o=o\n"
    last = f".model m{n - 1}\n.inputs i\n.outputs o\n.names i o\n1 1\n"
    return ".model t\n.inputs a\n.outputs q\n.subckt m0 i=a o=q\n" + "".join(link.format(i, i + 1) for i in range(n - 1)) + last


def copies(n):
    """n copies of a model of 1,023 covers."""
    covers = "".join(f".names s{i} s{i + 1}\n1 1\n" for i in range(1021))
    return ".model t\n.inputs a\n" + "".join(f".subckt x i=a o=q{i}\n" for i in range(n)) + ".model x\n.inputs i\n.outputs o\n.names i s0\n1 1\n" + covers + ".names s1021 o\n1 1\n"


def flat(n):
    """One model with a chain of n covers."""
    return ".inputs a\n.names a s0\n1 1\n" + "".join(f".names s{i} s{i + 1}\n1 1\n" for i in range(n - 1))


def shared(n):
    """n copies of a model with one cover of 4,000,000 rows."""
    return ".model t\n.inputs a\n" + "".join(f".subckt x i=a o=r{i}\n" for i in range(n)) + ".model x\n.inputs i\n.outputs o\n.names i o\n" + "1 1\n" * 4_000_000


def doubling(n):
    """n models of which each holds the next one twice: 2^n copies of the last one."""
    held = "".join(f".model m{i}\n.subckt m{i + 1}\n.subckt m{i + 1}\n" for i in range(n))
    return HEAD + ".subckt m0\n" + held + f".model m{n}\n.names z\n"


def main():
    print(f"{'text':<12}{'n':>10}{'seconds':>9}{'MB':>7}  last line")
    for text, least in ((joins, 250_000), (models, 250_000), (instances, 250_000), (chain, 50_000), (copies, 256), (flat, 250_000), (shared, 250), (doubling, 25)):
        for n in (least, 2 * least, 4 * least):
            given = text(n)
            begun = time.monotonic()
            _, _, size, told = timed([sys.argv[1], "build"], given)
            print(f"{text.__name__:<12}{n:>10}{time.monotonic() - begun:>9.2f}{size:>7.0f}  {told.strip().splitlines()[-1]}", flush=True)


main()
