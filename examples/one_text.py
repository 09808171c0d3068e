#!/usr/bin/env python3
"""Writes two networks with the same inputs as one text, so that `ddsh build` tells which of their outputs are equal.

usage: one_text.py A.blif B.blif | ddsh build

The inputs stand in the order of the first network, and the outputs of the first before those of the second. All other names of the
second get `2.` before them, its outputs too: an output s of both is told as s and as 2.s.
"""
import sys

LEFT_OUT = (b".gate", b".mlatch", b".latch", b".subckt", b".exdc")


def lines_of(path):
    """The words of each line without its comment; a line without a comment that ends with a backslash is joined with the next."""
    with open(path, "rb") as file:
        text = file.read()
    begun = b""
    for line in text.split(b"\n"):
        said, mark, _ = line.removesuffix(b"\r").partition(b"#")
        if not mark and said.endswith(b"\\"):
            begun += said[:-1]
            continue
        if (begun + said).split():
            yield (begun + said).split()
        begun = b""


def parts(lines, name):
    """The inputs, the outputs and the lines of the covers, all but the inputs under their new names."""
    inputs, outputs, covers, within = [], [], [], False
    for words in lines:
        if words[0] in LEFT_OUT:
            sys.exit(f"one_text.py: {words[0].decode()}: let ABC write the network without it")
        within = words[0] == b".names" or within and not words[0].startswith(b".")
        if words[0] == b".inputs":
            inputs += words[1:]
        elif words[0] == b".outputs":
            outputs += map(name, words[1:])
        elif words[0] == b".names":
            covers.append([b".names", *map(name, words[1:])])
        elif within:
            covers.append(words)
    return inputs, outputs, covers


def main(first, second):
    others = list(lines_of(second))
    inputs, outputs, covers = parts(lines_of(first), lambda it: it)
    if sorted(inputs) != sorted(parts(others, lambda it: it)[0]):
        sys.exit("one_text.py: the two networks have different inputs")
    _, more, further = parts(others, lambda it: it if it in inputs else b"2." + it)
    for words in [[b".inputs", *inputs], [b".outputs", *outputs, *more], *covers, *further, [b".end"]]:
        sys.stdout.buffer.write(b" ".join(words) + b"\n")


if __name__ == "__main__":
    if len(sys.argv) != 3:
        sys.exit(__doc__)
    main(*sys.argv[1:])
