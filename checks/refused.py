#!/usr/bin/env python3
"""Plays worked rows with the program while each of its calls for memory in turn is refused, alone and with all behind it.

usage: refused.py PROGRAM

refusing.c, which is built here, stands before the C library's calls for memory, counts them and refuses some. Of a row the first call is
refused, then the second, and so on, until a run ends before it comes to the call. Each run has to end within ten seconds, with status 5
and `fault: memory` or as the row says: with its status and its whole text, or with a legal history of its job where sessions run at once.
It writes nothing to standard error. The gate does not run this; it needs a C compiler.
"""
import itertools
import os
import pathlib
import subprocess
import sys
import tempfile
from collections import Counter

from legal import Illegal, judge
from rows import rows_of

CHECKS = pathlib.Path(__file__).resolve().parent
SECONDS = 10
MOST_SHOWN = 5

# The rows by the files that they stand in.
ROWS = {
    "plays": ["a conjunction is 1 where both variables are"],
    "networks": [
        "four outputs of two inputs, with constants and a row that begins with a blank",
        "the summary of two numbers of eight bits",
        "the same by four workers",
        "the summary of two numbers of one bit",
    ],
    "diagrams": [
        "the stored diagram of an exclusive or",
        "an exclusive or is loaded",
        "a text without its end is not loaded",
        "a then child behind its line",
        "a then child with a sign",
        "node lines of four fields",
        "a diagram under the other order is reported under that of rising numbers",
    ],
    "sessions": ["two sessions and two cells, where only the order of the posts and fetches is open"],
}


def rows():
    for name, wanted in ROWS.items():
        text = (CHECKS.parent / f"crates/row_tests/data/{name}.rows").read_text(encoding="latin-1")
        found = {row.name: row for row in rows_of(text)}
        yield from (found[row] for row in wanted)


def ran(program, room, row, at, has_all):
    """The status of a run, what it wrote to standard output and to standard error, and how many calls for memory it made."""
    count = room / "count"
    count.write_bytes(bytes(8))
    refusing = {"LD_PRELOAD": room / "refusing.so", "REFUSE_AT": str(at), "REFUSE_ALL": str(int(has_all)), "REFUSE_COUNT": count}
    run = subprocess.run(
        [program, *row.words],
        input=row.job.encode("latin-1"),
        capture_output=True,
        timeout=SECONDS,
        env=os.environ | refusing,
    )
    return run.returncode, run.stdout, run.stderr, int.from_bytes(count.read_bytes(), sys.byteorder)


def judged(row, was_refused, status, out, err):
    """What is not as due of a run, or nothing."""
    came = f"status {status}, {err[:200]!r} on standard error, and {out[:400]!r}"
    if err:
        return came
    if status == 5:
        return "" if out == b"fault: memory\n" and was_refused else came
    text = out.decode("latin-1")
    if status != row.status or not row.is_legal and text != row.text:
        return came
    try:
        if row.is_legal:
            judge(row.job, text)
    except Illegal as fault:
        return f"no legal history, {fault}: {came}"
    return ""


def runs(program, room, row, has_all):
    """The runs of a row, each with the number of the call that was to be refused, the status, and what is not as due, or nothing."""
    for at in itertools.count(1):
        try:
            status, out, err, count = ran(program, room, row, at, has_all)
        except subprocess.TimeoutExpired:
            yield at, None, f"no end within {SECONDS} seconds, and no further call is tried"
            return
        yield at, status, judged(row, at <= count, status, out, err)
        if at > count:
            return


def main(program):
    told, faults = Counter(), 0
    with tempfile.TemporaryDirectory() as name:
        room = pathlib.Path(name)
        subprocess.run(["cc", "-shared", "-fPIC", "-O2", "-o", room / "refusing.so", CHECKS / "refusing.c"], check=True)
        for row in rows():
            of_row = Counter()
            for has_all in (False, True):
                for at, status, fault in runs(program, room, row, has_all):
                    of_row[status] += 1
                    faults += fault != ""
                    if fault and faults <= MOST_SHOWN:
                        print(f"NOT AS DUE {row.name}, without call {at}{' and all behind it' if has_all else ''}: {fault}", flush=True)
            if not of_row[5]:
                faults += 1
                print(f"NOT AS DUE {row.name}: no want of memory was told")
            print(f"{of_row.total():6} runs, {of_row[5]:6} of them in want of memory: {row.name}", flush=True)
            told += of_row
    print(f"{sum(map(len, ROWS.values()))} rows, {told.total():,} runs, {told[5]:,} of them in want of memory: {faults} faults")
    return faults > 0


if __name__ == "__main__":
    sys.exit(main(*sys.argv[1:]))
