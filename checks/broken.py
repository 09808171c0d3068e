#!/usr/bin/env python3
"""Has the program read broken texts, and looks at how each run ends.

usage: broken.py PROGRAM [COUNT [SEED]]

A broken text is an example or the text of a worked row of which one to ten bytes are changed, or parts are cut, doubled or exchanged,
once or a few times. There are COUNT of each of the three formats, each drawn by SEED and its number. Jobs are played; networks are built,
alone and with their outputs as a stored diagram and as a network; stored diagrams are loaded. Each run has to end with a status that its
command has. Where that is not 0, it has to write one line, which names a fault of that status and a line that is there, or is the one
behind the last. To standard error it writes nothing, and it takes less than two seconds of processor time. Of what is no fault only the
ends of the text are looked at: the other checks judge such texts.
"""
import collections
import concurrent.futures
import os
import pathlib
import random
import re
import subprocess
import sys
import time

from rows import rows_of

ROOT = pathlib.Path(__file__).resolve().parent.parent
COUNT, SEED = 1_500, 2026
SECONDS = 2
PATIENCE = 60
SHORTENING = 15
MOST_SHOWN = 5

# How the names of a format's examples end, and the words of the runs of each of its texts.
FORMATS = {
    "job": [["play"]],
    "blif": [["build"], ["build", "--store", "--blif"]],
    "dddmp": [["load"]],
}
STATUSES = {"play": {0, 5, 9, 10}, "build": {0, 3, 4, 5, 10}, "load": {0, 4, 5, 8, 10}}
LINES = {
    3: r"blif (\d+) (word|row|mixed|twice|too-many|left-out|model|formal|undefined|cycle|no-outputs)",
    4: r"full (\d+) of \1",
    5: r"memory",
    8: r"dddmp (\d+) (header|missing|count|node|order|variable|root|end)",
    9: r"job (\d+) (word|name|kind|range|limit|again)",
    10: r"too long",
    11: r"large \d+",
}
WHOLE = {"play": rb"(.*\n)?left \d+\n", "build": rb"inputs \d+\n.*\nnodes \d+\n", "load": rb"inputs \d+\n.*\nnodes \d+\n"}
WHOLE_BLIF = WHOLE["build"] + rb"\.ver .*\n\.end\n\.model dd\n.*\n\.end\n"
DIGITS, OTHER_BYTES = b"0123456789", b"019abfnrxz_T \n\n\t\r.-=#\\+:"


def examples_of(name):
    return [path.read_bytes() for path in sorted(ROOT.glob(f"examples/*.{name}"))]


def worked_of(command):
    """The texts that worked rows give a command."""
    files = sorted(ROOT.glob("crates/row_tests/data/*.rows"))
    rows = [row for file in files for row in rows_of(file.read_text(encoding="latin-1"))]
    texts = {row.job for row in rows if row.words[:1] == [command] and row.status != 2 and not row.is_paced}
    return sorted(text.encode("latin-1") for text in texts if text)


def part_of(rng, text):
    """Where a part of a text begins and ends: some bytes, or some lines, or all that stands behind a place."""
    places = range(len(text) + 1) if rng.random() < 0.5 else [0, *(found.end() for found in re.finditer(b"\n", text)), len(text)]
    first = rng.randrange(len(places))
    last = len(places) - 1 if rng.random() < 0.1 else min(first + rng.randint(1, 8), len(places) - 1)
    return places[first], places[last]


def changed(rng, text):
    """The text with one to ten bytes changed: digits mostly to digits, and others to bytes of the text."""
    text = bytearray(text)
    for _ in range(rng.choice((1, 1, 1, 2, 3, 5, 10)) if text else 0):
        place = rng.randrange(len(text))
        like = rng.choice(DIGITS if text[place] in DIGITS else text)
        text[place] = rng.choices((like, rng.choice(OTHER_BYTES), rng.randrange(256)), (6, 3, 1))[0]
    return bytes(text)


def cut(rng, text):
    first, last = part_of(rng, text)
    return text[:first] + text[last:]


def doubled(rng, text):
    first, last = part_of(rng, text)
    return text[:last] + text[first:]


def exchanged(rng, text):
    a, b, c, d = sorted([*part_of(rng, text), *part_of(rng, text)])
    return text[:a] + text[c:d] + text[b:c] + text[a:b] + text[d:]


def broken(rng, text):
    for _ in range(rng.choice((1, 1, 1, 2, 3))):
        text = rng.choice((changed, changed, cut, doubled, exchanged))(rng, text)
    return text


def ran(program, words, text):
    """The status of a run, and what it wrote to standard output and to standard error."""
    bounded = ["sh", "-c", f'ulimit -c 0; ulimit -S -t {SECONDS}; exec "$@"', "sh", program, *words]
    run = subprocess.run(bounded, input=text, capture_output=True, timeout=PATIENCE)
    return run.returncode, run.stdout, run.stderr


def names_a_line(text, status, number):
    """Whether a fault may be told at the line of this number."""
    lines = text.count(b"\n") + (text != b"" and not text.endswith(b"\n"))
    if status == 3:
        return min(lines, 1) <= number <= lines
    return 1 <= number <= lines + 1


def judged(words, text, status, out, err):
    """What is not as due of a run, or nothing."""
    came = f"status {status}, {err[:200]!r} on standard error, and {out[:200]!r}"
    if status == 0:
        whole = WHOLE_BLIF if "--blif" in words else WHOLE[words[0]]
        return came if err or not re.fullmatch(whole, out, re.DOTALL) else ""
    if err or status not in STATUSES[words[0]] | ({11} if "--blif" in words else set()):
        return came
    found = re.fullmatch(f"fault: {LINES[status]}\n", out.decode("latin-1"))
    if not found or status in (3, 8, 9) and not names_a_line(text, status, int(found[1])):
        return came
    return ""


def kind_of(status, out):
    """What a run says, in a word or two."""
    if status in (3, 8, 9):
        return out.decode("latin-1").split("\n")[0].split(" ")[-1]
    return f"status {status}" if status else "no fault"


def fault_of(program, words, text):
    """What is not as due of the run of a text, or nothing, and what it says in a word or two."""
    try:
        status, out, err = ran(program, words, text)
    except subprocess.TimeoutExpired:
        return f"no end within {PATIENCE} seconds", "no end"
    return judged(words, text, status, out, err), kind_of(status, out)


def shortened(is_wrong, text):
    """A text that is wrong too, and as short as one is found in some seconds."""
    until, size = time.monotonic() + SHORTENING, len(text) // 2
    while size and time.monotonic() < until:
        cuts = (text[:at] + text[at + size :] for at in range(0, len(text), size))
        shorter = next((one for one in cuts if time.monotonic() < until and is_wrong(one)), None)
        text, size = (text, size // 2) if shorter is None else (shorter, min(size, len(shorter) // 2))
    return text


def runs_of(program, name, texts, seed, number):
    """The runs of one broken text: the words of each, what is not as due, what it says, and the text."""
    rng = random.Random(f"{seed} {name} {number}")
    text = broken(rng, rng.choice(rng.choice(texts)))
    return [(number, words, *fault_of(program, words, text), text) for words in FORMATS[name]]


def show(program, name, seed, number, words, fault, text):
    """Prints a run that is not as due, with a shorter text where there is one."""
    shorter = shortened(lambda one: fault_of(program, words, one)[0] != "", text)
    print(f"NOT AS DUE {name} {number} of seed {seed}, {' '.join(words)}: {fault}\nof {len(text)} bytes, shortened: {shorter[:2000]!r}", flush=True)


def all_runs(pool, program, name, count, seed):
    """The runs of so many broken texts of a format, in order."""
    texts = [examples_of(name), worked_of(FORMATS[name][0][0])]
    for runs in pool.map(lambda number: runs_of(program, name, texts, seed, number), range(count)):
        yield from runs


def main(program, count=COUNT, seed=SEED):
    faults, played = 0, 0
    with concurrent.futures.ThreadPoolExecutor(os.cpu_count()) as pool:
        for name in FORMATS:
            told = collections.Counter()
            for number, words, fault, kind, text in all_runs(pool, program, name, count, seed):
                told[kind] += 1
                faults += fault != ""
                if fault and faults <= MOST_SHOWN:
                    show(program, name, seed, number, words, fault, text)
            played += told.total()
            print(f"{count} broken texts, {name}: " + ", ".join(f"{kind} {often}" for kind, often in told.most_common()))
    print(f"{played} runs of broken texts, seed {seed}: {faults} faults")
    return faults > 0


if __name__ == "__main__":
    sys.exit(main(sys.argv[1], *map(int, sys.argv[2:])))
