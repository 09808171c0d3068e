"""Plays the worked rows with the program and judges each history that is due, as it stands and with one thing wrong.

usage: histories.py PROGRAM FILE..
"""
import subprocess
import sys

from legal import Illegal, TooLarge, judge
from rows import rows_of

OTHERS = {"yes": "no", "no": "yes", "ok": "full", "full": "ok", "overflow": "ok", "apart": "ok", "posted": "empty", "empty": "posted"}


def is_legal(job, history):
    try:
        judge(job, history)
        return True
    except Illegal:
        return False


def plays(row):
    """Whether what is due is a history."""
    return row.words == ["play"]


def went(program, row):
    """What a run says against the row, or nothing."""
    run = subprocess.run([program, *row.words], input=row.job.encode("latin-1"), capture_output=True)
    text = run.stdout.decode("latin-1")
    if run.returncode != row.status or run.stderr or not row.is_legal and text != row.text:
        return f"status {run.returncode}, {run.stderr!r} on standard error, and this text:\n{text}"
    try:
        return "" if row.status or not plays(row) or is_legal(row.job, text) else f"no legal history:\n{text}"
    except TooLarge:
        return ""


def with_another_reply(line):
    call, _, reply = line.rpartition(" -> ")
    if call.split()[2] in ("swap", "eswap"):
        return f"{call} -> yes"
    return f"{call} -> {OTHERS.get(reply) or int(reply) + 1}"


def with_one_thing_wrong(history, has_choices):
    """Histories that differ in one thing and are no longer legal."""
    *lines, last = history.removesuffix("\n").split("\n")
    for at, line in enumerate(lines):
        place, session, rest = line.split(" ", 2)
        before, behind = lines[:at], lines[at + 1 :]
        yield [*before, *behind, last]
        yield [*before, line, line, *behind, last]
        yield [*before, f"{place} {int(session) + 1} {rest}", *behind, last]
        yield [*before, *behind[:1], line, *behind[1:], last] if behind else [line + " ", last]
        if not has_choices:
            yield [*before, with_another_reply(line), *behind, last]
    yield [*lines, last.replace("left ", "left 1")]
    yield lines


def main(program, *files):
    played, judged, wrong, faults = 0, 0, 0, 0
    for row in [row for file in files for row in rows_of(open(file, encoding="latin-1").read())]:
        if row.is_paced:
            continue
        played += 1
        fault = went(program, row)
        if fault:
            print(f"NOT AS DUE {row.name}: {fault}")
            faults += 1
        elif row.status == 0 and plays(row) and not row.is_legal:
            try:
                judge(row.job, row.text)
            except TooLarge:
                continue
            judged += 1
            for lines in with_one_thing_wrong(row.text, " restrict " in row.job):
                wrong += 1
                history = "".join(line + "\n" for line in lines)
                if is_legal(row.job, history):
                    print(f"JUDGED LEGAL {row.name}:\n{history}")
                    faults += 1
    print(f"{played} rows played, {judged} histories and {wrong} with one thing wrong judged, {faults} faults")
    return faults > 0


sys.exit(main(*sys.argv[1:]))
