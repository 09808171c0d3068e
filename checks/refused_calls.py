#!/usr/bin/env python3
"""Runs refused_calls while each of its calls for memory in turn is refused, alone and with all behind it, and judges what it tells.

usage: refused_calls.py PROGRAM

PROGRAM is crates/refused_calls/out/refused_calls, which the gate builds. refusing.c, which is built here, stands before the C library's
calls for memory. For each kind of call of a session the program tells whether rows, their values and the board were as before, whether the
call came out as due, and whether it was refused first. Where one call for memory is refused, at most one kind is told to be refused, and the
second call of it is served; where all behind it are refused too, that is told to be refused twice, and the program ends where the next store
is to be opened. Each kind has to be refused at least once either way, but for a copy and a fetch, which take no memory. The gate does not run
this; it needs a C compiler.
"""
import os
import pathlib
import subprocess
import sys
import tempfile
from collections import Counter

CHECKS = pathlib.Path(__file__).resolve().parent
SECONDS = 10
MOST_SHOWN = 5
TAKE_NO_MEMORY = {"copy", "fetch"}


def ran(program, room, at, has_all):
    """The lines of a run, what is wrong with how it ended, or nothing, and how many calls for memory it made."""
    count = room / "count"
    count.write_bytes(bytes(8))
    refusing = {"LD_PRELOAD": room / "refusing.so", "REFUSE_AT": str(at), "REFUSE_ALL": str(int(has_all)), "REFUSE_COUNT": count}
    try:
        run = subprocess.run([program], capture_output=True, text=True, timeout=SECONDS, env=os.environ | refusing)
    except subprocess.TimeoutExpired:
        return [], f"no end within {SECONDS} seconds", 0
    wrong = f"status {run.returncode}, {run.stderr[:200]!r} on standard error" if run.returncode or run.stderr else ""
    return run.stdout.splitlines(), wrong, int.from_bytes(count.read_bytes(), sys.byteorder)


def told(lines):
    """Each kind of a run with what is told of it, and whether the run ended in want of memory."""
    has_ended = lines[-1:] == ["no memory"]
    return [tuple(line.split(" ", 1)) for line in lines[: len(lines) - has_ended]], has_ended


def refused(kinds, lines, has_all):
    """The kinds that were refused in a run that came out as due; anything else is an error."""
    came, has_ended = told(lines)
    again = "ok refused twice" if has_all else "ok refused"
    found = [kind for kind, what in came if what == again]
    if any(what not in (again, "ok served") for _, what in came) or len(found) > 1:
        raise ValueError("a line that is not due")
    if [kind for kind, _ in came] != kinds[: len(came)] or has_ended != (len(came) < len(kinds)) or has_ended and not has_all:
        raise ValueError("another end")
    if found and has_all and (came[-1][0] != found[0] or not has_ended and found != kinds[-1:]):
        raise ValueError("a call behind one that was refused was served with memory")
    return found


def tried(program, room, kinds, count, has_all):
    """How often each kind was refused while each of so many calls for memory was, and how many runs did not come out as due."""
    often, faults = Counter(), 0
    for at in range(1, count + 1):
        lines, wrong, _ = ran(program, room, at, has_all)
        try:
            if wrong:
                raise ValueError(wrong)
            often.update(refused(kinds, lines, has_all))
        except ValueError as fault:
            faults += 1
            if faults <= MOST_SHOWN:
                print(f"NOT AS DUE without call {at}{' and all behind it' if has_all else ''}: {fault}: {lines}", flush=True)
    return often, faults


def unlike(kinds, often):
    """The kinds that should have been refused and were not, or the other way round."""
    return [kind for kind in kinds if (often[kind] > 0) == (kind in TAKE_NO_MEMORY)]


def main(program):
    with tempfile.TemporaryDirectory() as name:
        room = pathlib.Path(name)
        subprocess.run(["cc", "-shared", "-fPIC", "-O2", "-o", room / "refusing.so", CHECKS / "refusing.c"], check=True)
        lines, wrong, count = ran(program, room, 0, False)
        came, has_ended = told(lines)
        kinds = [kind for kind, _ in came]
        if wrong or has_ended or not kinds or any(what != "ok served" for _, what in came):
            print(f"NOT AS DUE with all memory: {wrong} {lines}")
            return 1
        alone, faults = tried(program, room, kinds, count, False)
        behind, more = tried(program, room, kinds, count, True)
    faults += more
    for kind in kinds:
        print(f"{alone[kind]:5} times refused alone, {behind[kind]:5} times with all behind it: {kind}")
    for often in (alone, behind):
        for kind in unlike(kinds, often):
            faults += 1
            print(f"NOT AS DUE {kind}: refused {often[kind]} times")
    print(f"{len(kinds)} kinds of calls, {count:,} calls for memory, {2 * count:,} runs: {faults} faults")
    return faults > 0


if __name__ == "__main__":
    sys.exit(main(*sys.argv[1:]))
