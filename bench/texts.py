"""Has the program read texts that were chosen to be dear for a reader, each at n, 2n and 4n bytes up to the longest text that is read, and
prints a table of the seconds of processor time and the greatest size in MB of whole runs, with their status and last line.

usage: texts.py PROGRAM [MOST]

MOST is the length of the longest, 67,108,864 bytes where it is left out. Each run has 4 GB of addresses and a stack of 256 kB.
"""
import os
import subprocess
import sys
import tempfile

MOST = 67_108_864
BOUNDED = ["sh", "-c", 'ulimit -v 4194304; ulimit -s 256; exec "$@"', "sh"]
PIECE = 65_536
SCRIPT = "vars 1024\nsession\na = var 0\n"
STORED = ".ver DDDMP-2.0\n.mode A\n.varinfo 0\n.nnodes 1\n.nvars 1\n.nsuppvars 0\n"


def filled(head, part, size, tail=""):
    """So many bytes in pieces: the head, the same part again and again, and the tail."""
    count = (size - len(head) - len(tail)) // len(part)
    at_once = PIECE // len(part)
    yield head
    for _ in range(count // at_once):
        yield part * at_once
    yield part * (count % at_once) + tail


def numbered(head, line, size):
    """The head, and as many lines with a number each as so many bytes have room for."""
    yield head
    yield from map(line, range((size - len(head)) // len(line(0))))


def composed(size):
    """Compositions of a variable with itself put for all variables."""
    pairs = " ".join(f"{v} a" for v in range(1024))
    return numbered(SCRIPT, lambda at: f"r{at:08} = vcompose a {pairs}\n", size)


def registers(size):
    return numbered(SCRIPT, lambda at: f"{'r' * 24}{at:08} = not a\n", size)


def numbers(size):
    return numbered(SCRIPT, lambda at: f"r{at:08} = num {at + 10**7 << 20}\n", size)


def signals(size):
    return numbered(".inputs", lambda at: f" {'s' * 1000}{at:08}", size)


def covers(size):
    return numbered(".inputs a\n.outputs f\n", lambda at: f".names {'s' * 24}{at:08}\n", size)


# The command of a run, and a text of so many bytes, which is refused or played.
TEXTS = {
    "one line of blanks, play": ("play", lambda size: filled("", " ", size)),
    "one line of blanks, build": ("build", lambda size: filled("", " ", size)),
    "one line of blanks, load": ("load", lambda size: filled("", " ", size)),
    "one word, play": ("play", lambda size: filled("", "a", size)),
    "one word, build": ("build", lambda size: filled("", "a", size)),
    "one word, load": ("load", lambda size: filled("", "a", size)),
    "words of one byte, play": ("play", lambda size: filled("", "a ", size)),
    "words of one byte, build": ("build", lambda size: filled(".inputs", " a", size)),
    "words of one byte, load": ("load", lambda size: filled("", "a ", size)),
    "empty lines, play": ("play", lambda size: filled("", "\n", size)),
    "empty lines, build": ("build", lambda size: filled("", "\n", size)),
    "comments, play": ("play", lambda size: filled("", "# no words\n", size)),
    "comments, build": ("build", lambda size: filled("", "# no words\n", size)),
    "joined lines of nothing": ("build", lambda size: filled("", "\\\n", size)),
    "one cover of many inputs": ("build", lambda size: filled(".inputs a\n.outputs a\n.names", " a", size)),
    "rows of one cover": ("build", lambda size: filled(".inputs a\n.outputs f\n.names a f\n", "1 1\n", size)),
    "many ids": ("load", lambda size: filled(STORED + ".ids", " 0", size)),
    "many roots, and one is told": ("load", lambda size: filled(STORED + ".ids\n.permids\n.nroots 1\n.rootids", " 1", size, "\n.nodes\n")),
    "one exists of many variables": ("play", lambda size: filled(SCRIPT + "b = exists a", " 0", size)),
    "same a a, line by line": ("play", lambda size: filled(SCRIPT, "same a a\n", size)),
    "vcompose of all variables, line by line": ("play", composed),
    "registers with one head of 24 bytes": ("play", registers),
    "numbers that are multiples of 2^20": ("play", numbers),
    "signals with one head of 1,000 bytes": ("build", signals),
    "covers of names with one head": ("build", covers),
}


def measured(words, pieces):
    """The status, the seconds of processor time, the greatest size in MB and the last line of a run."""
    with tempfile.TemporaryFile("w+") as source, tempfile.TemporaryFile() as sink:
        source.writelines(pieces)
        source.seek(0)
        child = subprocess.Popen([*BOUNDED, *words], stdin=source, stdout=sink)
        _, status, used = os.wait4(child.pid, 0)
        sink.seek(-min(200, sink.seek(0, os.SEEK_END)), os.SEEK_END)
        last = sink.read().decode(errors="replace").rstrip("\n").rpartition("\n")[2]
        return os.waitstatus_to_exitcode(status), used.ru_utime + used.ru_stime, used.ru_maxrss / 1024, last


def main(program, most=MOST):
    print(f"{'text':<42}{'MiB':>6}{'seconds':>9}{'MB':>7}  status and last line")
    for name, (command, text) in TEXTS.items():
        for size in (most // 4, most // 2, most):
            status, seconds, megabytes, last = measured([program, command], text(size))
            print(f"{name:<42}{size / 2**20:>6.1f}{seconds:>9.2f}{megabytes:>7.0f}  {status} {last}", flush=True)


main(sys.argv[1], *map(int, sys.argv[2:]))
