"""The worked rows as files have them: only what a run of the program from standard input to standard output can show."""
import re

ESCAPES = {"t": "\t", "r": "\r"}


class Row:
    def __init__(self, name):
        self.name, self.words, self.job, self.text = name, ["play"], "", ""
        self.status, self.is_paced, self.is_legal = 0, False, False

    def refuse(self, fault):
        self.status, self.text = 9, f"fault: job {fault}\n"


def plain(line):
    """The text that a line stands for."""
    end = "" if line.endswith("\\") else "\n"
    byte = lambda it: ESCAPES.get(it[1]) or chr(int(it[1][1:], 16))
    return re.sub(r"\\(x..|t|r)", byte, line.removesuffix("\\")) + end


def rows_of(text):
    rows, head, is_open = [], "", False
    for line in text.split("\n"):
        word, _, rest = line.partition(" ")
        if word == "|":
            head, is_open = (head if is_open else "") + plain(rest), True
            continue
        is_open = is_open and word in ("", "#")
        if word == "row" or word == "!" and ": " in rest:
            rows.append(Row(rest))
            if word == "!":
                fault, _, command = rest.partition(": ")
                rows[-1].job = head + plain(command).removesuffix("\n")
                rows[-1].refuse(fault)
        elif word == ">":
            rows[-1].job += plain(rest)
        elif word == "<":
            rows[-1].text += plain(rest)
        elif word == "!":
            rows[-1].refuse(rest)
        elif word == "status":
            rows[-1].status = int(rest)
        elif word == "words":
            rows[-1].words = rest.split()
        elif word in ("source", "sink", "feeds"):
            rows[-1].is_paced = True
        elif word == "legal":
            rows[-1].is_legal = True
    return rows
