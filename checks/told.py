#!/usr/bin/env python3
"""In how many files each command is told that works place by place: at most ten beside its operator's, and at most five more of the library for C.

Counted are the sources, specs and proofs below crates/ that name what makes it, or a call by its name, in a line which is no comment and no
import. Left out are the crates of tests and of rows, those of the operators and of their numbers, rows that are computed, and what the
calls are for networks, which are no commands.
"""

import pathlib
import re
import sys

MOST, MOST_IN_LIBRARY = 10, 5
LIBRARY = {"dd", "dd_manager", "store_rows", "manager_tests"}
COMMANDS = {"Or": "or", "Xor": "xor", "Min": "min", "Max": "max", "Threshold": "threshold", "Plus": "plus", "Minus": "minus", "Times": "times", "Union": "union", "Meet": "meet", "Diff": "diff"}
TESTS = {"hit_tests", "store_tests", "seat_tests", "word_tests", "session_tests", "refused_calls", "truth_lists", "row_tests", "run_tests", "reader_rows"}
OPERATORS = {"node_store", "ite_core", "add_ops", "zdd_ops", "quantify_ops"}
OTHERS = re.compile(r"proofs/Rows|net_jobs/.*([Hh]osting|HostLaws)")
IMPORT = re.compile(r"(pub )?(ghost )?use ")


def lines_of(path):
    """The lines that are no comment and no import."""
    within = False
    for line in path.read_text().splitlines():
        text = line.strip()
        begins = IMPORT.match(text)
        if begins or within:
            within = path.suffix == ".rt" and not text.endswith(";")
        elif not text.startswith(("//", "--")):
            yield text


def main():
    crates = pathlib.Path(__file__).resolve().parent.parent / "crates"
    paths = [path for kind in ("src", "specs", "proofs") for path in crates.glob(f"*/{kind}/**/*") if path.suffix in (".rt", ".antt")]
    names = [path.relative_to(crates) for path in paths]
    names = [name for name in names if name.parts[0] not in TESTS | OPERATORS and not OTHERS.search(str(name))]
    texts = {name: "\n".join(lines_of(crates / name)) for name in names}
    most = most_in_library = 0
    for case, call in COMMANDS.items():
        word = re.compile(rf"Making::{case}\b|\b(bdds|adds|exacts|zdds)\.{case}\b|^{case}\(R, R\)|\b(ite_core|add_ops|zdd_ops)::{call}\(|\bsession\.{call}\(|\bfn {call}<", re.M)
        telling = sorted(path for path, text in texts.items() if word.search(text))
        in_library = [path for path in telling if path.parts[0] in LIBRARY]
        most, most_in_library = max(most, len(telling) - len(in_library)), max(most_in_library, len(in_library))
        if len(telling) - len(in_library) > MOST or len(in_library) > MOST_IN_LIBRARY:
            print(f"{call} is told in {len(telling)} files:", *map(str, telling), sep="\n")
    print(f"a command is told in at most {most} files beside its operator's, and in {most_in_library} of the library for C")
    sys.exit(most > MOST or most_in_library > MOST_IN_LIBRARY)


main()
