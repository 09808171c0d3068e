#!/usr/bin/env python3
"""Builds the programs of examples/c over the static library, compares what they write, and judges each function of the header.

usage: c_library.py [LIBRARY]

The programs are built with -Wall -Wextra -Werror, and once more with the checks of addresses and of undefined behaviour. A probe prints the
sizes and offsets of the header's structs, which have to be those that C gives the structs of the library's source; the numbers of statuses, and
of calls in the module for Python, are compared too. Then each function of the header makes functions of four variables, and families of eight
elements, and the values of each are compared with plain tables. Where there is no gcc, or no library, or where the one in crates/dd is older
than a source of it, nothing is done, and a line says so.
"""
import ctypes
import os
import pathlib
import random
import re
import shutil
import subprocess
import sys
import tempfile
from ctypes import POINTER, c_bool, c_int, c_int64, c_size_t, c_uint32, c_uint64, c_void_p

ROOT = pathlib.Path(__file__).resolve().parent.parent
EXAMPLES = ROOT / "examples/c"
LIBRARY = ROOT / "crates/dd/out/libdd.a"
SOURCES = ROOT / "crates/dd_manager/src"
WARNINGS = "-Wall -Wextra -Werror"
CHECKED = f"-g -O1 {WARNINGS} -fsanitize=address,undefined -fno-sanitize-recover=all"
VARIABLES, ELEMENTS, SLOTS, ROUNDS, SEED = 4, 8, 100_000, 25, 2026
PLACES = range(1 << VARIABLES)
faults = 0


def fault(*words):
    global faults
    faults += 1
    print("NOT AS DUE", *words)


def make(library, out, *words):
    command = ["make", "-s", "-k", "-C", str(EXAMPLES), f"LIBRARY={library}", f"OUT={out}", *words]
    ran = subprocess.run(command, stdout=subprocess.PIPE, stderr=subprocess.STDOUT, text=True)
    if ran.returncode:
        fault("make", *words, "\n" + ran.stdout[-2000:])


def compiled(room, name, text, *words):
    source = room / f"{name}.c"
    source.write_text(text)
    made = room / name
    words = ["gcc", "-std=c11", "-O1", *WARNINGS.split(), f"-I{EXAMPLES}", "-o", str(made), str(source), *map(str, words)]
    ran = subprocess.run(words, stderr=subprocess.PIPE, text=True)
    if ran.returncode:
        fault("gcc", name, "\n" + ran.stderr[-2000:])
        return None
    return made


# ---- structs and numbers

def laid_out(fields):
    """The offsets of numbers of these sizes, and the size of their struct, as C has them."""
    offsets, at = [], 0
    for size in fields:
        at = (at + size - 1) // size * size
        offsets.append(at)
        at += size
    most = max(fields)
    return offsets, (at + most - 1) // most * most


def look_at_layout(room):
    text = (SOURCES / "requests.rt").read_text()
    lines, due = [], {}
    for struct in ("Request", "Answer"):
        body = re.search(r"#\[repr\(C\)\]\n#\[derive[^\n]*\]\npub struct " + struct + r" \{\n(.*?)\n\}", text, re.S)[1]
        fields = re.findall(r"pub (\w+): [ui](\d+),", body)
        offsets, size = laid_out([int(bits) // 8 for _, bits in fields])
        in_c = "dd_" + struct.lower()
        due[in_c] = size
        lines.append(f'printf("{in_c} %zu\\n", sizeof({in_c}));')
        for (name, bits), offset in zip(fields, offsets):
            name = re.sub(r"^([fgh])_", r"\1.", name)
            if struct == "Answer" and name in ("manager", "row", "generation"):
                name = "made." + name
            due[f"{in_c}.{name}"] = (offset, int(bits) // 8)
            lines.append(f'printf("{in_c}.{name} %zu %zu\\n", offsetof({in_c}, {name}), sizeof(({in_c} *)0)->{name});')
    probe = compiled(room, "probe", '#include "dd.h"\n#include <stddef.h>\n#include <stdio.h>\nint main(void) {\n' + "\n".join(lines) + "\nreturn 0;\n}\n")
    told = subprocess.run([probe], stdout=subprocess.PIPE, text=True).stdout if probe else ""
    found = {words[0]: int(words[1]) if len(words) == 2 else tuple(map(int, words[1:])) for words in map(str.split, told.splitlines())}
    for name in due:
        if found.get(name) != due[name]:
            fault(f"{name}: {found.get(name)} in C, {due[name]} in the library")
    statuses = dict(re.findall(r"Status::(\w+) => (\d+),", (SOURCES / "statuses.rt").read_text()))
    header = dict(re.findall(r"DD_(\w+) = (\d+),? +/\*", (EXAMPLES / "dd.h").read_text()))
    if {("OK" if name == "Done" else name.upper()): number for name, number in statuses.items()} != header:
        fault(f"statuses: {header} in C, {statuses} in the library")
    return len(due)


# ---- the header's functions

class Handle(ctypes.Structure):
    _fields_ = [("manager", c_uint32), ("row", c_uint32), ("generation", c_uint64)]


TYPES = {"dd": Handle, "uint32_t": c_uint32, "int64_t": c_int64, "bool": c_bool, "size_t": c_size_t, "dd_kind": c_int}
FORMS = {"NO_HANDLE": "dd *out", "NUMBER": "uint32_t number, dd *out", "ONE": "dd f, dd *out", "ONE_NUMBER": "dd f, uint32_t number, dd *out",
         "TWO": "dd f, dd g, dd *out", "THREE": "dd f, dd g, dd h, dd *out", "OF_ORDER": "uint32_t number, int64_t *told"}


def functions_of(header):
    """The functions of the header by their names, each with the parameters behind the manager and its code."""
    found = {}
    for name, words, body in re.findall(r"static inline dd_status (dd_\w+)\(dd_manager \*m,? ?(.*?)\) \{(.*?)\}\n", header, re.S):
        codes = re.findall(r"(?:dd_ask\(m,|request = \{) ?(\d+),", body)
        found[name] = [word for word in words.split(", ") if word], int(codes[-1]) if codes else None
    for form, name, code in re.findall(r"^DD_(\w+)\((dd_\w+), (\d+)\)", header, re.M):
        found[name] = FORMS[form].split(", "), int(code)
    del found["dd_ask"]
    return found


class Header:
    """Calls of the header's functions as gcc compiled them: a list for a const pointer with its count, the others in order; answers the status and
    what the other pointers told."""

    def __init__(self, room, library):
        self.functions = functions_of((EXAMPLES / "dd.h").read_text())
        names = ["dd_open_remembering", "dd_close", *self.functions]
        text = '#include "dd.h"\n' + "".join(f"void *const at_{name} = (void *){name};\n" for name in names)
        make(library, room / "shared", "in_python")
        heap = room / "shared/heap.o"
        made = compiled(room, "header.so", text, "-shared", "-fPIC", library, heap)
        self.shared = ctypes.CDLL(str(made)) if made else None
        if made:
            self.open = ctypes.CFUNCTYPE(c_void_p, *5 * [c_uint32])(self.at("dd_open_remembering"))
            self.close = ctypes.CFUNCTYPE(None, c_void_p)(self.at("dd_close"))
            self.m = self.open(77, VARIABLES, ELEMENTS, SLOTS, 1000)
        self.called, self.made = set(), []

    def at(self, name):
        return c_void_p.in_dll(self.shared, f"at_{name}").value

    def call(self, name, *words):
        self.called.add(name)
        words, types, given, told = list(words), [c_void_p], [self.m], []
        for word in self.functions[name][0]:
            kind = TYPES[word.replace("const ", "").split()[0]]
            if word.startswith("const"):
                values = words.pop(0)
                types.append(POINTER(kind))
                given.append((kind * max(len(values), 1))(*values))
                count = len(values)
            elif "*" in word:
                types.append(POINTER(kind))
                told.append(kind())
                given.append(ctypes.byref(told[-1]))
            else:
                types.append(kind)
                given.append(count if kind is c_size_t else words.pop(0))
        status = ctypes.CFUNCTYPE(c_int, *types)(self.at(name))(*given)
        if not status:
            self.made += [value for value in told if isinstance(value, Handle)]
        return status, [value if isinstance(value, Handle) else value.value for value in told]

    def done(self, name, *words):
        """What a call tells that has to be done."""
        status, told = self.call(name, *words)
        if status:
            fault(f"{name}: status {status}")
        return told[0] if len(told) == 1 else told

    # A BDD is the list of its bits, an ADD that of its numbers, by the place: bit v of it is the value of variable v. A ZDD is a frozenset of
    # sets, each a number: bit e of it says whether the element e is in it.

    def bdd(self, table, v=VARIABLES):
        if v == 0:
            return self.done("dd_one" if table[0] else "dd_zero")
        low, high = table[:len(table) // 2], table[len(table) // 2:]
        return self.done("dd_ite", self.done("dd_var", v - 1), self.bdd(high, v - 1), self.bdd(low, v - 1))

    def add(self, table, v=VARIABLES):
        if v == 0:
            return self.done("dd_number", table[0])
        low, high = table[:len(table) // 2], table[len(table) // 2:]
        return self.done("dd_add_ite", self.done("dd_var", v - 1), self.add(high, v - 1), self.add(low, v - 1))

    def zdd(self, family):
        made = self.done("dd_empty")
        for one in family:
            of_one = self.done("dd_base")
            for e in range(ELEMENTS):
                if one >> e & 1:
                    of_one = self.done("dd_change", of_one, e)
            made = self.done("dd_union", made, of_one)
        return made

    def table(self, f):
        kind = self.done("dd_kind_of", f)
        values = [self.done("dd_eval", f, [bool(place >> v & 1) for v in range(ELEMENTS if kind == 2 else VARIABLES)]) for place in range(1 << (ELEMENTS if kind == 2 else VARIABLES))]
        return frozenset(place for place, value in enumerate(values) if value) if kind == 2 else values

    def through(self, f, kind):
        """The table of f by a walk over its nodes."""
        is_leaf, what = self.done("dd_top", f)
        if is_leaf:
            return what
        return what, self.through(self.done("dd_then", f), kind), self.through(self.done("dd_else", f), kind)


def put(place, v, bit):
    return place | 1 << v if bit else place & ~(1 << v)


def over(f, variables, join):
    for v in variables:
        f = [join(f[put(place, v, 0)], f[put(place, v, 1)]) for place in PLACES]
    return f


def fits(place, one):
    return all(place >> e // 2 & 1 != e % 2 for e in range(2 * VARIABLES) if one >> e & 1)


def cover(family):
    return [int(any(fits(place, one) for one in family)) for place in PLACES]


def along(node, place, is_family=False):
    """The value of a walk's nodes at a place."""
    seen = 0
    while isinstance(node, tuple):
        seen |= 1 << node[0]
        node = node[1 if place >> node[0] & 1 else 2]
    return int(node and not (is_family and place & ~seen)) if is_family else node


def cases_of(chance):
    """Calls with the tables of their operands, and the table of what they make, or what it has to be like."""
    bits = lambda: [chance.randrange(2) for _ in PLACES]
    numbers = lambda: [chance.choice([-3, -1, 0, 0, 1, 2, 5]) for _ in PLACES]
    family = lambda least=0: frozenset(chance.sample(range(1 << ELEMENTS), chance.randrange(least, 7)))
    few = lambda: frozenset(chance.sample([0, 1, 2, 3, 4, 5, 6, 8, 12, 16, 24], chance.randrange(1, 7)))
    f, g, h, a, b, s, t = bits(), bits(), bits(), numbers(), numbers(), family(), family()
    s, v, w, e, bit, z = s | frozenset(chance.sample(sorted(t), len(t) // 2)), *chance.sample(range(VARIABLES), 2), chance.randrange(ELEMENTS), chance.randrange(2), chance.choice([-1, 0, 1, 2])
    some = chance.sample(range(VARIABLES), chance.randrange(VARIABLES + 1))
    p, q = few(), few()
    inner = [x & y for x, y in zip(f, g)]
    depends = [u for u in range(VARIABLES) if any(inner[put(i, u, 0)] != inner[put(i, u, 1)] for i in PLACES)]
    yield "dd_one", [], [1 for _ in PLACES]
    yield "dd_zero", [], [0 for _ in PLACES]
    yield "dd_var", [v], [i >> v & 1 for i in PLACES]
    yield "dd_copy", [f], f
    yield "dd_not", [f], [1 - x for x in f]
    yield "dd_and", [f, g], inner
    yield "dd_or", [f, g], [x | y for x, y in zip(f, g)]
    yield "dd_xor", [f, g], [x ^ y for x, y in zip(f, g)]
    yield "dd_ite", [f, g, h], [y if x else z for x, y, z in zip(f, g, h)]
    yield "dd_restrict", [f, g], lambda made: all(x == y for x, y, z in zip(made, f, g) if z)
    yield "dd_support", [inner], [int(all(i >> u & 1 for u in depends)) for i in PLACES]
    yield "dd_pattern", [a], [int(x != 0) for x in a]
    yield "dd_cover_of", [s], cover(s)
    yield "dd_cofactor", [f, v, bool(bit)], [f[put(i, v, bit)] for i in PLACES]
    yield "dd_compose", [f, v, g], [f[put(i, v, g[i])] for i in PLACES]
    yield "dd_vector_compose", [f, [v, w], [g, h]], [f[put(put(i, v, g[i]), w, h[i])] for i in PLACES]
    yield "dd_at_least", [a, z], [int(x >= z) for x in a]
    yield "dd_exists", [f, some], over(f, some, lambda x, y: x | y)
    yield "dd_forall", [f, some], over(f, some, lambda x, y: x & y)
    yield "dd_and_exists", [f, g, some], over(inner, some, lambda x, y: x | y)
    yield "dd_number", [z], [z for _ in PLACES]
    yield "dd_from_bdd", [f], f
    yield "dd_min", [a, b], [min(x, y) for x, y in zip(a, b)]
    yield "dd_max", [a, b], [max(x, y) for x, y in zip(a, b)]
    yield "dd_threshold", [a, b], [x if x >= y else 0 for x, y in zip(a, b)]
    yield "dd_add_ite", [f, a, b], [y if x else z for x, y, z in zip(f, a, b)]
    yield "dd_plus", [a, b], [x + y for x, y in zip(a, b)]
    yield "dd_minus", [a, b], [x - y for x, y in zip(a, b)]
    yield "dd_times", [a, b], [x * y for x, y in zip(a, b)]
    yield "dd_sum_over", [a, v], [a[put(i, v, 0)] + a[put(i, v, 1)] for i in PLACES]
    yield "dd_empty", [], frozenset()
    yield "dd_base", [], frozenset([0])
    yield "dd_single", [e], frozenset([1 << e])
    yield "dd_union", [s, t], s | t
    yield "dd_meet", [s, t], s & t
    yield "dd_diff", [s, t], s - t
    yield "dd_product", [p, t], frozenset(x | y for x in p for y in t)
    yield "dd_quotient", [frozenset(x | y for x in p for y in q), q], frozenset(x for x in range(1 << ELEMENTS) if all(not x & y and x | y in {i | j for i in p for j in q} for y in q))
    yield "dd_subset1", [s, e], frozenset(x ^ 1 << e for x in s if x >> e & 1)
    yield "dd_subset0", [s, e], frozenset(x for x in s if not x >> e & 1)
    yield "dd_change", [s, e], frozenset(x ^ 1 << e for x in s)
    yield "dd_isop", [inner, f], lambda made: all(x <= y <= z for x, y, z in zip(inner, cover(made), f))


def judge(header, chance):
    """One round of calls, each over tables by chance, and questions about what they made."""
    kept = []

    def given(word, is_number):
        if isinstance(word, frozenset):
            return header.zdd(word)
        if isinstance(word, list) and len(word) == len(PLACES):
            return header.add(word) if is_number else header.bdd(word)
        return [given(each, False) for each in word] if isinstance(word, list) else word

    numbers = {"dd_pattern": [0], "dd_at_least": [0], "dd_min": [0, 1], "dd_max": [0, 1], "dd_threshold": [0, 1], "dd_add_ite": [1, 2], "dd_plus": [0, 1], "dd_minus": [0, 1],
               "dd_times": [0, 1], "dd_sum_over": [0]}
    for name, operands, due in cases_of(chance):
        made = header.done(name, *(given(word, place in numbers.get(name, [])) for place, word in enumerate(operands)))
        table = header.table(made)
        if not (due(table) if callable(due) else table == due):
            fault(f"{name} of {operands}: {table}, due {due}")
        kept.append((made, table))
    for made, table in kept:
        walk = header.through(made, None)
        is_family = isinstance(table, frozenset)
        if is_family:
            seen = frozenset(place for place in range(1 << ELEMENTS) if along(walk, place, True))
        else:
            seen = [along(walk, place) for place in PLACES]
        if seen != table:
            fault(f"a walk finds {seen}, not {table}")
    kinds = [header.done("dd_kind_of", made) for made, _ in kept]
    for (f, first), kind in zip(kept, kinds):
        g, second = chance.choice([each for each, other in zip(kept, kinds) if other == kind])
        if header.done("dd_same", f, g) != (first == second):
            fault(f"dd_same of {first} and {second}")
        if kind == 0 and header.done("dd_leq", f, g) != all(x <= y for x, y in zip(first, second)):
            fault(f"dd_leq of {first} and {second}")
    orders(header, chance)
    for made, table in kept:
        if header.table(made) != table:
            fault(f"behind swaps and sifts: {header.table(made)}, not {table}")
        header.done("dd_drop", made)
    dropped, made = {(made.row, made.generation) for made, _ in kept}, header.made
    for f in made:
        if header.call("dd_drop", f)[0] != (5 if (f.row, f.generation) in dropped else 0):
            fault("dd_drop of a handle that is", "dropped" if (f.row, f.generation) in dropped else "live")
    header.made = []
    used = header.done("dd_sweep")
    if used != 5 + VARIABLES:
        fault(f"dd_sweep: {used} slots in use once all is dropped")


def orders(header, chance):
    """Swaps and sifts, and the levels behind them."""
    for swap, sift, level, at, count in [("dd_swap", "dd_sift", "dd_level", "dd_at_level", VARIABLES), ("dd_swap_elements", "dd_sift_elements", "dd_element_level", "dd_element_at_level", ELEMENTS)]:
        order = [header.done(at, i) for i in range(count)]
        place = chance.randrange(count - 1)
        header.done(swap, place)
        order[place], order[place + 1] = order[place + 1], order[place]
        if [header.done(at, i) for i in range(count)] != order:
            fault(f"{swap} {place}")
        header.done(sift)
        found = [header.done(at, i) for i in range(count)]
        if sorted(found) != list(range(count)) or [header.done(level, x) for x in found] != list(range(count)):
            fault(f"{level} and {at}: {found}")


def judge_header(room, library):
    header = Header(room, library)
    if not header.shared:
        return 0
    if not header.m:
        fault("no manager was opened")
        return 0
    chance = random.Random(SEED)
    for _ in range(ROUNDS):
        judge(header, chance)
    header.done("dd_clear")
    header.done("dd_mark_all", [0, 1])
    f = header.bdd([i >> 1 & 1 for i in PLACES])
    header.done("dd_clear")
    if header.done("dd_value", f) != 0 or header.done("dd_set_bit", 1, True) or header.done("dd_value", f) != 1:
        fault("dd_set_bit and dd_value")
    header.close(header.m)
    for name in sorted(set(header.functions) - header.called):
        fault(f"{name} is judged by nothing")
    return len(header.functions) + 2


def look_at_module():
    """Whether the module for Python has the header's codes."""
    functions = {name[3:]: code for name, (_, code) in functions_of((EXAMPLES / "dd.h").read_text()).items()}
    text = (EXAMPLES / "dd.py").read_text()
    words = {"__invert__": "not", "__and__": "and", "__or__": "or", "__xor__": "xor", "__add__": "plus", "__sub__": "minus", "__mul__": "times", "otherwise": "else"}
    codes = {words.get(name, name): int(code) for name, code in re.findall(r"(\w+)=(\d+)", re.search(r"CODES = dict\((.*?)\)\n", text, re.S)[1])}
    singles = re.search(r"^(DROP[A-Z_, ]+) = ([\d, ]+)$", text, re.M)
    codes.update(zip(singles[1].lower().split(", "), map(int, singles[2].split(", "))))
    header = (EXAMPLES / "dd.h").read_text()
    functions.update(mark=int(re.search(r"dd_ask\(m, (\d+), [^;]*variables\[i\], 0, NULL", header)[1]), put=int(re.search(r"dd_ask\(m, (\d+), g\[i\]", header)[1]),
                     close=int(re.search(r"void dd_close.*?dd_ask\(m, (\d+)", header, re.S)[1]))
    for name, code in codes.items():
        if functions.get(name) != code:
            fault(f"dd.py: {name} is {code}, in dd.h {functions.get(name)}")


def is_older_than_a_source(library):
    lines = [re.split(r" *: *", line, maxsplit=1) for line in (ROOT / "crates.txt").read_text().splitlines() if ":" in line]
    below = {names.split()[0]: uses.split() for names, uses in lines}
    crates, left = set(), ["dd"]
    while left:
        crate = left.pop()
        if crate in below and crate not in crates:
            crates.add(crate)
            left += below[crate]
    return any(path.stat().st_mtime > library.stat().st_mtime for crate in crates for path in (ROOT / "crates" / crate / "src").rglob("*.rt"))


def skipped(library):
    """Why nothing can be done."""
    for tool in ("gcc", "make"):
        if not shutil.which(tool):
            return f"there is no {tool}"
    if not library.exists():
        return f"there is no {library} (rt lib in crates/dd builds it)"
    if library == LIBRARY.resolve() and is_older_than_a_source(library):
        return f"{library} is older than a source of it (rt lib in crates/dd builds it anew)"
    return None


def main():
    library = pathlib.Path(sys.argv[1] if len(sys.argv) > 1 else LIBRARY).resolve()
    why = skipped(library)
    if why:
        print(f"the library for C: skipped, since {why}")
        return 0
    kinds = ["check_c", "check_cpp"] if shutil.which("g++") else ["check_c"]
    if len(kinds) == 1:
        print("the class for C++: skipped, since there is no g++")
    with tempfile.TemporaryDirectory() as room:
        room = pathlib.Path(room)
        make(library, room / "plain", *kinds, "check_python")
        make(library, room / "checked", f"CFLAGS={CHECKED}", *kinds)
        fields = look_at_layout(room)
        look_at_module()
        functions = judge_header(room, library)
    print(f"the library for C: programs built and run, {fields} fields and sizes, {functions} functions of the header in {ROUNDS} rounds: {faults} faults")
    return 1 if faults else 0


sys.exit(main())
