"""Functions as values for Python, by ctypes over libdd.so. A call that is not done raises Refused, and each function stays as it was. A function
that nothing refers to is dropped, and a manager is closed once it and its functions are gone. A program with threads puts a lock round all calls."""
import ctypes
import itertools
import os
import pathlib
from ctypes import c_int64 as i64, c_uint32 as u32, c_uint64 as u64

STATUSES = ["ok", "memory", "full", "overflow", "apart", "handle", "kind", "range", "call", "closed"]
# The calls that make a function, by their names in dd.h or by Python's operators: those of a manager, and those of a function.
CODES = dict(one=1, zero=2, var=3, number=4, empty=5, base=6, single=7, __invert__=8, cofactor=9, exists=10, forall=11, vector_compose=12, support=13, at_least=14,
             pattern=15, cover_of=16, from_bdd=17, sum_over=18, subset1=19, subset0=20, change=21, __and__=22, __or__=23, __xor__=24, and_exists=25, compose=26,
             restrict=27, min=28, max=29, threshold=30, __add__=31, __sub__=32, __mul__=33, union=34, meet=35, diff=36, product=37, quotient=38, isop=39,
             ite=40, add_ite=41, then=63, otherwise=64)
DROP, SAME, VALUE, LEQ, SWEEP, MARK, CLEAR, SET_BIT, PUT, CLOSE, TOP = 51, 52, 53, 54, 55, 56, 57, 58, 59, 60, 62


class Handle(ctypes.Structure):
    _fields_ = [("manager", u32), ("row", u32), ("generation", u64)]


class Request(ctypes.Structure):
    _fields_ = [("call", u32), ("number", u32), ("f", Handle), ("g", Handle), ("h", Handle), ("value", i64)]


class Answer(ctypes.Structure):
    _fields_ = [("status", u32), ("number", u32), ("made", Handle), ("value", i64)]


library = ctypes.CDLL(os.environ.get("LIBDD", str(pathlib.Path(__file__).resolve().parent / "out/libdd.so")))
library.dd_size.restype, library.dd_size.argtypes = ctypes.c_size_t, []
library.dd_init.restype, library.dd_init.argtypes = None, [ctypes.c_void_p, u32, u32, u32, u32, u32]
library.dd_call.restype, library.dd_call.argtypes = Answer, [ctypes.c_void_p, Request]
NONE = Handle(2**32 - 1, 2**32 - 1, 2**64 - 1)


class Refused(Exception):
    pass


class Manager:
    opened = itertools.count()

    def __init__(self, variables, elements, slots, remembered=None):
        if remembered is None:
            remembered = max(slots // 8, 8192)
        memory = ctypes.create_string_buffer(library.dd_size() + 15)
        at = ctypes.addressof(memory) + 15 & ~15
        library.dd_init(at, next(self.opened) % 2**32, *(min(number, 2**32 - 1) for number in (variables, elements, slots, remembered)))
        self.memory, self.at = memory, at
        self.call(CLEAR)

    def call(self, code, *handles, number=0, value=0):
        if not (0 <= number < 2**32 and -2**63 <= value < 2**63):
            raise Refused("range")
        answer = library.dd_call(self.at, Request(code, number, *(handles + (NONE, NONE, NONE))[:3], value))
        if answer.status:
            raise Refused(STATUSES[answer.status])
        return answer

    def sweep(self):
        return self.call(SWEEP).value

    def __del__(self):
        if hasattr(self, "at"):
            library.dd_call(self.at, Request(CLOSE))


class Function:
    __hash__ = None

    def __init__(self, manager, handle):
        self.manager, self.handle = manager, handle

    def __del__(self):
        library.dd_call(self.manager.at, Request(DROP, 0, self.handle))

    def __eq__(self, other):
        return self.manager.call(SAME, self.handle, other.handle).value == 1

    def __le__(self, other):
        return self.manager.call(LEQ, self.handle, other.handle).value == 1

    def value(self, bits):
        """At the values of the first variables, or for the set of the elements whose bits are 1; the others are 0."""
        tell(self.manager, [(SET_BIT, (), dict(number=number, value=int(bit))) for number, bit in enumerate(bits)])
        return self.manager.call(VALUE, self.handle).value

    def top(self):
        """Whether it is a leaf, and its value, or else the variable, or the element, at its top."""
        answer = self.manager.call(TOP, self.handle)
        return answer.number == 0, answer.value


def tell(manager, calls):
    manager.call(CLEAR)
    for code, handles, numbers in calls:
        manager.call(code, *handles, **numbers)


def making(code):
    """A call: of functions, of numbers, of a list of variables, or of a dict of functions that are put for variables."""
    def make(self, *words):
        manager, functions, numbers = (self, [], []) if code < 8 else (self.manager, [self], [])
        for word in words:
            if isinstance(word, dict):
                tell(manager, [(PUT, (f.handle,), dict(number=variable)) for variable, f in word.items()])
            elif isinstance(word, list):
                tell(manager, [(MARK, (), dict(number=variable)) for variable in word])
            else:
                (functions if isinstance(word, Function) else numbers).append(word)
        names = ["value"] if code in (CODES["number"], CODES["at_least"]) else ["number", "value"]
        return Function(manager, manager.call(code, *(f.handle for f in functions), **dict(zip(names, numbers))).made)
    return make


for name, code in CODES.items():
    setattr(Manager if code < 8 else Function, name, making(code))
