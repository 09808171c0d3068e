"""Votes of five, by the module: BDDs, numbers and families."""
import itertools

import dd

m = dd.Manager(5, 5, 10000)
x = [m.var(v) for v in range(5)]
most = m.zero()
for three in itertools.combinations(x, 3):
    most |= three[0] & three[1] & three[2]
votes = m.number(0)
for f in x:
    votes += f.from_bdd()
print("three of five by numbers:", votes.at_least(3) == most)
print("places where three agree:", sum(most.value(bits) for bits in itertools.product([0, 1], repeat=5)), "of 32")
print("votes at 1 0 1 1 0:", votes.value([1, 0, 1, 1, 0]))
print("a vote less may lose:", not most <= most.cofactor(0, 0), most.cofactor(0, 0) <= most)
print("for some and for all of the first two:", most.exists([0, 1]) == x[2] | x[3] | x[4], most.forall([0, 1]) == x[2] & x[3] & x[4])
print("the first for the second, and back:", most.vector_compose({0: x[1], 1: x[0]}) == most, (x[0] & ~x[1]).vector_compose({0: x[1], 1: x[0]}) == x[1] & ~x[0])


def sets(family):
    """The sets of a family, by a walk down its diagram."""
    is_leaf, what = family.top()
    if is_leaf:
        return [set()] * what
    return [{what} | s for s in sets(family.then())] + sets(family.otherwise())


pairs = m.empty()
for a, b in itertools.combinations(range(5), 2):
    pairs = pairs.union(m.single(a).product(m.single(b)))
print("pairs:", len(sets(pairs)), "with the element 0:", sorted(min(s) for s in sets(pairs.subset1(0))))
for what, call in [("a variable that is none", lambda: m.var(5)), ("a number beyond all bounds", lambda: m.number(2**64)), ("a family where a BDD is wanted", lambda: most & pairs),
                   ("a function of another manager", lambda: most & dd.Manager(5, 5, 100).one()), ("too many variables", lambda: dd.Manager(2000, 0, 10000))]:
    try:
        call()
        print(what + ": not refused")
    except dd.Refused as refused:
        print(what + ":", refused)
del x, f, three, most, votes, pairs
print("slots in use when all is dropped:", m.sweep())
