"""Writes rule files whose reports are dear to derive or to print into a folder, with the size and nesting of each."""
import sys
from functools import partial, reduce
from itertools import cycle, islice
from typing import NamedTuple


class Term(NamedTuple):
    text: str
    size: int = 1
    nesting: int = 1


def one(word, t):
    return Term(f"{word}{t.text})", t.size + 1, t.nesting + 1)


def two(word, t, u):
    return Term(f"{word}({t.text},{u.text})", t.size + u.size + 1, max(t.nesting, u.nesting) + 1)


rev, loop = partial(one, "rev("), partial(one, "loop(1,")
seq, par = partial(two, "seq"), partial(two, "par")


def times(n, step, t):
    return reduce(lambda t, _: step(t), range(n), t)


def left(word, parts):
    return reduce(lambda t, part: two(word, t, part), parts)


def right(word, parts):
    return reduce(lambda t, part: two(word, part, t), reversed(parts))


def balanced(word, parts):
    half = (len(parts) + 1) // 2
    return parts[0] if len(parts) == 1 else two(word, balanced(word, parts[:half]), balanced(word, parts[half:]))


def repeated(n, leaves):
    return list(islice(cycle(map(Term, leaves)), n))


def deep(word, leaves):
    """Parts for 63 levels, whose last 36 are of two leaves: the greatest size at the greatest nesting."""
    pairs = repeated(72, leaves)
    return repeated(28, leaves) + [two(word, t, u) for t, u in zip(pairs[::2], pairs[1::2])]


ELECT, DEFER, PASS, BORDA, COPELAND, LEAST = map(
    Term, ("elect", "defer", "pass(1)", "max(borda)", "max(copeland)", "min(copeland)"))
LEAVES = {"elect": ["elect"], "defer": ["defer"], "pass": ["pass(1)"], "drop": ["drop(1)"], "borda": ["max(borda)"],
          "copeland": ["max(copeland)"], "least-copeland": ["min(copeland)"]}
LEAVES["mixed"] = [*(leaf for leaves in LEAVES.values() for leaf in leaves), "plurality"]


def shapes():
    for name, leaves in LEAVES.items():
        for word in "seq", "par":
            yield f"{word}-left-{name}", left(word, deep(word, leaves))
            yield f"{word}-right-{name}", right(word, deep(word, leaves)[::-1])
            yield f"{word}-balanced-{name}", balanced(word, repeated(100, leaves))
        yield f"loops-{name}", times(56, loop, balanced("seq", repeated(72, leaves)))
        first, last = Term(leaves[0]), Term(leaves[-1])
        yield f"seq-of-par-{name}", times(31, lambda t: seq(par(t, first), last), first)
    for name in "elect", "pass", "copeland":
        yield f"revisions-{name}", times(63, rev, Term(*LEAVES[name]))
    yield "revisions-and-loops", times(31, lambda t: rev(loop(t)), COPELAND)


def properties():
    """Each level asks for a property of its part by way of several others, and mostly for one that it hasn't."""
    yield "dli-without", left("seq", [LEAST] + deep("seq", ["pass(1)"])[1:])
    yield "dli-then-without", left("seq", [PASS] + deep("seq", ["max(borda)"])[1:])
    yield "dli-par", times(31, lambda t: par(seq(Term("pass(2)"), t), Term("drop(2)")), PASS)
    yield "mono-par", balanced("par", [seq(BORDA, ELECT)] * 50)
    yield "mono-revisions", times(31, lambda t: seq(rev(t), ELECT), seq(BORDA, ELECT))
    yield "cc-right", right("seq", [LEAST] * 62 + [COPELAND, ELECT])
    yield "cc-right-without", right("seq", [LEAST] * 63 + [ELECT])
    yield "cc-left", left("seq", [seq(COPELAND, ELECT)] + [ELECT] * 62)
    yield "dcc-revisions", times(31, lambda t: rev(seq(t, ELECT)), COPELAND)
    yield "dcc-loops", times(31, lambda t: loop(seq(LEAST, t)), COPELAND)
    yield "ccomp-loops", times(31, lambda t: loop(seq(t, DEFER)), LEAST)


def disjointness():
    """Ways down the first parts of two chains at once: 98 over 49, or 124 over 62."""
    for name, kept in ("", 2), ("-without", 3):
        heads = Term("pass(2)"), Term(f"drop({kept})")
        yield f"disj-seq{name}", par(*(left("seq", [head] + [DEFER] * 49) for head in heads))
        yield f"disj-revisions{name}", par(*(times(62, rev, head) for head in heads))


def derivations():
    duel = seq(Term("pass(2)"), seq(rev(Term("plurality")), PASS))
    yield "duels", balanced("seq", [loop(par(duel, Term("drop(2)")))] * 20)
    yield "longest-derivation", times(24, lambda t: seq(BORDA, t), times(33, loop, balanced("seq", [PASS] * 60)))


def orders():
    """Leaves with a fixed order of all numbers, which stand under the names p and d."""
    p, d = Term("p"), Term("d")
    yield "orders-reasons", left("seq", [BORDA] + deep("seq", ["d"])[1:])
    yield "orders-disj", par(*(left("seq", [head] + [d] * 49) for head in (p, d)))
    yield "orders-derivation", times(24, lambda t: seq(BORDA, t), times(33, loop, balanced("seq", [p] * 60)))


ALL_NUMBERS = list(range(1, 1025))
BEFORE_ORDERS = f"p = pass(1,{ALL_NUMBERS});\nd = drop(1,{ALL_NUMBERS});\n"
for before, rules in ("", shapes), ("", properties), ("", disjointness), ("", derivations), (BEFORE_ORDERS, orders):
    for name, term in rules():
        assert term.size <= 200 and term.nesting <= 64, name
        with open(f"{sys.argv[1]}/{name}", "w") as file:
            file.write(f"{before}r = {term.text};\n")
        print(name, term.size, term.nesting)
