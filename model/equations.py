"""Equations by which a term is simplified without a change of its meaning."""
from terms import Term, preorder, term, within_limits

ELECT, DEFER, PLURALITY = term('elect'), term('defer'), term('plurality')
REJECT = term('rev', DEFER)     # rejects all

# of each equation: the word at the front of its left side, when it fits what stands behind, and its right side
EQUATIONS = (
    ('seq-defer-left', 'seq', lambda m, n: m is DEFER, lambda m, n: n),
    ('seq-defer-right', 'seq', lambda m, n: n is DEFER, lambda m, n: m),
    ('seq-elect', 'seq', lambda m, n: m is ELECT, lambda m, n: ELECT),
    ('seq-plurality', 'seq', lambda m, n: m is PLURALITY, lambda m, n: PLURALITY),
    ('seq-nobody', 'seq', lambda m, n: m is REJECT, lambda m, n: REJECT),
    ('rev-elect', 'rev', lambda m: m is ELECT, lambda m: DEFER),
    ('rev-rev', 'rev', lambda m: m.word == 'rev', lambda m: REJECT),
    ('par-same', 'par', lambda m, n: m is n, lambda m, n: m),
    ('par-elect-left', 'par', lambda m, n: m is ELECT, lambda m, n: ELECT),
    ('par-elect-right', 'par', lambda m, n: n is ELECT, lambda m, n: ELECT),
    ('par-nobody-left', 'par', lambda m, n: m is REJECT, lambda m, n: n),
    ('par-nobody-right', 'par', lambda m, n: n is REJECT, lambda m, n: m),
    ('loop-defer', 'loop', lambda k, m: m is DEFER, lambda k, m: DEFER),
    ('loop-loop', 'loop', lambda k, m: m.word == 'loop' and m.arguments[0] == k, lambda k, m: m),
    ('until-defer', 'until', lambda k, m: m is DEFER, lambda k, m: DEFER),
    ('until-until', 'until', lambda k, m: m.word == 'until' and m.arguments[0] == k, lambda k, m: m),
)

# two that make nothing smaller: only a list of steps may name them
REGROUPINGS = (
    ('seq-assoc-right', 'seq', lambda m, n: m.word == 'seq',
     lambda m, n: term('seq', m.arguments[0], term('seq', m.arguments[1], n))),
    ('seq-assoc-left', 'seq', lambda m, n: n.word == 'seq',
     lambda m, n: term('seq', term('seq', m, n.arguments[0]), n.arguments[1])),
)


def first_equation(of, equations=EQUATIONS):
    """The first equation that fits a term at its root: its name and the right side; or None."""
    for name, word, fits, right in equations:
        if of.word == word and fits(*of.arguments):
            return name, right(*of.arguments)
    return None


def next_step(of, place=0):
    """The place in preorder and the name of the next equation: parts come before what they are parts of."""
    behind = place + 1
    for part in of.parts:
        step = next_step(part, behind)
        if step is not None:
            return step
        behind += part.size
    found = first_equation(of)
    return None if found is None else (place, found[0])


def replaced(of, place, by):
    """The term with the part at this place replaced."""
    if place == 0:
        return by
    arguments, behind = [], 1
    for argument in of.arguments:
        if isinstance(argument, Term):
            inside = behind <= place < behind + argument.size
            behind += argument.size
            if inside:
                argument = replaced(argument, place - (behind - argument.size), by)
        arguments.append(argument)
    return term(of.word, *arguments)


def simplified(of):
    """The term to which no equation fits any more, and the steps that lead there."""
    steps = []
    step = next_step(of)
    while step is not None:
        steps.append(step)
        place, _ = step
        part = list(preorder(of))[place]
        of = replaced(of, place, first_equation(part)[1])
        step = next_step(of)
    return of, steps


def replayed(of, steps):
    """The term to which steps lead that somebody names, or None where one doesn't fit or leaves the limits."""
    for place, name in steps:
        if place >= of.size:
            return None
        named = [equation for equation in EQUATIONS + REGROUPINGS if equation[0] == name]
        found = first_equation(list(preorder(of))[place], named)
        if found is None:
            return None
        of = replaced(of, place, found[1])
        if not within_limits(of):
            return None
    return of
