"""Terms: electoral modules, and compositions of them."""
import sys

# terms and derivations are gone through by recursion
sys.setrecursionlimit(200_000)

SCORES = ('plurality', 'borda', 'copeland', 'minimax', 'condorcet')
ELIMINATIONS = ('max', 'min', 'below', 'upto')
FIXED = ('pass', 'drop')
MODULES = ('elect', 'defer', 'pass', 'drop', 'plurality') + ELIMINATIONS
LOOPS = ('loop', 'until')

GREATEST_SIZE = 200
GREATEST_NESTING = 64
GREATEST_NUMBER = 1_000_000
GREATEST_MEMBER = 1024


class Term:
    """A word and its arguments: numbers, fixed orders (tuples), scores (words) and terms. Made by `term` alone."""
    __slots__ = ('word', 'arguments', 'parts', 'size', 'nesting', 'text')

    def __init__(self, word, arguments):
        self.word, self.arguments = word, arguments
        self.parts = tuple(part for part in arguments if isinstance(part, Term))
        self.size = 1 + sum(part.size for part in self.parts)
        self.nesting = 1 + max((part.nesting for part in self.parts), default=0)
        self.text = None

    def __repr__(self):
        return term_text(self)


_kept = {}


def term(word, *arguments):
    """The term of a word and its arguments: one object for each, so that equal terms are the same."""
    key = (word,) + arguments
    if key not in _kept:
        _kept[key] = Term(word, arguments)
    return _kept[key]


def term_text(of):
    """The text of a term as the program prints it."""
    if of.text is None:
        arguments = [argument_text(argument) for argument in of.arguments if argument != ()]
        of.text = of.word + ('(' + ','.join(arguments) + ')' if arguments else '')
    return of.text


def argument_text(argument):
    if isinstance(argument, Term):
        return term_text(argument)
    if isinstance(argument, tuple):
        return '[' + ','.join(map(str, argument)) + ']'
    return str(argument)


def is_module(of):
    return of.word in MODULES


def preorder(of):
    """The term and its parts, each before its own parts."""
    yield of
    for part in of.parts:
        yield from preorder(part)


def has_allowed_numbers(of):
    """Whether the numbers of this one node are within their limits."""
    if of.word in FIXED:
        number, order = of.arguments
        members = all(1 <= member <= GREATEST_MEMBER for member in order)
        return 1 <= number <= GREATEST_NUMBER and members and len(set(order)) == len(order)
    return of.word not in LOOPS or 1 <= of.arguments[0] <= GREATEST_NUMBER


def within_limits(of):
    fits = of.size <= GREATEST_SIZE and of.nesting <= GREATEST_NESTING
    return fits and all(has_allowed_numbers(node) for node in preorder(of))
