"""The names of properties: a word, and of three of them a number."""
from typing import NamedTuple, Optional

WORDS = (
    'ne', 'ea', 'el', 'defers', 'rejects', 'elim', 'nb', 'decr', 'dli', 'imono', 'dimono', 'dmono', 'mono',
    'cc', 'dcc', 'cprog', 'ccomp', 'neut')
NUMBERED = ('defers', 'rejects', 'elim')
ON_LIFTS = ('dli', 'imono', 'dimono', 'dmono', 'mono')


class Property(NamedTuple):
    word: str
    number: Optional[int] = None


def property_text(of):
    return of.word if of.number is None else f'{of.word}({of.number})'


# those that a report tells of, in its order
REPORTED = tuple(Property(word, 1 if word in NUMBERED else None) for word in WORDS)
