"""How a rule came to its result, and who is preferred to whom, as the program prints them."""

from __future__ import annotations

from dataclasses import dataclass, field
from typing import Dict, FrozenSet, Iterator, List, Mapping, Optional, Tuple

from .answers import Lines, Result, _numbers, _result
from .terms import Term

_TOO_LONG = b"explanation too long\n"


@dataclass(frozen=True)
class Visit:
    """A part of a rule that was asked about some alternatives, and what it made of them.

    Places are counted from 0, in the order of `preorder` of the rule. A part that goes by scores has the score of each
    of the alternatives, on the ballots restricted to them; of any other, `scores` is None.
    """

    place: int
    term: Term
    domain: FrozenSet[int]
    scores: Optional[Mapping[int, int]]
    result: Result


@dataclass(frozen=True)
class Account:
    """A visit with those that it follows from: of its parts, and of a loop those of its rounds."""

    visit: Visit
    below: Tuple[Account, ...]


@dataclass(frozen=True)
class Explanation:
    """How a rule came to its result on a profile: the visits of its parts, in the order in which they were asked.

    `text` is what the program printed.
    """

    term: Term
    alternatives: int
    voters: int
    visits: Tuple[Visit, ...]
    text: bytes = field(repr=False)

    @property
    def result(self) -> Result:
        """What the whole rule made of all alternatives: the last visit tells it."""
        return self.visits[-1].result

    @property
    def names(self) -> Mapping[int, str]:
        """The names that the profile gives, by number."""
        return self.result.names

    @property
    def account(self) -> Account:
        """The visits as a tree: the last one, with those that it follows from."""
        return _accounts(self.visits, self.term)


@dataclass(frozen=True)
class Pairs:
    """How many voters of a profile put one alternative before another, and the Condorcet winner, if there is one.

    Row x - 1 of the matrix has the numbers of voters who put x before 1, before 2, and so on, with 0 for x itself.
    """

    alternatives: int
    voters: int
    names: Mapping[int, str]
    matrix: Tuple[Tuple[int, ...], ...]
    winner: Optional[int]
    text: bytes = field(repr=False)

    def prefer(self, one: int, other: int) -> int:
        """How many voters put the one before the other."""
        return self.matrix[one - 1][other - 1]

    def margin(self, one: int, other: int) -> int:
        """How many more voters put the one before the other than behind it."""
        return self.prefer(one, other) - self.prefer(other, one)


def read_explanation(text: bytes) -> Explanation:
    """The explanation that `explain` printed."""
    lines = Lines(text)
    term = Term.printed(lines.after("rule "))
    alternatives, voters, names = _profile(lines)
    parts = list(term.preorder())
    visits = []
    while lines.more():
        visits.append(_visit(lines, parts, names))
    explained = Explanation(term, alternatives, voters, tuple(visits), text)
    if not visits or visits[-1].place != 0:
        raise ValueError("the text doesn't end with the whole rule")
    return explained


def read_explained(text: bytes) -> Optional[Explanation]:
    """The same, and None where the program printed that it would be too long."""
    return None if text == _TOO_LONG else read_explanation(text)


def read_pairs(text: bytes) -> Pairs:
    """The pairs that `pairs` printed."""
    lines = Lines(text)
    alternatives, voters, names = _profile(lines)
    rows = []
    for one in range(1, alternatives + 1):
        rows.append(tuple(map(int, lines.after(f"prefer {one}:").split())))
        if len(rows[-1]) != alternatives:
            raise ValueError(f"a row of {len(rows[-1])} numbers for {alternatives} alternatives")
    winner = lines.after("condorcet winner: ")
    lines.end()
    return Pairs(alternatives, voters, names, tuple(rows), None if winner == "none" else int(winner), text)


def _profile(lines: Lines) -> Tuple[int, int, Dict[int, str]]:
    alternatives = int(lines.after("alternatives "))
    voters = int(lines.after("voters "))
    names = {}
    while lines.begins("name "):
        number, _, name = lines.after("name ").partition(": ")
        names[int(number)] = name
    return alternatives, voters, names


def _visit(lines: Lines, parts: List[Term], names: Mapping[int, str]) -> Visit:
    if lines.after("") != "":
        raise ValueError("a step doesn't stand behind an empty line")
    place, _, head = lines.after("at ").partition(" ")
    term = parts[int(place)]
    if head != _head(term):
        raise ValueError(f"at place {place} of the rule stands {term}, and not {head}")
    domain = _numbers(lines.after("of:"))
    scores = None
    if lines.begins("scores:"):
        told = (score.split("=") for score in lines.after("scores:").split())
        scores = {int(member): int(score) for member, score in told}
    return Visit(int(place), term, domain, scores, _result(lines, names))


def _head(term: Term) -> str:
    """How a visit names a term: a module whole, a composition by its word, with the number of a loop."""
    return term.head() if not term.parts or term.number is not None else term.word


def _accounts(visits: Tuple[Visit, ...], whole: Term) -> Account:
    rest = iter(visits)

    def account(place: int, term: Term, given: Iterator[Visit]) -> Account:
        below: List[Account] = []
        if term.word in ("loop", "until"):
            return rounds(place, term, given)
        behind = place + 1
        for part in term.parts:
            below.append(account(behind, part, given))
            behind += part.size
        return Account(next(given), tuple(below))

    def rounds(place: int, term: Term, given: Iterator[Visit]) -> Account:
        below: List[Account] = []
        while True:
            visit = next(given)
            if visit.place == place:
                return Account(visit, tuple(below))
            below.append(account(place + 1, term.parts[0], _again(visit, given)))

    return account(0, whole, rest)


def _again(visit: Visit, given: Iterator[Visit]) -> Iterator[Visit]:
    yield visit
    yield from given
