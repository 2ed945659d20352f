"""The rules of derivation and the properties, read from the page docs/RULES.md, which lies beside an installed module.

Rules are matched with judgements here, so that each node of a derivation can be told what it concludes. What a word of
the page stands for is what the page says: m and n are the parts of a term, t is the whole term and u the other one, k a
number and o a fixed order.
"""

from __future__ import annotations

import re
from dataclasses import dataclass
from functools import lru_cache
from pathlib import Path
from typing import Dict, List, Optional, Tuple, Union

from .terms import Term, Tree, read_tree

_BESIDE = Path(__file__).with_name("RULES.md")
_PAGE = _BESIDE if _BESIDE.is_file() else Path(__file__).resolve().parents[2] / "docs" / "RULES.md"

_HEADING = re.compile(r"### .*: `([^`]*)`$")
_RULE = re.compile(r'\| (\d+) \| <a id="[^"]*"></a>`([^`]*)` \| (.*?) \| ?(.*?) ?\|$')
_PROPERTY = re.compile(r'\| <a id="property-([^"]*)"></a>`([^`]*)` \| (.*?) \| (.*?) \|$')
_WHY = re.compile(r"- `([a-z0-9-]+)`: (.*)$")
_NOTES = ("Lifts", "Renaming", "Disjoint terms")
_LETTERS = ("k", "m", "n", "o", "t", "u")

# the properties that speak of an alternative that is lifted: of an elected one, or of a deferred one
OF_ELECTED = ("imono", "mono")
OF_DEFERRED = ("dli", "dimono", "dmono")
ON_LIFTS = OF_ELECTED + OF_DEFERRED

Value = Union[Term, int, Tuple[int, ...]]


class DoesNotFit(ValueError):
    """A rule doesn't conclude this judgement."""


@dataclass(frozen=True, repr=False)
class Judgement:
    """That a term has a property, or that two terms are disjoint (`property` is then `disj`)."""

    property: str
    terms: Tuple[Term, ...]

    @classmethod
    def read(cls, text: str) -> Judgement:
        """The judgement of a printed text. Anything else is a ValueError."""
        words = text.split(" ")
        if len(words) < 3 or words[1::2] != ["of", "and"][: len(words) // 2] or len(words) % 2 == 0:
            raise ValueError(f"not a judgement: {text!r}")
        return cls(words[0], tuple(map(Term.printed, words[2::2])))

    def __str__(self) -> str:
        return f"{self.property} of {' and '.join(map(str, self.terms))}"

    def __repr__(self) -> str:
        return f"<Judgement {self}>"


@dataclass(frozen=True)
class Property:
    """What the page says of a property: its text, as `defers(k)`, its term in words, and what it says."""

    text: str
    term: str
    says: str


@dataclass(frozen=True)
class Rule:
    """A rule of derivation, in the words of the page: what it concludes, its premises, and why it is sound."""

    number: int
    name: str
    conclusion: str
    premises: Tuple[str, ...]
    why: str

    def premises_of(self, judgement: Judgement) -> Tuple[Judgement, ...]:
        """What the rule asks for, to conclude this judgement. DoesNotFit where it doesn't conclude it."""
        values: Dict[str, Value] = {}
        if not _concludes(self.conclusion, judgement, values):
            raise DoesNotFit(f"{self.name} doesn't conclude {judgement}")
        return tuple(_premise(text, values) for text in self.premises)


@dataclass(frozen=True)
class Table:
    """All rules by their names, and all properties by their words, in the order of the page.

    `notes` has by their headings what the page says of words that the properties are told in, paragraph by paragraph.
    """

    rules: Dict[str, Rule]
    properties: Dict[str, Property]
    notes: Dict[str, Tuple[str, ...]]

    def rule(self, name: str) -> Rule:
        """The rule of this name. ValueError where there is none."""
        if name not in self.rules:
            raise ValueError(f"there is no rule {name}")
        return self.rules[name]

    def property(self, text: str) -> Property:
        """What the page says of the property of this text, as `defers(1)`. ValueError where it says nothing."""
        word = text.partition("(")[0]
        if word not in self.properties:
            raise ValueError(f"there is no property {text}")
        return self.properties[word]


@lru_cache(maxsize=None)
def table() -> Table:
    """The table of the page."""
    return read_table(_PAGE.read_text(encoding="utf-8"))


def read_table(page: str) -> Table:
    """The table of a page that is laid out as docs/RULES.md."""
    properties: Dict[str, Property] = {}
    rows: List[Tuple[int, str, str, str]] = []
    why: Dict[str, str] = {}
    prefix = heading = ""
    for line in page.split("\n"):
        found = _HEADING.match(line)
        heading = found[1] if found else heading
        if line.startswith("| No. |"):
            prefix = f"`{heading}` of " if "Concludes it of" in line else ""
        for row in _RULE.finditer(line):
            rows.append((int(row[1]), row[2], prefix + row[3], row[4]))
        for row in _PROPERTY.finditer(line):
            properties[row[1]] = Property(row[2], row[3], row[4])
        for row in _WHY.finditer(line):
            why[row[1]] = row[2]
    rules = {}
    for number, name, conclusion, premises in rows:
        rules[name] = Rule(number, name, conclusion, tuple(filter(None, premises.split("; "))), why.get(name, ""))
    return Table(rules, properties, {heading: _section(page, heading) for heading in _NOTES})


def _section(page: str, heading: str) -> Tuple[str, ...]:
    """The paragraphs below a heading, up to the next one."""
    _, _, rest = page.partition(f"\n### {heading}\n\n")
    below = re.split(r"\n#", rest, maxsplit=1)[0]
    return tuple(filter(None, below.strip().split("\n\n")))


def _concludes(conclusion: str, judgement: Judgement, values: Dict[str, Value]) -> bool:
    """Whether a conclusion of the page fits a judgement, and what its letters then stand for."""
    wanted, about = _split_of(conclusion)
    if not _fits_property(wanted, judgement.property, values):
        return False
    about = re.sub(r", with the same .*", "", about)
    if wanted == "disj":
        subjects = about.split(" and ")
        return len(judgement.terms) == 2 and all(
            _fits_term(subject, term, values) for subject, term in zip(subjects, judgement.terms)
        )
    return len(judgement.terms) == 1 and _fits_subject(about, judgement.terms[0], values)


def _split_of(text: str) -> Tuple[str, str]:
    """The property of a text of the page, and what it is about."""
    found = re.fullmatch(r"`([^`]*)` of (.*)", text)
    if not found:
        raise ValueError(f"not a judgement of the page: {text}")
    return found[1], found[2]


def _fits_property(wanted: str, given: str, values: Dict[str, Value]) -> bool:
    pattern, tree = read_tree(wanted), read_tree(given)
    if pattern.word != tree.word or len(pattern.arguments) != len(tree.arguments):
        return False
    return all(isinstance(g, int) and _fits_value(p, g, values) for p, g in zip(pattern.arguments, tree.arguments))


def _fits_value(pattern: object, value: Value, values: Dict[str, Value]) -> bool:
    """Whether a letter or a number of the page stands for this value. A letter stands for one value throughout."""
    if isinstance(pattern, Tree) and pattern.word in _LETTERS:
        return values.setdefault(pattern.word, value) == value
    return pattern == value


def _fits_term(text: str, term: Term, values: Dict[str, Value]) -> bool:
    """Whether a text like `loop(1,m)` of the page, or a letter, stands for this term."""
    pattern = read_tree(text.strip("`"))
    if pattern.word in _LETTERS:
        return _fits_value(pattern, term, values)
    if pattern.word != term.word or term.score:
        return False
    given: List[Value] = [] if term.number is None else [term.number]
    given += [term.order] if term.word in ("pass", "drop") else []
    given += term.parts
    return len(given) == len(pattern.arguments) and all(
        _fits_value(p, g, values) for p, g in zip(pattern.arguments, given)
    )


def _fits_subject(about: str, term: Term, values: Dict[str, Value]) -> bool:
    """Whether a term is any, is of a shape, or is one of the modules that are listed."""
    if about == "any":
        values["t"] = term
        return True
    if "(" in about:
        return _fits_term(about, term, values)
    modules, _, scores = about.partition(" of ")
    return term.word in _listed(modules) and (not scores or term.score in _listed(scores))


def _listed(text: str) -> List[str]:
    return re.findall(r"`([^`]*)`", text)


def _premise(text: str, values: Dict[str, Value]) -> Judgement:
    """The premise of a text of the page, once its letters stand for something."""
    wanted, about = _split_of(text)
    property = re.sub(r"\((\w)\)", lambda found: f"({values.get(found[1], found[1])})", wanted)
    return Judgement(property, tuple(_term_at(letter, values) for letter in about.split(" and ")))


def _term_at(letter: str, values: Dict[str, Value]) -> Term:
    value: Optional[Value] = values.get(letter)
    if not isinstance(value, Term):
        raise ValueError(f"{letter} stands for no term")
    return value
