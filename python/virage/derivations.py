"""Derivations, with what each node of them concludes, and the reasons where there is none."""

from __future__ import annotations

from dataclasses import dataclass
from functools import cached_property
from typing import Dict, Iterator, List, Tuple, Union

from .rules import DoesNotFit, Judgement, table
from .terms import Argument, Tree, read_tree


@dataclass(frozen=True, repr=False)
class Derivation:
    """A rule of derivation, the judgement that it concludes here, and the derivations of its premises."""

    rule: str
    judgement: Judgement
    premises: Tuple[Derivation, ...] = ()

    @classmethod
    def read(cls, text: str, judgement: Judgement) -> Derivation:
        """The derivation of a printed text, for this judgement. Where it isn't valid it is a ValueError.

        Derivations in it that are equal, of one judgement, are one object: a text of megabytes has few that differ.
        """
        return _valid(read_tree(text), judgement, {})

    def __hash__(self) -> int:
        return hash((self.rule, self.judgement))

    def __str__(self) -> str:
        return f"{self.rule}({','.join(map(str, self.premises))})" if self.premises else self.rule

    def __repr__(self) -> str:
        return f"<Derivation {self}>"

    def preorder(self) -> Iterator[Derivation]:
        """The derivation and all those in it, each before those of its premises."""
        left = [self]
        while left:
            node = left.pop()
            yield node
            left += reversed(node.premises)

    def distinct(self) -> Iterator[Derivation]:
        """As `preorder`, but each object once."""
        left, met = [self], set()
        while left:
            node = left.pop()
            if id(node) not in met:
                met.add(id(node))
                yield node
                left += reversed(node.premises)

    @cached_property
    def size(self) -> int:
        """The number of its nodes."""
        return 1 + sum(premise.size for premise in self.premises)

    def _repr_html_(self) -> str:
        """The tree, for a notebook."""
        from .pages import shown_derivation

        return shown_derivation(self)

    def drawn(self) -> str:
        """A drawing of the tree: a line a node, with what it concludes and its rule."""
        lines = list(_lines(self, "", ""))
        width = max(len(line) for line, _ in lines) + 3
        return "\n".join(f"{line:<{width}}{rule}" for line, rule in lines)


def _lines(node: Derivation, first: str, later: str) -> Iterator[Tuple[str, str]]:
    yield first + str(node.judgement), node.rule
    for premise in node.premises[:-1]:
        yield from _lines(premise, later + "├─ ", later + "│  ")
    for premise in node.premises[-1:]:
        yield from _lines(premise, later + "└─ ", later + "   ")


# derivations that are known to be valid, by their trees, and by the judgements: their properties and terms
_Known = Dict[Tuple[object, ...], Derivation]


def _valid(tree: Argument, judgement: Judgement, known: _Known) -> Derivation:
    key = (id(tree), judgement.property, *map(id, judgement.terms))
    if key not in known:
        known[key] = _judged(tree, judgement, known)
    return known[key]


def _judged(tree: Argument, judgement: Judgement, known: _Known) -> Derivation:
    if not isinstance(tree, Tree):
        raise ValueError(f"not a derivation: {tree}")
    wanted = table().rule(tree.word).premises_of(judgement)
    if len(wanted) != len(tree.arguments):
        raise DoesNotFit(f"{tree.word} has {len(wanted)} premises")
    return Derivation(tree.word, judgement, tuple(_valid(it, of, known) for it, of in zip(tree.arguments, wanted)))


@dataclass(frozen=True, repr=False)
class Reason:
    """Why a rule that fits doesn't help: its first premise that isn't derivable, and the number of that, from 1."""

    rule: str
    number: int
    premise: Judgement

    def __str__(self) -> str:
        return f"{self.rule} {self.number} {self.premise}"

    def __repr__(self) -> str:
        return f"<Reason {self}>"


@dataclass(frozen=True)
class Holds:
    """A property that the rule has, and the first derivation of it."""

    property: str
    derivation: Derivation


@dataclass(frozen=True)
class Underived:
    """A property that no derivation gives, and the reasons: none where no rule fits. It can be true all the same."""

    property: str
    reasons: Tuple[Reason, ...]


Finding = Union[Holds, Underived]


def read_reasons(lines: List[str]) -> Tuple[Reason, ...]:
    """The reasons of the lines below `underived`. Anything else is a ValueError."""
    if lines == ["- no rule"]:
        return ()
    if not lines:
        raise ValueError("no reasons where there have to be some")
    reasons = []
    for line in lines:
        dash, rule, number, premise = line.split(" ", 3)
        if dash != "-":
            raise ValueError(f"not a reason: {line!r}")
        reasons.append(Reason(table().rule(rule).name, int(number), Judgement.read(premise)))
    return tuple(reasons)
