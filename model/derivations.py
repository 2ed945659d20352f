"""Derivations: trees of rules. Which judgements have one, the first of each, and the reasons where there is none."""
from typing import NamedTuple

from rules import Of, Rule, judgement_text, rules_for

# what a node is numbered at most, as the program tells it
GREATEST_NODE = 2 ** 64 - 1


class Derivation(NamedTuple):
    rule: Rule
    children: tuple


class Reason(NamedTuple):
    """A rule that fits, the number from 1 of its first premise that has no derivation, and that premise."""
    rule: Rule
    number: int
    premise: tuple


class Deriver:
    """Answers questions about judgements, and keeps what it has answered."""

    def __init__(self):
        self._derivable = {}
        self._first = {}

    def derivable(self, judgement):
        known = self._derivable.get(judgement)
        if known is None:
            known = any(self._serves(rule, judgement) for rule in rules_for(judgement))
            self._derivable[judgement] = known
        return known

    def _serves(self, rule, judgement):
        """Whether a rule fits and all of its premises are derivable."""
        premises = rule.premises_of(judgement)
        return premises is not None and all(self.derivable(premise) for premise in premises)

    def serving(self, judgement):
        """The rules by which a derivation of the judgement may begin."""
        return [rule for rule in rules_for(judgement) if self._serves(rule, judgement)]

    def first(self, judgement):
        """The first derivation of a derivable judgement: at each node the first rule that serves."""
        if judgement not in self._first:
            rule = next(rule for rule in rules_for(judgement) if self._serves(rule, judgement))
            children = tuple(self.first(premise) for premise in rule.premises_of(judgement))
            self._first[judgement] = Derivation(rule, children)
        return self._first[judgement]

    def reasons(self, judgement):
        """Why a judgement has no derivation: of each rule that fits, in order, what it lacks."""
        reasons = []
        for rule in rules_for(judgement):
            premises = rule.premises_of(judgement)
            if premises is not None:
                reasons.append(self._lack(rule, premises))
        return reasons

    def _lack(self, rule, premises):
        return next(
            Reason(rule, number, premise) for number, premise in enumerate(premises, 1) if not self.derivable(premise))

    def finding(self, property, term):
        """What is found of a property of a term: its first derivation or a list of reasons."""
        judgement = Of(property, term)
        return self.first(judgement) if self.derivable(judgement) else self.reasons(judgement)


def first_bad_node(derivation, judgement):
    """The first node in preorder, from 0, that is wrong, and what is wrong with it; None where all is right."""
    ahead, node = [(derivation, judgement)], 0
    while ahead:
        (rule, children), judgement = ahead.pop()
        premises = rule.premises_of(judgement)
        if premises is None:
            return min(node, GREATEST_NODE), 'RuleDoesNotFit'
        if len(premises) != len(children):
            return min(node, GREATEST_NODE), 'WrongNumberOfPremises'
        ahead.extend(reversed(list(zip(children, premises))))
        node += 1
    return None


def is_valid(derivation, judgement):
    """The same in the words of the definition."""
    premises = derivation.rule.premises_of(judgement)
    return (premises is not None and len(premises) == len(derivation.children)
            and all(is_valid(child, premise) for child, premise in zip(derivation.children, premises)))


def derivation_text(derivation):
    pieces = []
    add_text(derivation, pieces)
    return ''.join(pieces)


def add_text(derivation, pieces):
    pieces.append(derivation.rule.name)
    for place, child in enumerate(derivation.children):
        pieces.append(',' if place else '(')
        add_text(child, pieces)
    if derivation.children:
        pieces.append(')')


def rules_used(derivation):
    yield derivation.rule
    for child in derivation.children:
        yield from rules_used(child)


def reasons_text(reasons):
    lines = [f'- {reason.rule.name} {reason.number} {judgement_text(reason.premise)}\n' for reason in reasons]
    return ''.join(lines) or '- no rule\n'
