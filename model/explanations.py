"""How a rule comes to its result: the visits of its subterms, in the order of evaluation."""
from typing import NamedTuple

from meaning import (
    NOBODY, Split, loop_ends, module_split, one_after_the_other, revised, score, side_by_side)
from terms import LOOPS, Term, is_module, term_text


class Visit(NamedTuple):
    """A subterm by its place in preorder, the set that it is handed, the scores that it goes by, and its split."""
    place: int
    term: Term
    members: frozenset
    scores: dict | None
    split: Split


class TooLong(Exception):
    """The text of the visits has more bytes than it may have."""


class Visits:
    """The visits of a rule by a tally of ballots, as paragraphs that are added while the rule is evaluated."""

    def __init__(self, tally, room):
        self.tally, self.room, self.paragraphs = tally, room, []

    def tell(self, visit):
        paragraph = visit_text(visit).encode()
        self.room -= len(paragraph)
        if self.room < 0:
            raise TooLong
        self.paragraphs.append(paragraph)

    def visit(self, term, place, members):
        """The split of a subterm. Its visit is behind those of its parts."""
        scores, split = None, None
        if is_module(term):
            scores = self.scores(term, members)
            split = module_split(term, members, lambda: self.tally.first_weights(members), self.tally.pairs)
        elif term.word in LOOPS:
            split = self.rounds(term, place + 1, members)
        elif term.word == 'rev':
            split = revised(members, self.visit(term.parts[0], place + 1, members))
        else:
            one = self.visit(term.parts[0], place + 1, members)
            behind = place + 1 + term.parts[0].size
            if term.word == 'seq':
                split = one_after_the_other(one, self.visit(term.parts[1], behind, one.deferred))
            else:
                split = side_by_side(one, self.visit(term.parts[1], behind, members))
        self.tell(Visit(place, term, members, scores, split))
        return split

    def rounds(self, loop, place, members):
        """What a loop comes to, whose body stands at a place: one visit of the body a round."""
        so_far = Split(NOBODY, NOBODY, members)
        while not loop_ends(loop, so_far.deferred):
            turn = self.visit(loop.parts[0], place, so_far.deferred)
            if turn.deferred == so_far.deferred:
                break
            so_far = one_after_the_other(so_far, turn)
        return so_far

    def scores(self, module, members):
        """The score of each member, where the module goes by one."""
        if module.word == 'plurality':
            name = 'plurality'
        elif module.word in ('elect', 'defer', 'pass', 'drop'):
            return None
        else:
            name = module.arguments[0]
        firsts = self.tally.first_weights(members) if name == 'plurality' else None
        pairs = None if name == 'plurality' else self.tally.pairs()
        return {one: score(name, members, pairs, firsts, one) for one in members}


def head_text(of):
    """A module as it is written, or the word of a composition, with the number of a loop."""
    if is_module(of):
        return term_text(of)
    return f'{of.word}({of.arguments[0]})' if of.word in LOOPS else of.word


def numbers(members):
    return ''.join(f' {member}' for member in sorted(members))


def visit_text(visit):
    text = f'\nat {visit.place} {head_text(visit.term)}\nof:{numbers(visit.members)}\n'
    if visit.scores is not None:
        text += 'scores:' + ''.join(f' {one}={visit.scores[one]}' for one in sorted(visit.scores)) + '\n'
    return text + ''.join(f'{name}:{numbers(part)}\n' for name, part in visit.split._asdict().items())


def explanation(term, members, tally, room):
    """The paragraphs of all visits, which may have so many bytes."""
    visits = Visits(tally, room)
    visits.visit(term, 0, members)
    return b''.join(visits.paragraphs)


def pairs_text(profile, tally):
    """A row for each alternative: how many voters put it before each one; and who beats all others."""
    pairs, all_of_them = tally.pairs(), sorted(profile.members)
    text = ''
    for one in all_of_them:
        row = [0 if one == other else pairs[one][other] for other in all_of_them]
        text += f'prefer {one}:' + ''.join(f' {number}' for number in row) + '\n'
    winners = [one for one in all_of_them
               if all(pairs[one][other] > pairs[other][one] for other in all_of_them if other != one)]
    return text + 'condorcet winner: ' + (str(winners[0]) if winners else 'none') + '\n'
