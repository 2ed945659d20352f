"""What a term means: the split of a set of alternatives by the ballots restricted to it."""
from typing import NamedTuple

from profiles import Tally, first_weight, pair_weight, restricted
from terms import LOOPS

NOBODY = frozenset()


class Split(NamedTuple):
    elected: frozenset
    rejected: frozenset
    deferred: frozenset


def score(name, members, pairs, first_weights, one):
    """The score of that name of one member, by the table of pairs and the first places among the members."""
    others = [other for other in members if other != one]
    if name == 'plurality':
        return first_weights[one]
    if name == 'borda':
        return sum(pairs[one][other] for other in others)
    if name == 'copeland':
        beaten = sum(1 for other in others if pairs[one][other] > pairs[other][one])
        return beaten - sum(1 for other in others if pairs[other][one] > pairs[one][other])
    if name == 'minimax':
        return min((pairs[one][other] for other in others), default=0)
    if name == 'condorcet':
        return 1 if all(pairs[one][other] > pairs[other][one] for other in others) else 0
    raise ValueError(name)


def eliminate(elimination, members, scores):
    """The split of an eliminator by these scores. Where it would reject all, it defers all."""
    if not members:
        return Split(NOBODY, NOBODY, NOBODY)
    rejected = frozenset(one for one in members if goes(elimination, scores, one))
    if rejected == members:
        return Split(NOBODY, NOBODY, members)
    return Split(NOBODY, rejected, members - rejected)


def goes(elimination, scores, one):
    """Whether an eliminator would reject one of those who have these scores."""
    if elimination == 'max':
        return scores[one] < max(scores.values())
    if elimination == 'min':
        return scores[one] == min(scores.values())
    # averages aren't rounded
    share, total = scores[one] * len(scores), sum(scores.values())
    if elimination == 'below':
        return share < total
    if elimination == 'upto':
        return share <= total
    raise ValueError(elimination)


def first_in_order(members, order, number):
    """The first of the members, so many of them, in the fixed order that begins with `order` and goes on ascending."""
    ahead = [one for one in order if one in members]
    rest = sorted(members.difference(ahead))
    return frozenset((ahead + rest)[:number])


def plurality_split(members, first_weights):
    most = max((first_weights[one] for one in members), default=0)
    elected = frozenset(one for one in members if first_weights[one] == most)
    return Split(elected, members - elected, NOBODY)


def module_split(module, members, first_weights, pairs):
    """The split of a module. The two tables are asked for by calls, since most modules need one at most."""
    if module.word == 'elect':
        return Split(members, NOBODY, NOBODY)
    if module.word == 'defer':
        return Split(NOBODY, NOBODY, members)
    if module.word in ('pass', 'drop'):
        number, order = module.arguments
        first = first_in_order(members, order, number)
        others = members - first
        return Split(NOBODY, others, first) if module.word == 'pass' else Split(NOBODY, first, others)
    if module.word == 'plurality':
        return plurality_split(members, first_weights())
    name = module.arguments[0]
    firsts = first_weights() if name == 'plurality' else None
    table = None if name == 'plurality' else pairs()
    scores = {one: score(name, members, table, firsts, one) for one in members}
    return eliminate(module.word, members, scores)


def one_after_the_other(one, other):
    return Split(one.elected | other.elected, one.rejected | other.rejected, other.deferred)


def side_by_side(one, other):
    elected = one.elected | other.elected
    return Split(elected, one.rejected & other.rejected, (one.deferred | other.deferred) - elected)


def revised(members, split):
    return Split(NOBODY, members - split.elected, split.elected)


def loop_ends(loop, members):
    number = loop.arguments[0]
    return len(members) == number if loop.word == 'loop' else len(members) <= number


def meaning(term, members, tally, asked=None):
    """The meaning on these members. `asked` is called with each module whose split is taken."""
    if term.word == 'rev':
        return revised(members, meaning(term.arguments[0], members, tally, asked))
    if term.word == 'seq':
        first = meaning(term.arguments[0], members, tally, asked)
        return one_after_the_other(first, meaning(term.arguments[1], first.deferred, tally, asked))
    if term.word == 'par':
        first, second = (meaning(part, members, tally, asked) for part in term.arguments)
        return side_by_side(first, second)
    if term.word in LOOPS:
        return loop_meaning(term, members, tally, asked)
    if asked is not None:
        asked(term)
    return module_split(term, members, lambda: tally.first_weights(members), tally.pairs)


def loop_meaning(loop, members, tally, asked):
    """Turn by turn: what is elected and rejected adds up, and what is deferred goes on."""
    so_far = Split(NOBODY, NOBODY, members)
    while not loop_ends(loop, so_far.deferred):
        turn = meaning(loop.arguments[1], so_far.deferred, tally, asked)
        if turn.deferred == so_far.deferred:
            break
        so_far = one_after_the_other(so_far, turn)
    return so_far


def meaning_on(profile, term):
    return meaning(term, profile.members, Tally(profile))


def literal_meaning(term, profile):
    """The meaning as it is said in words: ballots are restricted one by one, and nothing is kept."""
    if term.word == 'rev':
        return revised(profile.members, literal_meaning(term.arguments[0], profile))
    if term.word == 'seq':
        first = literal_meaning(term.arguments[0], profile)
        return one_after_the_other(first, literal_meaning(term.arguments[1], restricted(profile, first.deferred)))
    if term.word == 'par':
        return side_by_side(*(literal_meaning(part, profile) for part in term.arguments))
    if term.word in LOOPS:
        stays = Split(NOBODY, NOBODY, profile.members)
        if loop_ends(term, profile.members):
            return stays
        turn = literal_meaning(term.arguments[1], profile)
        if turn.deferred == profile.members:
            return stays
        return one_after_the_other(turn, literal_meaning(term, restricted(profile, turn.deferred)))
    return module_split(
        term, profile.members,
        lambda: {one: first_weight(profile, one) for one in profile.members},
        lambda: literal_pairs(profile))


def literal_pairs(profile):
    members = profile.members
    return {one: {other: pair_weight(profile, one, other) for other in members} for one in members}
