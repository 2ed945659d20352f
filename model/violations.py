"""Whether a profile, or one and a lift of it, refutes a property of a term."""
from meaning import NOBODY, Split, meaning_on
from profiles import condorcet_winner, is_lift, pair_table
from properties import ON_LIFTS

ON_WINNERS = ('cc', 'dcc', 'cprog', 'ccomp')


def judged_case(term, property, before, after=None, alternative=None):
    """'Violated', or why the case doesn't refute the property: 'NotALift', 'PremiseNotMet' or 'ClauseHolds'."""
    split = meaning_on(before, term)
    if property.word in ON_LIFTS:
        if alternative not in before.members or not is_lift(before, after, alternative):
            return 'NotALift'
        holds = clause_on_lifts(property.word, split, meaning_on(after, term), alternative)
    elif property.word in ON_WINNERS:
        winner = condorcet_winner(before.members, pair_table(before))
        holds = None if winner is None else clause_on_winners(property.word, split, before.members, winner)
    else:
        holds = clause_on_sizes(property, split, before.members)
    if holds is None:
        return 'PremiseNotMet'
    return 'ClauseHolds' if holds else 'Violated'


def clause_on_lifts(word, before, after, alternative):
    """Whether what the property says of this lift is so; None where it says nothing of it."""
    if word in ('dli', 'dmono') and alternative not in before.deferred:
        return None
    if word in ('imono', 'mono') and alternative not in before.elected:
        return None
    if word == 'dli':
        return before == after
    if word == 'dmono':
        return alternative in after.deferred
    if word == 'imono':
        return after.elected in (before.elected, {alternative})
    if word == 'mono':
        return alternative in after.elected
    if before.elected:
        return False        # of `dimono`, which says too that nobody is elected
    return after.deferred in (before.deferred, {alternative}) if alternative in before.deferred else None


def clause_on_winners(word, split, members, winner):
    alone, others = frozenset([winner]), members - {winner}
    if word == 'cc':
        return split == Split(alone, others, NOBODY)
    if word == 'dcc':
        return split == Split(NOBODY, others, alone)
    if word == 'cprog':
        return not split.elected and winner in split.deferred and (split.deferred != members or not others)
    return (winner not in split.rejected and split.elected <= alone
            and (winner not in split.elected or split.rejected == others))


def clause_on_sizes(property, split, members):
    word, number = property
    if len(members) < {'el': 1, 'nb': 1, 'defers': number, 'rejects': number, 'decr': 2}.get(word, 0):
        return None
    if word == 'elim' and len(members) <= number:
        return None
    return {
        'ne': not split.elected, 'ea': split.elected == members, 'el': bool(split.elected),
        'nb': split.rejected != members, 'decr': bool(split.rejected), 'defers': len(split.deferred) == number,
        'rejects': len(split.rejected) == number, 'elim': len(split.rejected) == number}[word]
