"""All small cases in turn: the first one against a property of a term, and the first profile on which two terms differ.

Orders stand in lexicographic order. Profiles go by the number of alternatives, then of voters, then by how many voters
cast the first order, the most first, then the second one, and so on. Each way to spread the voters stands there once.
"""
from itertools import permutations
from typing import NamedTuple, Optional

from derivations import Derivation, Deriver
from meaning import Split, meaning_on
from profiles import Profile
from properties import ON_LIFTS, Property
from violations import judged_case


class Case(NamedTuple):
    """A profile; for a property of lifts also what it becomes, and who is raised; for `neut` who are exchanged."""
    before: Profile
    after: Optional[Profile] = None
    raised: Optional[int] = None
    exchanged: Optional[tuple] = None


def spreads(orders, voters):
    """The lines of each profile of so many voters who cast these orders."""
    if voters == 0:
        yield []
    elif orders:
        for weight in range(voters, -1, -1):
            line = [(weight, orders[0])] if weight else []
            for rest in spreads(orders[1:], voters - weight):
                yield line + rest


def profiles_of(alternatives, voters):
    members = range(1, alternatives + 1)
    for lines in spreads(list(permutations(members)), voters):
        yield Profile(members, lines)


def profiles_up_to(alternatives, voters):
    for number in range(1, alternatives + 1):
        for several in range(voters + 1):
            yield from profiles_of(number, several)


def leads(profile):
    """Whether no line is heavier than that of the order 1, 2, and so on."""
    first = tuple(sorted(profile.members))
    weights = {order: weight for weight, order in profile.lines}
    return all(weight <= weights.get(first, 0) for weight in weights.values())


def is_neutral(term):
    return isinstance(Deriver().finding(Property('neut'), term), Derivation)


def tried_profiles(term, alternatives, voters):
    """The profiles that a search goes through. Of a rule whose `neut` is derivable, a profile in which another line is
    heavier than that of the order 1, 2, and so on is left out: renamed, it stands earlier."""
    leaves_out = is_neutral(term)
    return (profile for profile in profiles_up_to(alternatives, voters) if not leaves_out or leads(profile))


def raises(profile):
    """One voter of each line in turn raises the alternative at each place from the second on by one place."""
    for number, (weight, order) in enumerate(profile.lines):
        ahead, behind = profile.lines[:number], profile.lines[number + 1:]
        kept = [(weight - 1, order)] if weight > 1 else []
        for place in range(1, len(order)):
            raised = order[place]
            changed = order[:place - 1] + (raised, order[place - 1]) + order[place + 1:]
            yield Case(
                Profile(profile.members, ahead + kept + [(1, order)] + behind),
                Profile(profile.members, ahead + kept + [(1, changed)] + behind), raised)


def cases_of(property, profile):
    if property.word in ON_LIFTS:
        yield Case(profile, profile, 1)
        yield from raises(profile)
    elif property.word == 'neut':
        for one in range(1, len(profile.members)):
            yield Case(profile, exchanged=(one, one + 1))
    else:
        yield Case(profile)


def exchange(pair, one):
    return pair[1] if one == pair[0] else pair[0] if one == pair[1] else one


def renamed(pair, profile):
    lines = [(weight, tuple(exchange(pair, one) for one in order)) for weight, order in profile.lines]
    return Profile(profile.members, lines)


def is_against(term, property, case):
    """Whether a case shows that the term lacks the property."""
    if case.exchanged is None:
        on_lift = () if case.after is None else (case.after, case.raised)
        return judged_case(term, property, case.before, *on_lift) == 'Violated'
    split = meaning_on(case.before, term)
    wanted = Split(*(frozenset(exchange(case.exchanged, one) for one in part) for part in split))
    return meaning_on(renamed(case.exchanged, case.before), term) != wanted


def first_case(term, property, alternatives, voters, part=1, parts=1):
    """The first case against the property, where each `parts`-th profile is tried, from number `part` on; or None."""
    for number, profile in enumerate(tried_profiles(term, alternatives, voters)):
        if number % parts == part - 1:
            for case in cases_of(property, profile):
                if is_against(term, property, case):
                    return case
    return None


def first_difference(one, other, alternatives, voters):
    """The first profile on which two terms differ, with both splits; None where there is none."""
    for profile in profiles_up_to(alternatives, voters):
        splits = meaning_on(profile, one), meaning_on(profile, other)
        if splits[0] != splits[1]:
            return profile, splits
    return None


def votes_text(profile):
    return ''.join(f'{weight}: {",".join(map(str, order))}\n' for weight, order in profile.lines)


def size_text(profile):
    return f'alternatives {len(profile.members)}\nvoters {sum(weight for weight, _ in profile.lines)}\n'


def case_text(case):
    text = size_text(case.before)
    if case.exchanged is not None:
        return text + 'exchanged {} {}\n'.format(*case.exchanged) + votes_text(case.before)
    if case.after is None:
        return text + votes_text(case.before)
    return text + f'raised {case.raised}\n{votes_text(case.before)}becomes\n{votes_text(case.after)}'
