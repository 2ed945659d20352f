"""Profiles: a set of alternatives, and lines of a weight and an order of all of them, the most preferred first."""

GREATEST_VOTERS = 2 ** 64 - 1
MOST_LINES = 1_000_000


class Profile:
    def __init__(self, members, lines):
        self.members = frozenset(members)
        self.lines = lines


def order_fault(alternatives, order):
    """What is wrong with an order of the alternatives from 1 on, in the order of the checks; or None."""
    seen = set()
    for alternative in order:
        if not 1 <= alternative <= alternatives:
            return 'OutOfRange'
        if alternative in seen:
            return 'Repeated'
        seen.add(alternative)
    return 'Short' if len(order) < alternatives else None


def restricted(profile, members):
    """Who isn't a member is struck from each order; weights stay."""
    lines = [(weight, tuple(x for x in order if x in members)) for weight, order in profile.lines]
    return Profile(members, lines)


def first_weight(profile, alternative):
    """How many voters put this alternative first."""
    return sum(weight for weight, order in profile.lines if order and order[0] == alternative)


def pair_weight(profile, one, other):
    """How many voters put the one before the other."""
    return sum(weight for weight, order in profile.lines if order.index(one) < order.index(other))


def pair_table(profile):
    """The same for each ordered pair, in one pass over the lines."""
    table = {one: dict.fromkeys(profile.members, 0) for one in profile.members}
    for weight, order in profile.lines:
        for place, one in enumerate(order):
            row = table[one]
            for other in order[place + 1:]:
                row[other] += weight
    return table


class Tally:
    """A profile with its table of pairs, which serves each restriction too: that strikes others alone."""

    def __init__(self, profile):
        self.profile = profile
        self._pairs = None

    def pairs(self):
        if self._pairs is None:
            self._pairs = pair_table(self.profile)
        return self._pairs

    def first_weights(self, members):
        """First places on the ballots restricted to these members."""
        weights = dict.fromkeys(members, 0)
        for weight, order in self.profile.lines:
            leader = next((x for x in order if x in members), None)
            if leader is not None:
                weights[leader] += weight
        return weights


def condorcet_winner(members, pairs):
    """The one who is preferred to each other one by more voters than not; None where there is none."""
    for one in members:
        if all(pairs[one][other] > pairs[other][one] for other in members if other != one):
            return one
    return None


def same_but_for(one, other, alternative):
    """Whether two profiles differ, line by line, only in where this alternative stands."""
    if one.members != other.members or len(one.lines) != len(other.lines):
        return False
    return all(
        weight == weight_then and without(order, alternative) == without(order_then, alternative)
        for (weight, order), (weight_then, order_then) in zip(one.lines, other.lines))


def without(order, alternative):
    return [x for x in order if x != alternative]


def is_lift(before, after, alternative):
    """Whether the second profile is the first with this alternative raised, or left where it is, in each line."""
    return same_but_for(before, after, alternative) and all(
        order_then.index(alternative) <= order.index(alternative)
        for (_, order), (_, order_then) in zip(before.lines, after.lines))
