"""Suspected counterexamples as data: profiles in order and drawn, lifts, renamings, and what is smaller than a case."""

from __future__ import annotations

import random
from collections import Counter
from dataclasses import dataclass, replace
from itertools import combinations, combinations_with_replacement, count, permutations, product, repeat
from typing import Callable, Iterator, List, Mapping, NamedTuple, Optional, Sequence, Tuple

from .profiles import Profile

Order = Tuple[int, ...]
Line = Tuple[int, Order]

# how many voters the profiles have at most that are gone through in order, by the number of alternatives
_IN_ORDER = {1: 1, 2: 4, 3: 4, 4: 2}


@dataclass(frozen=True)
class Case:
    """A profile; or two, where in the second an alternative is lifted; or a profile and a renaming.

    A renaming gives the new number of each alternative, from that of 1 on.
    """

    profile: Profile
    second: Optional[Profile] = None
    lifted: Optional[int] = None
    renaming: Optional[Order] = None

    @property
    def size(self) -> Tuple[int, ...]:
        """What of two cases makes the smaller one: fewer alternatives, then lines, then voters, then places raised."""
        moved = 0
        if self.second is not None and self.lifted is not None:
            moved = sum(_raised_by(self.lifted, *orders) for orders in self.orders())
        return (self.profile.alternatives, len(self.profile.lines), voters(self.profile), moved, disorder(self.profile))

    def orders(self) -> Iterator[Tuple[Order, Order]]:
        """The orders of the two profiles, line by line."""
        if self.second is not None:
            for (_, before), (_, after) in zip(self.profile.lines, self.second.lines):
                yield before, after


class Bounds(NamedTuple):
    """How large a drawn profile may be."""

    alternatives: Tuple[int, int] = (2, 5)
    lines: int = 9
    weight: int = 12


def growing(bounds: Bounds) -> Iterator[Bounds]:
    """Bounds without end: so many of few alternatives, then as many of one more; and again, twice as many."""
    least, greatest = bounds.alternatives
    for doubled in count():
        for alternatives in range(max(least, min(3, greatest)), greatest + 1):
            yield from repeat(bounds._replace(alternatives=(alternatives, alternatives)), 100 * 2**doubled)


def voters(profile: Profile) -> int:
    """How many voters a profile has."""
    return sum(weight for weight, _ in profile.lines)


def disorder(profile: Profile) -> int:
    """How many pairs stand the other way round in the first order than by their numbers."""
    first = profile.lines[0][1] if profile.lines else ()
    return sum(x > y for x, y in combinations(first, 2))


def _raised_by(alternative: int, before: Order, after: Order) -> int:
    return before.index(alternative) - after.index(alternative)


# ---- profiles


def in_order(bounds: Bounds) -> Iterator[Profile]:
    """All profiles of few alternatives and few voters, a line for each voter, the smallest first."""
    least, greatest = bounds.alternatives
    sizes = [(n, v) for n, most in _IN_ORDER.items() if least <= n <= greatest for v in range(most + 1)]
    for alternatives, number in sorted(sizes, key=lambda size: (sum(size), size)):
        orders = permutations(range(1, alternatives + 1))
        for chosen in combinations_with_replacement(orders, number):
            yield Profile(alternatives, tuple((1, order) for order in chosen))


def joined(profile: Profile) -> Profile:
    """The profile in which lines of one order are one line."""
    weights: Counter[Order] = Counter()
    for weight, order in profile.lines:
        weights[order] += weight
    return replace(profile, lines=tuple((weight, order) for order, weight in weights.items()))


class Draws:
    """Numbers that a seed draws: the same at every run, and in each version of Python."""

    def __init__(self, seed: int) -> None:
        self._random = random.Random(seed)

    def number(self, least: int, greatest: int) -> int:
        """A number within these limits."""
        return least + int(self._random.random() * (greatest - least + 1))

    def order(self, alternatives: int) -> Order:
        """An order of so many alternatives: each is put in at a place that is drawn."""
        order: List[int] = []
        for alternative in range(1, alternatives + 1):
            order.insert(self.number(0, len(order)), alternative)
        return tuple(order)

    def profile(self, bounds: Bounds) -> Profile:
        """A profile within the bounds."""
        alternatives = self.number(*bounds.alternatives)
        lines = self.number(1, bounds.lines)
        # weights up to 1 now and then, so that ties come up
        weight = self.number(1, bounds.weight)
        drawn = tuple((self.number(1, weight), self.order(alternatives)) for _ in range(lines))
        return Profile(alternatives, drawn)


# ---- lifts


def raised(order: Order, alternative: int, to: int) -> Order:
    """The order in which the alternative stands at this place nearer the front."""
    place = order.index(alternative)
    return order[:to] + (alternative,) + order[to:place] + order[place + 1 :]


def all_lifts(profile: Profile, alternative: int) -> Iterator[Case]:
    """All lifts of an alternative that move it somewhere, each line as a whole."""
    places = [range(order.index(alternative), -1, -1) for _, order in profile.lines]
    for chosen in product(*places):
        lines = tuple((weight, raised(order, alternative, to)) for (weight, order), to in zip(profile.lines, chosen))
        if lines != profile.lines:
            yield Case(profile, replace(profile, lines=lines), alternative)


def lifts_of_one_line(profile: Profile, alternative: int) -> Iterator[Case]:
    """All cases in which the alternative is raised on one line."""
    for at, (weight, order) in enumerate(profile.lines):
        for to in range(order.index(alternative)):
            line = (weight, raised(order, alternative, to))
            lines = profile.lines[:at] + (line,) + profile.lines[at + 1 :]
            yield Case(profile, replace(profile, lines=lines), alternative)


def drawn_lifts(profile: Profile, alternative: int, draws: Draws) -> Iterator[Case]:
    """Lifts of an alternative: on one line, by a part of a line's voters, on some lines, and to the front on all."""
    for case in lifts_of_one_line(profile, alternative):
        yield case
    for at, (weight, order) in enumerate(profile.lines):
        place = order.index(alternative)
        if weight > 1 and place > 0:
            split = _with_line_split(profile, at, draws.number(1, weight - 1))
            lines = list(split.lines)
            lines[at] = (lines[at][0], raised(order, alternative, draws.number(0, place - 1)))
            yield Case(split, replace(split, lines=tuple(lines)), alternative)
    for _ in profile.lines:
        yield _lifted_to(profile, alternative, lambda place: draws.number(0, place) if draws.number(0, 1) else place)
    yield _lifted_to(profile, alternative, lambda place: 0)


def _lifted_to(profile: Profile, alternative: int, to: Callable[[int], int]) -> Case:
    lines = tuple((weight, raised(order, alternative, to(order.index(alternative)))) for weight, order in profile.lines)
    return Case(profile, replace(profile, lines=lines), alternative)


def _with_line_split(profile: Profile, at: int, part: int) -> Profile:
    weight, order = profile.lines[at]
    lines = profile.lines[:at] + ((part, order), (weight - part, order)) + profile.lines[at + 1 :]
    return replace(profile, lines=lines)


# ---- renamings


def renamed(profile: Profile, renaming: Sequence[int]) -> Profile:
    """The profile in which each alternative has its new number."""
    return replace(profile, lines=tuple((w, tuple(renaming[x - 1] for x in order)) for w, order in profile.lines))


def all_renamings(alternatives: int) -> Iterator[Order]:
    """All renamings among so many alternatives, but that which changes nothing."""
    same = tuple(range(1, alternatives + 1))
    return (renaming for renaming in permutations(same) if renaming != same)


# ---- what is smaller


def smaller(case: Case) -> Iterator[Case]:
    """Cases that are smaller than this one, in one or two places, the much smaller first."""
    for made in _smaller(case):
        if made.size < case.size:
            yield made


def _smaller(case: Case) -> Iterator[Case]:
    number = case.profile.alternatives
    for alternative in range(number, 0, -1):
        if number > 1 and alternative != case.lifted:
            yield _without_alternative(case, alternative)
    places = range(len(case.profile.lines))
    for some in (*combinations(places, 2), *combinations(places, 1)):
        yield _with_weights(case, {at: 0 for at in some})
    yield _with_equal_lines_joined(case)
    weights = [weight for weight, _ in case.profile.lines]
    for part in (3, 2):
        yield _with_weights(case, {at: max(1, weight // part) for at, weight in enumerate(weights)})
    for at, weight in enumerate(weights):
        for less in (1, weight // 2, weight - 1):
            yield _with_weights(case, {at: max(1, less)})
    for some in (*combinations(places, 2), *combinations(places, 3), tuple(places)):
        yield _with_weights(case, {at: max(1, weights[at] - 1) for at in some})
    if case.second is not None and case.lifted is not None:
        yield from _with_smaller_lifts(case, case.second, case.lifted)
    if case.profile.lines and case.renaming is None:
        yield _with_first_line_in_order(case)


def _each(case: Case, change: Callable[[Tuple[Line, ...]], Tuple[Line, ...]], alternatives: int = 0) -> Case:
    """The case whose profiles have changed lines, and so many alternatives, or as many as before."""
    number = alternatives or case.profile.alternatives
    first = replace(case.profile, alternatives=number, lines=change(case.profile.lines))
    second = case.second and replace(case.second, alternatives=number, lines=change(case.second.lines))
    return replace(case, profile=first, second=second)


def _without_alternative(case: Case, alternative: int) -> Case:
    """The case without an alternative: those of greater numbers come down by one."""

    def name(x: int) -> int:
        return x - (x > alternative)

    def without(lines: Tuple[Line, ...]) -> Tuple[Line, ...]:
        return tuple((weight, tuple(name(x) for x in order if x != alternative)) for weight, order in lines)

    made = _each(case, without, case.profile.alternatives - 1)
    if case.renaming is not None:
        gone = case.renaming[alternative - 1]
        kept = case.renaming[: alternative - 1] + case.renaming[alternative:]
        made = replace(made, renaming=tuple(x - (x > gone) for x in kept))
    return replace(made, lifted=case.lifted and name(case.lifted))


def _with_weights(case: Case, weights: Mapping[int, int]) -> Case:
    """The case with other weights of these lines; lines of weight 0 are left out."""

    def changed(lines: Tuple[Line, ...]) -> Tuple[Line, ...]:
        new = ((weights.get(at, weight), order) for at, (weight, order) in enumerate(lines))
        return tuple((weight, order) for weight, order in new if weight > 0)

    return _each(case, changed)


def _with_equal_lines_joined(case: Case) -> Case:
    if case.second is None:
        return replace(case, profile=joined(case.profile))
    weights: Counter[Tuple[Order, Order]] = Counter()
    for (weight, _), orders in zip(case.profile.lines, case.orders()):
        weights[orders] += weight
    first = tuple((weight, before) for (before, _), weight in weights.items())
    second = tuple((weight, after) for (_, after), weight in weights.items())
    return replace(case, profile=replace(case.profile, lines=first), second=replace(case.second, lines=second))


def _with_smaller_lifts(case: Case, second: Profile, lifted: int) -> Iterator[Case]:
    """The cases in which the alternative is raised on a line less, or on a line by fewer places."""
    for at, (before, after) in enumerate(case.orders()):
        for to in (before.index(lifted), before.index(lifted) - 1, after.index(lifted) + 1):
            if after.index(lifted) < to <= before.index(lifted):
                line = (second.lines[at][0], raised(before, lifted, to))
                lines = second.lines[:at] + (line,) + second.lines[at + 1 :]
                yield replace(case, second=replace(second, lines=lines))


def _with_first_line_in_order(case: Case) -> Case:
    """The case with new numbers, by which the first order is ascending."""
    first = case.profile.lines[0][1]
    renaming = [first.index(x) + 1 for x in range(1, len(first) + 1)]
    second = case.second and renamed(case.second, renaming)
    lifted = case.lifted and renaming[case.lifted - 1]
    return replace(case, profile=renamed(case.profile, renaming), second=second, lifted=lifted)
