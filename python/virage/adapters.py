"""Profiles of other libraries. None of these is imported: what is read of a value is named in each function."""

from __future__ import annotations

from typing import Any, List, Optional, Sequence, Tuple, Union

from .profiles import Profile


def from_preflib(instance: Any) -> Profile:
    """The profile of an instance of PrefLib-Tools, as `OrdinalInstance("votes.soc")`.

    It has `orders`, each a sequence of classes of alternatives, with `multiplicity` of each, `num_alternatives` and
    `alternatives_name`. A class of more than one, which is a tie, is a ValueError.
    """
    lines = tuple((int(instance.multiplicity[order]), _without_ties(order)) for order in instance.orders)
    names = {int(i): str(name) for i, name in instance.alternatives_name.items()}
    return Profile(int(instance.num_alternatives), lines, names)


def from_pref_voting(profile: Any) -> Profile:
    """The profile of a `Profile` of pref_voting, whose candidates are numbered from 0: here candidate 0 is 1.

    It has `rankings_counts`, the rankings and how often there is each, and `cmap`, the names of the candidates.
    """
    rankings, counts = profile.rankings_counts
    lines = tuple((int(count), tuple(int(c) + 1 for c in order)) for order, count in zip(rankings, counts))
    names = {int(c) + 1: str(name) for c, name in profile.cmap.items()}
    return Profile(len(names), lines, names)


def from_table(table: Any, weights: Any, orders: Union[Any, Sequence[Any]], names: Sequence[str] = ()) -> Profile:
    """The profile of a table of pandas, or of anything that gives a column for `table[name]`.

    `weights` names the column of weights. `orders` names the column of orders, each a sequence or a text with commas;
    or it is a list of the columns that have the first place, the second, and so on.
    """
    if isinstance(orders, list):
        read = [tuple(order) for order in zip(*(table[place] for place in orders))]
    else:
        read = [tuple(map(str.strip, it.split(","))) if isinstance(it, str) else tuple(it) for it in table[orders]]
    lines: List[Tuple[Any, Any]] = list(zip(table[weights], map(_numbers, read)))
    return Profile.of(lines, names)


def _numbers(order: Sequence[Any]) -> Sequence[Any]:
    """Numbers where a text has numbers."""
    if all(isinstance(it, str) and it.isdigit() for it in order):
        return tuple(map(int, order))
    return order


def _without_ties(order: Sequence[Sequence[Any]]) -> Tuple[int, ...]:
    tied: Optional[Sequence[Any]] = next((class_ for class_ in order if len(class_) != 1), None)
    if tied is not None:
        raise ValueError(f"an order has a tie: {tuple(tied)}")
    return tuple(int(class_[0]) for class_ in order)
