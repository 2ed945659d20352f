"""The parts of a page that show how a result came about: the steps with their scores, the pairs, and the ballots."""

from __future__ import annotations

from typing import Iterable, List, Mapping, Optional, Sequence, Tuple

from .answers import Result
from .explanations import Account, Explanation, Pairs, Visit
from .markup import Markup, element, joined, term_code
from .profiles import Profile

# so many members of a list are shown at once; the others are folded
LISTED = 10

# what is drawn of larger things: the first steps; no table of more alternatives, rounds or lines
_STEPS = 400
_ALTERNATIVES = 24
_ROUNDS = 12
_LINES = 20

# of a longer name this much is shown
_SHOWN = 40


def told(number: int, names: Mapping[int, str]) -> Markup:
    """An alternative by its number, and its name where it has one."""
    shown = [element("span", str(number), class_="number")]
    if number in names:
        name = names[number]
        shown += [" ", element("bdi", name if len(name) <= _SHOWN else name[:_SHOWN] + "…", class_="name")]
    return joined(*shown)


def _all_told(numbers: Iterable[int], names: Mapping[int, str]) -> Markup:
    """These alternatives in a sentence, and of many how many more there are."""
    ascending = sorted(numbers)
    listed = [told(number, names) for number in ascending[:LISTED]]
    between = [part for one in listed for part in (Markup(", "), one)][1:]
    more = len(ascending) - len(listed)
    return joined(*between, *([f" and {more:,} more"] if more else []))


# ---- the result beside the pairs


def facts(result: Result, voters: int, explanation: Optional[Explanation], pairs: Optional[Pairs]) -> Iterable[Markup]:
    """What is to be known of a result besides the sets: that nobody voted, a tie, a Condorcet winner who loses."""
    if voters == 0:
        yield element("p", "Nobody voted, so that no opinion stands behind this result.", class_="fact")
    if len(result.elected) > 1:
        many = f"{len(result.elected):,} are elected together: this rule doesn't choose among them."
        yield element("p", many, class_="fact")
    if pairs is None or pairs.winner is None or result.elected == {pairs.winner}:
        return
    yield _passed_over(pairs.winner, result, explanation, pairs.names)


def _passed_over(winner: int, result: Result, explanation: Optional[Explanation], names: Mapping[int, str]) -> Markup:
    if winner in result.elected:
        fate = ", and isn't elected alone"
    elif winner in result.deferred:
        fate = ", and isn't elected but deferred"
    else:
        fate = f", and isn't elected{_when(winner, explanation)}"
    who = element("strong", told(winner, names))
    said = " wins against each other alternative in a duel (it is the Condorcet winner)"
    return element("p", who, said, fate, ".", class_="fact")


def _when(one: int, explanation: Optional[Explanation]) -> str:
    """Where a rejected alternative goes, if that is a round of a loop."""
    found = None if explanation is None else _round_of_leaving(explanation.account, one)
    return "" if found is None else f": it goes in round {found}"


def _round_of_leaving(account: Account, one: int) -> Optional[int]:
    """The round of the first loop in which an alternative is rejected, if it is in one."""
    below = enumerate(account.below, 1)
    if account.visit.term.word in ("loop", "until"):
        return next((number for number, part in below if one in part.visit.result.rejected), None)
    return next((found for _, part in below for found in [_round_of_leaving(part, one)] if found), None)


# ---- the steps


def steps(explanation: Explanation) -> Iterable[Markup]:
    """The steps of a rule, folded where they are of a composition."""
    yield element(
        "p",
        "Each step is a part of the rule. It decides on some alternatives, and all others are struck from the ballots "
        "before it counts. You can check the result by hand: count the scores on the ballots, and see that each step "
        "follows from the steps inside it.",
    )
    if len(explanation.visits) > _STEPS:
        many = f"There are {len(explanation.visits):,} steps, too many to be drawn. The text of explain has them all."
        yield element("p", many)
        return
    tree = element("ul", _step(explanation.account, explanation.names, unfolded=True), role="list")
    yield element("div", tree, class_="steps")


def _step(account: Account, names: Mapping[int, str], unfolded: bool = False) -> Markup:
    visit = account.visit
    if not account.below:
        return element("li", _asked(visit, names), *_scored(visit, names), class_="step")
    below: List[Markup] = []
    if _is_tabled(account):
        below.append(_rounds(account, names))
    else:
        alone = len(account.below) == 1 and visit.term.word not in ("loop", "until")
        listed = (_step(part, names, unfolded=alone or _opens(part)) for part in account.below)
        below.append(element("ul", *listed, role="list"))
    summary = element("summary", _asked(visit, names))
    given = {"open": ""} if unfolded else {}
    return element("li", element("details", summary, *below, **given), class_="step")


def _opens(account: Account) -> bool:
    """Whether a composition's steps are shown at once: those of a loop whose rounds are a table."""
    return _is_tabled(account)


def _asked(visit: Visit, names: Mapping[int, str]) -> Markup:
    """Which part was asked, about how many, and what it made of them."""
    term = visit.term
    head = term.head(*("…" for _ in term.parts))
    result = visit.result
    made = (("elects", result.elected), ("rejects", result.rejected), ("defers", result.deferred))
    said: List[Markup] = []
    for verb, numbers in made:
        if numbers:
            said += [joined(Markup("; " if said else ""), f"{verb} ", _all_told(numbers, names))]
    count = len(visit.domain)
    about = "nobody" if not count else f"{count:,} alternatives" if count > 1 else "one alternative"
    outcome = joined(*said) if said else Markup("so nothing happens")
    return joined(term_code(head), " ", element("span", f"decides on {about}: ", class_="gloss"), outcome)


def _scored(visit: Visit, names: Mapping[int, str]) -> Iterable[Markup]:
    if not visit.scores or len(visit.scores) > _ALTERNATIVES * 4:
        return
    yield _table(visit, [visit], ["Score"], names)


# ---- rounds of a loop


def _is_tabled(account: Account) -> bool:
    """Whether its rounds make one table: they are of one module that goes by scores, and few."""
    rounds = account.below
    scored = all(not part.below and part.visit.scores is not None for part in rounds)
    few = len(rounds) <= _ROUNDS and len(account.visit.domain) <= _ALTERNATIVES
    return account.visit.term.word in ("loop", "until") and len(rounds) > 0 and scored and few


def _rounds(account: Account, names: Mapping[int, str]) -> Markup:
    visits = [part.visit for part in account.below]
    return _table(account.visit, visits, [f"Round {number}" for number in range(1, len(visits) + 1)], names)


def _table(whole: Visit, visits: Sequence[Visit], titles: Sequence[str], names: Mapping[int, str]) -> Markup:
    """A row an alternative, a column a visit: the score with a bar, and what becomes of who doesn't stay."""
    scores = [score for visit in visits for score in (visit.scores or {}).values()]
    least, most = min(0, *scores), max(0, *scores)
    head = element("tr", element("th", "Alternative", scope="col"), *(element("th", it, scope="col") for it in titles))
    rows = []
    for one in _by_leaving(whole.domain, visits):
        cells = [_cell(visit, one, least, most) for visit in visits]
        rows.append(element("tr", element("th", told(one, names), scope="row"), *cells))
    caption = element("caption", "Scores by which ", term_code(str(visits[0].term)), " goes")
    shown = [_scores(head, rows[:LISTED], caption)]
    if len(rows) > LISTED:
        shown.append(element("details", more(len(rows) - LISTED), _scores(head, rows[LISTED:]), class_="more"))
    return element("div", *shown, class_="wide", tabindex="0", role="group", aria_label="scores")


def _scores(head: Markup, rows: Sequence[Markup], *caption: Markup) -> Markup:
    return element("table", *caption, element("thead", head), element("tbody", *rows), class_="scores")


def more(number: int) -> Markup:
    """The summary of what is folded of a list."""
    return element("summary", f"and {number:,} more")


def _by_leaving(domain: Iterable[int], visits: Sequence[Visit]) -> Sequence[int]:
    """First who stays, then who leaves last; of one round, by score."""

    def place(one: int) -> Tuple[int, int, int]:
        last = max((turn for turn, visit in enumerate(visits) if one in (visit.scores or {})), default=-1)
        if last < 0:
            return (1, 0, one)
        visit = visits[last]
        left = last if one in visit.result.rejected else len(visits)
        return (-left, -(visit.scores or {})[one], one)

    return sorted(domain, key=place)


def _cell(visit: Visit, one: int, least: int, most: int) -> Markup:
    if visit.scores is None or one not in visit.scores:
        return element("td", "", class_="gone")
    score = visit.scores[one]
    fate = "rejected" if one in visit.result.rejected else "elected" if one in visit.result.elected else ""
    line = [element("span", f"{score:,}", class_="score")]
    if fate:
        line += [" ", element("span", "✕ rejected" if fate == "rejected" else "✓ elected", class_="fate")]
    bar = _bar(score, least, most)
    return element("td", element("div", *line, class_="line"), bar, **({"class_": fate} if fate else {}))


def _bar(score: int, least: int, most: int) -> Markup:
    """A bar from 0 to the score, among all from the least to the greatest."""
    width = max(1, most - least)
    left, right = (min(0, score) - least) * 1000 // width, (max(0, score) - least) * 1000 // width
    bar = f'<rect x="{left}" y="0" width="{max(0, right - left)}" height="10"></rect>'
    drawn = f'<svg class="bar" viewBox="0 0 1000 10" preserveAspectRatio="none" aria-hidden="true">{bar}</svg>'
    return Markup(drawn)


# ---- pairs


def duels(pairs: Pairs) -> Iterable[Markup]:
    """Who is preferred to whom, and the Condorcet winner."""
    if pairs.winner is None:
        yield element("p", "There is no Condorcet winner: nobody wins against each other alternative in a duel.")
    else:
        win = " is the Condorcet winner: against each other alternative, more voters prefer it than not."
        yield element("p", element("strong", told(pairs.winner, pairs.names)), win)
    if pairs.alternatives > _ALTERNATIVES:
        yield element("p", f"The table of {pairs.alternatives:,} alternatives isn't drawn. The text of pairs has it.")
        return
    yield element(
        "p",
        "Each row says how many voters prefer its alternative to that of the column, and by how many they outnumber "
        "the others. A win has the mark ▲.",
    )
    numbers = range(1, pairs.alternatives + 1)
    head = element("tr", element("td", ""), *(element("th", told(it, pairs.names), scope="col") for it in numbers))
    rows = [
        element("tr", element("th", told(one, pairs.names), scope="row"), *(_duel(pairs, one, it) for it in numbers))
        for one in numbers
    ]
    table = element("table", element("thead", head), element("tbody", *rows), class_="pairs")
    yield element("div", table, class_="wide", tabindex="0", role="group", aria_labelledby="pairs")


def _duel(pairs: Pairs, one: int, other: int) -> Markup:
    if one == other:
        return element("td", "–", class_="self")
    margin = pairs.margin(one, other)
    sign = "▲ " if margin > 0 else ""
    by = f"+{margin:,}" if margin > 0 else f"−{-margin:,}" if margin < 0 else "±0"
    told_ = joined(f"{sign}{pairs.prefer(one, other):,} ", element("span", by, class_="margin"))
    return element("td", told_, **({"class_": "win"} if margin > 0 else {}))


# ---- ballots


def ballots(profile: Profile, names: Mapping[int, str]) -> Iterable[Markup]:
    """The lines of a profile as columns, the most preferred on top."""
    weights: List[Markup] = []
    for weight, _ in profile.lines:
        weights.append(element("th", f"{weight:,}", scope="col"))
    rows = []
    for place in range(profile.alternatives):
        cells = (element("td", told(order[place], names)) for _, order in profile.lines)
        rows.append(element("tr", element("th", f"{place + 1}.", scope="row"), *cells))
    head = element("tr", element("td", "voters"), *weights)
    table = element("table", element("thead", head), element("tbody", *rows), class_="ballots")
    yield element("div", table, class_="wide", tabindex="0", role="group", aria_labelledby="ballots")


def is_drawn(profile: Optional[Profile]) -> bool:
    """Whether the ballots are few enough to be columns."""
    return profile is not None and 0 < len(profile.lines) <= _LINES and profile.alternatives <= 2 * _ALTERNATIVES


def sections(
    explanation: Optional[Explanation], pairs: Optional[Pairs], profile: Optional[Profile]
) -> Iterable[Tuple[str, str, Tuple[Markup, ...]]]:
    """The id, the title and the content of each section. Ballots of many lines are folded."""
    names = explanation.names if explanation else pairs.names if pairs else profile.names if profile else {}
    if explanation is not None:
        yield "account", "How the result came about", tuple(steps(explanation))
    if pairs is not None:
        yield "pairs", "Who is preferred to whom", tuple(duels(pairs))
    if profile is not None and is_drawn(profile):
        columns = tuple(ballots(profile, names))
        few = len(profile.lines) <= LISTED
        show = element("summary", f"Show {len(profile.lines):,} ballots")
        yield "ballots", "The ballots", columns if few else (element("details", show, *columns),)
