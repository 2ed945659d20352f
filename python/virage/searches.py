"""The search for a counterexample: a small case that shows that a rule lacks a property."""

from __future__ import annotations

import os
from collections import Counter
from dataclasses import dataclass, field, replace
from typing import Callable, FrozenSet, Iterator, List, Optional, Tuple

from .answers import Result
from .cases import (
    Bounds,
    Case,
    Draws,
    all_lifts,
    all_renamings,
    drawn_lifts,
    growing,
    in_order,
    joined,
    renamed,
    smaller,
)
from .commands import count, refute
from .engines import Engine, engine
from .profiles import Profile, RuleLike
from .program import Program
from .rules import OF_ELECTED
from .rules import ON_LIFTS as ON_LIFTS
from .terms import Term

Progress = Callable[[int, int], None]


@dataclass(frozen=True)
class Counterexample:
    """A case that shows that a rule lacks a property, with whom the rule elects on it.

    Of a property on lifts there is a second profile, in which `lifted` is raised, and of `neut` a renaming, which gives
    the new number of each alternative, from that of 1 on. `tried` is how many cases were judged until the first one was
    found that violates the property; this one is what was left of it.
    """

    property: str
    profile: Profile
    before: Result
    second: Optional[Profile] = None
    lifted: Optional[int] = None
    after: Optional[Result] = None
    renaming: Optional[Tuple[int, ...]] = None
    tried: int = 0

    @property
    def line(self) -> str:
        """The case on one line."""
        votes = "; ".join(f"{weight}: {','.join(map(str, order))}" for weight, order in self.profile.lines)
        text = votes or _no_votes(self.profile)
        if self.second is not None:
            changed = [
                f"{weight}: {','.join(map(str, after))}"
                for (_, before), (weight, after) in zip(self.profile.lines, self.second.lines) if before != after]
            text += f"; then {self.lifted} is raised: {'; '.join(changed) or 'nowhere'}"
        elif self.renaming is not None:
            text += f"; then renamed {','.join(map(str, self.renaming))}"
        return text

    def __str__(self) -> str:
        parts = [_listed(self.profile), _outcome(self.before)]
        if self.lifted is not None and self.second is not None and self.after is not None:
            parts += [f"and where {self.lifted} is raised", _listed(self.second), _outcome(self.after)]
        elif self.renaming is not None and self.after is not None:
            names = ", ".join(f"{x} is {new}" for x, new in enumerate(self.renaming, 1))
            parts += [f"and where {names}", _listed(renamed(self.profile, self.renaming)), _outcome(self.after)]
        return "\n".join(parts)


def _listed(profile: Profile) -> str:
    lines = [f"  {weight}: {','.join(map(str, order))}" for weight, order in profile.lines]
    return "\n".join(lines or [f"  {_no_votes(profile)}"])


def _no_votes(profile: Profile) -> str:
    return f"no votes on {profile.alternatives} alternative{'s' * (profile.alternatives != 1)}"


def _outcome(result: Result) -> str:
    return "  " + "; ".join(str(result).splitlines())


@dataclass
class Search:
    """A search, and what became of its cases so far: None for those that violate the property, else the reason."""

    rule: RuleLike
    property: str
    seed: int = 1
    bounds: Bounds = Bounds()
    program: Optional[Engine] = None
    tried: int = 0
    reasons: Counter[Optional[str]] = field(default_factory=Counter)

    def __post_init__(self) -> None:
        self.rule = _once_read(self.rule)
        if self.program is None:
            self.program = _for_many_calls()

    @property
    def means(self) -> str:
        """By what the cases are judged, in words."""
        if isinstance(self.program, Program):
            return f"a process of {self.program.path} each"
        return f"the {self.program}, in this process"

    @property
    def word(self) -> str:
        """The property without its number."""
        return self.property.partition("(")[0]

    def run(self, cases: int, progress: Optional[Progress] = None) -> Optional[Counterexample]:
        """The first case that violates the property, made as small as it goes; None where none of so many does."""
        for case in self.cases():
            if self.tried >= cases:
                return None
            self.tried += 1
            if self.violates(case):
                return self.found(self.shrunk(case))
            if progress is not None:
                progress(self.tried, cases)
        return None

    def cases(self) -> Iterator[Case]:
        """Cases without end: those of few voters in order, and then those that the seed draws."""
        for profile in in_order(self.bounds):
            yield from self._in_order(profile)
        draws = Draws(self.seed)
        for bounds in growing(self.bounds):
            yield from self._drawn(draws.profile(bounds), draws)

    def violates(self, case: Case) -> bool:
        """Whether the case shows that the rule lacks the property: by `refute`, and of `neut` by two counts."""
        if case.renaming is not None:
            before, after = self._count(case.profile), self._count(renamed(case.profile, case.renaming))
            same = _renamed_result(before, case.renaming) == after
            self.reasons["ClauseHolds" if same else None] += 1
            return not same
        if self.word in ON_LIFTS and case.second is None:
            # (a profile none of whose lifts the property speaks of)
            self.reasons["PremiseNotMet"] += 1
            return False
        verdict = refute(self.rule, self.property, case.profile, case.second, case.lifted, program=self.program)
        self.reasons[verdict.reason] += 1
        return verdict.violated

    def shrunk(self, case: Case) -> Case:
        """A case that violates the property, and that none of those does which are a little smaller."""
        while True:
            less = next(filter(self.violates, smaller(case)), None)
            if less is None:
                return case
            case = less

    def found(self, case: Case) -> Counterexample:
        """The counterexample that a case is."""
        other = case.second if case.renaming is None else renamed(case.profile, case.renaming)
        after = None if other is None else self._count(other)
        before = self._count(case.profile)
        return Counterexample(
            self.property, case.profile, before, case.second, case.lifted, after, case.renaming, self.tried)

    def _count(self, profile: Profile) -> Result:
        return replace(count(self.rule, profile, program=self.program), names={})

    def _in_order(self, profile: Profile) -> Iterator[Case]:
        if self.word in ON_LIFTS:
            spoken_of = self._worth_lifting(profile)
            if not spoken_of:
                yield Case(profile)
            for alternative in spoken_of:
                if self.word == "dimono":  # which says too that nobody is elected
                    yield Case(profile, profile, alternative)
                yield from all_lifts(profile, alternative)
        elif self.word == "neut":
            for renaming in all_renamings(profile.alternatives):
                yield Case(joined(profile), renaming=renaming)
        else:
            yield Case(joined(profile))

    def _drawn(self, profile: Profile, draws: Draws) -> Iterator[Case]:
        if self.word in ON_LIFTS:
            spoken_of = self._worth_lifting(profile)
            if not spoken_of:
                yield Case(profile)
            for alternative in spoken_of:
                yield from drawn_lifts(profile, alternative, draws)
        elif self.word == "neut":
            yield Case(profile, renaming=draws.order(profile.alternatives))
        else:
            yield Case(profile)

    def _worth_lifting(self, profile: Profile) -> List[int]:
        """The alternatives of whose lifts the property says something."""
        result = self._count(profile)
        spoken_of: FrozenSet[int] = result.elected if self.word in OF_ELECTED else result.deferred
        if self.word == "dimono" and result.elected:
            spoken_of = result.elected
        return sorted(spoken_of)


def search(
    rule: RuleLike,
    property: str,
    *,
    seed: int = 1,
    cases: int = 100_000,
    bounds: Bounds = Bounds(),
    progress: Optional[Progress] = None,
    program: Optional[Engine] = None,
) -> Optional[Counterexample]:
    """Looks for a case that shows that the last rule of a rule file lacks a property, as `mono` or `defers(2)`.

    All profiles of few voters are gone through in order first, so that what is found is small, and then those that the
    seed draws, until one violates the property or so many cases are tried. What is found is made smaller while it still
    violates the property. Each case is judged by `refute`, so what is found is proved: the rule lacks the property. Of
    `neut`, which `refute` doesn't judge, it is by two counts. None proves nothing.

    `progress` is called after each case with how many were tried, and how many are to be.
    """
    return Search(rule, property, seed, bounds, program).run(cases, progress)


def _for_many_calls() -> Engine:
    """What is called where no program is handed in: without a look at the sources before each call."""
    used = engine()
    return used.direct() if isinstance(used, Program) else used


def _once_read(rule: RuleLike) -> RuleLike:
    """The rule, and of a file its content, so that it is read just once."""
    if not isinstance(rule, (str, os.PathLike)) or (isinstance(rule, str) and ";" in rule) or not os.path.exists(rule):
        return rule
    with open(rule, "rb") as file:
        return file.read()


def _renamed_result(result: Result, renaming: Tuple[int, ...]) -> Result:
    sets = (result.elected, result.rejected, result.deferred)
    return Result(*(frozenset(renaming[x - 1] for x in found) for found in sets))
