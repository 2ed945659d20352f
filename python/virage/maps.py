"""The map of a rule: which properties are derived of it, which are false, and which are open."""

from __future__ import annotations

from dataclasses import dataclass
from typing import Callable, Dict, Mapping, Optional

from .commands import report
from .derivations import Derivation
from .engines import Engine
from .markup import Markup, element, joined, term_code
from .profiles import Profile, RuleLike
from .rules import table
from .searches import Counterexample, Search
from .terms import Term

# what is derived doesn't depend on the profile
_NO_VOTES = Profile(1, ())

Telling = Callable[[str, int, int], None]


@dataclass(frozen=True)
class Cell:
    """What is known of a property: the derivation where it holds, the case where it is false, or neither."""

    property: str
    derivation: Optional[Derivation] = None
    case: Optional[Counterexample] = None
    tried: int = 0

    @property
    def kind(self) -> str:
        """In a word: derived, false, or open."""
        if self.derivation is not None:
            return "derived"
        return "open" if self.case is None else "false"

    @property
    def why(self) -> str:
        """The derivation, the case on one line, or how many cases were tried."""
        if self.derivation is not None:
            return str(self.derivation)
        if self.case is not None:
            return self.case.line
        return f"none of {self.tried:,} cases violates it"


@dataclass(frozen=True)
class PropertyMap:
    """A rule, and what is known of each of its properties. In a notebook it is shown as a table."""

    term: Term
    cells: Mapping[str, Cell]

    def __str__(self) -> str:
        width = max(map(len, self.cells))
        rows = (f"{cell.property:<{width}}  {cell.kind:<7}  {cell.why}" for cell in self.cells.values())
        return "\n".join([f"rule {self.term}", *rows])

    def _repr_html_(self) -> Markup:
        """The table of a notebook."""
        says = table().properties
        rows = (
            element(
                "tr",
                element("td", element("code", cell.property), title=says[cell.property.partition("(")[0]].says),
                element("td", cell.kind),
                element("td", element("code", cell.why), style="text-align: left"),
            )
            for cell in self.cells.values()
        )
        return element("table", element("caption", term_code(str(self.term))), element("tbody", joined(*rows)))


def property_map(
    rule: RuleLike,
    *,
    seed: int = 1,
    cases: int = 10_000,
    progress: Optional[Telling] = None,
    program: Optional[Engine] = None,
) -> PropertyMap:
    """What is known of the last rule of a rule file: each property derived, false by a case, or open.

    Of what isn't derived so many cases are tried (`search` says which). What is open may be true or false.

    `progress` is called after each case with the property, how many cases were tried, and how many are to be.
    """
    search = Search(rule, "ne", seed, program=program)
    told = report(search.rule, _NO_VOTES, program=search.program)
    cells: Dict[str, Cell] = {}
    for prop in told.findings:
        cells[prop] = Cell(prop, told.holds.get(prop))
        if prop not in told.holds:
            one = Search(search.rule, prop, seed, program=search.program)
            found = one.run(cases, None if progress is None else _of(prop, progress))
            cells[prop] = Cell(prop, None, found, one.tried)
    return PropertyMap(told.term, cells)


def _of(property: str, progress: Telling) -> Callable[[int, int], None]:
    return lambda tried, cases: progress(property, tried, cases)
