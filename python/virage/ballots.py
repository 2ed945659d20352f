"""Makes a profile of a file of ballots as people have them, and says what was done to make it.

A ballot that isn't a strict complete order is refused, until the caller names what becomes of such ballots. What was
read, what was left out and each choice stand at the profile's end, as lines that the program skips.
"""

from __future__ import annotations

import io
import os
from array import array
from dataclasses import dataclass, field
from itertools import chain, islice, permutations, product
from math import factorial, gcd
from typing import (
    BinaryIO,
    Callable,
    Collection,
    Dict,
    Iterable,
    Iterator,
    List,
    Mapping,
    NamedTuple,
    Optional,
    Sequence,
    Tuple,
    Union,
)

from .ballot_forms import (
    FORMS,
    Ballot,
    Groups,
    Layout,
    Lines,
    Seen,
    called,
    cleaned,
    form_of,
    groups_of,
    order_text,
    quoted,
    read_form,
)
from .faults import BallotsRefused, ReadFault
from .profiles import PathOrText, Profile
from .usage import nearest

# what the program reads at most
_MOST_LINES = 1_000_000
_MOST_VOTERS = 2**64 - 1
_MOST_BYTES = 268_435_456

# how many lines are written at once
_LINES_AT_ONCE = 4096

EMPTY, TIED, INCOMPLETE = "empty", "tied", "incomplete"

# what may be named where a ballot is refused
_CHOICES = {
    EMPTY: ["--empty drop leaves such ballots out"],
    TIED: [
        "--ties drop leaves such ballots out",
        "--ties all has each stand for all strict orders that agree with it, in equal parts",
    ],
    INCOMPLETE: [
        "--incomplete drop leaves such ballots out",
        "--incomplete all has each stand for all complete orders that agree with it, in equal parts",
        "--incomplete worst ORDER puts what is missing behind, in this order",
    ],
}


class Count(NamedTuple):
    """So many ballots, of so many voters."""

    ballots: int = 0
    voters: int = 0

    def __str__(self) -> str:
        plural = ("" if self.ballots == 1 else "s", "" if self.voters == 1 else "s")
        return f"{self.ballots:,} ballot{plural[0]} of {self.voters:,} voter{plural[1]}"


def _sum_of(counts: Iterable[Count]) -> Count:
    listed = tuple(counts)
    return Count(sum(count.ballots for count in listed), sum(count.voters for count in listed))


@dataclass(frozen=True)
class Choices:
    """What becomes of ballots that aren't strict complete orders, and of equal ones."""

    incomplete: Optional[str] = None
    worst: Sequence[str] = ()
    ties: Optional[str] = None
    empty: Optional[str] = None
    only: Sequence[str] = ()
    most: int = _MOST_LINES
    keep_lines: bool = False


@dataclass(frozen=True)
class Ballots(Profile):
    """The profile of a file of ballots, and what was done to make it.

    `taken`, `written` and `left_out` count ballots and voters of the file; each of `taken` is in one of the others.
    `factor` is what the weights were multiplied by. `told` says all this in words, which `text` has at its end.
    """

    title: str = ""
    told: Tuple[str, ...] = ()
    taken: Count = Count()
    written: Count = Count()
    left_out: Mapping[str, Count] = field(default_factory=dict)
    factor: int = 1

    def text(self) -> bytes:
        """The `.soc` file of this profile, with what was done to make it at its end."""
        said = [f"# TITLE: {self.title}", *(f"# {line}" for line in self.told)]
        return super().text() + "".join(line + "\n" for line in said).encode("utf-8", "surrogateescape")


# ---- ballots as they come, and what is made of them


class _Tally:
    """Ballots, equal ones joined where that is wanted: their orders, first rows, numbers of ballots and of voters."""

    def __init__(self, keep_lines: bool) -> None:
        self._places: Dict[str, int] = {}
        self._orders: List[str] = []
        self._keep_lines = keep_lines
        self.rows = array("Q")
        self.ballots = array("Q")
        self.voters: List[int] = []

    def fill(self, ballots: Iterable[Ballot]) -> int:
        """Takes all the ballots, and gives the row of the last one."""
        if self._keep_lines:
            return self._fill_lines(ballots)
        places, voters_of, ballots_of, row = self._places, self.voters, self.ballots, 1
        for row, voters, order in ballots:
            place = places.setdefault(order, len(voters_of))
            if place < len(voters_of):
                voters_of[place] += voters
                ballots_of[place] += 1
            else:
                voters_of.append(voters)
                ballots_of.append(1)
                self.rows.append(row)
        return row

    def _fill_lines(self, ballots: Iterable[Ballot]) -> int:
        row = 1
        for row, voters, order in ballots:
            self._orders.append(order)
            self.voters.append(voters)
            self.ballots.append(1)
            self.rows.append(row)
        return row

    @property
    def orders(self) -> Collection[str]:
        return self._orders if self._keep_lines else self._places

    def __iter__(self) -> Iterator[Tuple[str, int]]:
        return zip(self.orders, self.voters)

    def __len__(self) -> int:
        return len(self.voters)


class _Written:
    """The lines of the profile: weights and orders, equal orders joined where that is wanted."""

    def __init__(self, keep_lines: bool) -> None:
        self._weights: Dict[str, int] = {}
        self._lines: List[Tuple[str, int]] = []
        self._keep_lines = keep_lines

    def add(self, order: str, weight: int) -> None:
        if self._keep_lines:
            self._lines.append((order, weight))
        else:
            self._weights[order] = self._weights.get(order, 0) + weight

    def __iter__(self) -> Iterator[Tuple[str, int]]:
        return iter(self._lines if self._keep_lines else self._weights.items())

    def __len__(self) -> int:
        return len(self._lines if self._keep_lines else self._weights)


@dataclass
class _Problem:
    """Ballots that need a choice which wasn't named: the first of them, and how many there are."""

    row: int
    why: str
    count: Count = Count()


class Conversion:
    """A file of ballots that has been read, and the profile that the choices make of it."""

    def __init__(self, seen: Seen, tally: _Tally, layout: Layout, choices: Choices) -> None:
        self._choices = choices
        self._row = seen.last_row
        self.title = seen.title
        self.what = seen.what
        self.notes = list(seen.notes)
        self.taken = self.written = Count()
        self.left_out: Dict[str, Count] = {}
        self._labels = seen.labels
        self._kept = self._numbering(seen, layout)
        # an order over all alternatives, numbered as they are, is written as it is
        self._as_read = self._kept == list(range(1, len(seen.labels) + 1))
        self._numbers = {old: new for new, old in enumerate(self._kept, 1)}
        self.names = [seen.labels[old - 1] for old in self._kept]
        self._worst = self._places_behind()
        self._problems: Dict[str, _Problem] = {}
        self.factor = 1
        self._gaps = seen.rows_with_gaps
        self.lines = self._settled(tally)
        self._compare_with_limits()

    # ---- alternatives

    def _numbering(self, seen: Seen, layout: Layout) -> List[int]:
        """The alternatives that the profile has, by the numbers of the file, in the order of their new numbers."""
        kept = list(range(1, len(seen.labels) + 1))
        if layout.names:
            kept = self._found(layout.names, "--names")
            if len(kept) != len(seen.labels):
                missing = next(i for i in range(1, len(seen.labels) + 1) if i not in kept)
                raise BallotsRefused(1, f"--names lacks {called(missing, seen.labels)}, an alternative of the file")
        if self._choices.only:
            only = set(self._found(self._choices.only, "--only"))
            kept = [i for i in kept if i in only]
        kept = [i for i in kept if i not in seen.withdrawn]
        if not kept:
            raise BallotsRefused(self._row, "there are no alternatives")
        return kept

    def _found(self, names: Sequence[str], option: str) -> List[int]:
        """The numbers of the alternatives that an option names."""
        found = []
        for name in names:
            label = cleaned(name)
            numbers = [i for i, other in enumerate(self._labels, 1) if other == label]
            if not numbers and label.isascii() and label.isdigit() and 1 <= int(label) <= len(self._labels):
                numbers = [int(label)]
            if len(numbers) != 1 or numbers[0] in found:
                raise BallotsRefused(1, f"{option}: {self._not_found(label, numbers)}")
            found += numbers
        return found

    def _not_found(self, label: str, numbers: Sequence[int]) -> str:
        if len(numbers) > 1:
            return f"several alternatives are called {quoted(label)}"
        if numbers:
            return f"{quoted(label)} stands there twice"
        known = [name for name in self._labels if name]
        near = nearest(label, known) if known and len(label) <= 40 else None
        return f"no alternative of the file is called {quoted(label)}{f' (is {quoted(near)} meant?)' if near else ''}"

    def _places_behind(self) -> Dict[int, int]:
        """The places of alternatives, by their new numbers, in the order that --incomplete worst names."""
        if self._choices.incomplete != "worst":
            return {}
        found = self._found(self._choices.worst, "--incomplete worst")
        return {self._numbers[old]: place for place, old in enumerate(found) if old in self._numbers}

    # ---- ballots

    def _settled(self, tally: _Tally) -> Union[_Tally, _Written]:
        """What the choices make of the ballots."""
        others = self._judged(tally)
        self._compare_with_most(tally, others)
        if not others and self.factor == 1:
            return tally
        written = _Written(self._choices.keep_lines)
        for place, (order, voters) in enumerate(tally):
            groups = others.get(place, [])
            if groups is None:
                continue
            if not groups:
                written.add(order, voters * self.factor)
                continue
            part = voters * self.factor // _extensions(groups)
            for strict in _strict_orders(groups):
                written.add(strict, part)
        return self._reduced(written)

    def _judged(self, tally: _Tally) -> Dict[int, Optional[Groups]]:
        """Of each ballot that isn't written as it is what it becomes: its order with all ties, or None, left out.

        It counts the ballots, finds the factor, and refuses the first ballot that needs a choice.
        """
        commas = len(self._kept) - 1
        others: Dict[int, Optional[Groups]] = {}
        for place, order in enumerate(tally.orders):
            if not self._as_read or "{" in order or order.count(",") != commas or not order:
                others[place] = groups_of(order)
        made = len(tally) - len(others)
        for place, read in others.items():
            row, voters = tally.rows[place], tally.voters[place]
            groups = self._decided(read or [], row, Count(tally.ballots[place], voters))
            others[place] = groups
            if groups is not None:
                made += self._extended(groups, row, voters, made)
        self.taken = Count(sum(tally.ballots), sum(tally.voters))
        if self._problems:
            self._refuse()
        left = _sum_of(self.left_out.values())
        self.written = Count(self.taken.ballots - left.ballots, self.taken.voters - left.voters)
        if not self.written.ballots:
            raise BallotsRefused(self._row, "no ballot is left" if self.taken.ballots else "there are no ballots")
        return others

    def _compare_with_most(self, tally: _Tally, others: Mapping[int, Optional[Groups]]) -> None:
        """Refuses more voters than the program counts, at the row where they are more."""
        if self.written.voters * self.factor <= _MOST_VOTERS:
            return
        total = 0
        for place, voters in enumerate(tally.voters):
            total += voters * self.factor if others.get(place, []) is not None else 0
            if total > _MOST_VOTERS:
                raise BallotsRefused(tally.rows[place], f"the weights add up to more than {_MOST_VOTERS:,}")

    def _decided(self, groups: Groups, row: int, count: Count) -> Optional[Groups]:
        """What the choices make of a ballot: an order with ties of all alternatives; None where it is left out."""
        if not self._as_read:
            numbers = self._numbers
            groups = [[numbers[old] for old in group if old in numbers] for group in groups]
            groups = [sorted(group) for group in groups if group]
        listed = {number for group in groups for number in group}
        missing = [number for number in range(1, len(self._kept) + 1) if number not in listed]
        wrong = [EMPTY] if not listed else []
        if listed and any(len(group) > 1 for group in groups):
            wrong.append(TIED)
        if listed and missing:
            wrong.append(INCOMPLETE)
        named = {EMPTY: self._choices.empty, TIED: self._choices.ties, INCOMPLETE: self._choices.incomplete}
        for kind in wrong:
            if named[kind] is None:
                self._note(kind, groups, missing, row, count)
        dropped = next((kind for kind in wrong if named[kind] == "drop"), None)
        if dropped is not None and not self._problems:
            self.left_out[dropped] = _sum_of([self.left_out.get(dropped, Count()), count])
        if dropped is not None or self._problems:
            return None
        return groups + self._behind(missing, row) if missing else groups

    def _behind(self, missing: List[int], row: int) -> Groups:
        """What stands behind an incomplete order: what is missing, in any order or in the named one."""
        if self._choices.incomplete == "all":
            return [missing]
        unknown = next((number for number in missing if number not in self._worst), None)
        if unknown is not None:
            why = f"the ballot doesn't list {self._called(unknown)}, and neither does the order of --incomplete worst"
            raise BallotsRefused(row, why)
        return [[number] for number in sorted(missing, key=self._worst.__getitem__)]

    def _extended(self, groups: Groups, row: int, voters: int, made: int) -> int:
        """How many lines a ballot makes; the factor is what keeps their weights whole."""
        number = _extensions(groups)
        if made + number > self._choices.most and number > 1:
            hints = ["--most N allows more", "--only NAMES restricts the ballots to fewer alternatives"]
            if self._choices.most >= _MOST_LINES:
                hints = hints[1:]
            why = f"this ballot stands for {_shown(number)} orders, and with it there are more than"
            raise BallotsRefused(row, f"{why} {self._choices.most:,} lines", hints)
        wanted = number // gcd(number, voters)
        self.factor = self.factor * wanted // gcd(self.factor, wanted)
        return number

    def _called(self, number: int) -> str:
        return called(number, self.names)

    def _note(self, kind: str, groups: Groups, missing: Sequence[int], row: int, count: Count) -> None:
        """Notes a ballot that needs a choice."""
        if kind not in self._problems:
            why = "the ballot is empty"
            if kind == TIED:
                tied = next(group for group in groups if len(group) > 1)
                why = f"the ballot has a tie: {' = '.join(map(self._called, tied[:9]))}{' ..' if tied[9:] else ''}"
            elif kind == INCOMPLETE:
                names = ", ".join(map(self._called, missing[:9]))
                why = f"the ballot is incomplete: it doesn't list {names}{' ..' if missing[9:] else ''}"
            self._problems[kind] = _Problem(row, why)
        self._problems[kind].count = _sum_of([self._problems[kind].count, count])

    def _refuse(self) -> None:
        """Refuses the file for the first ballot that needs a choice, and names what may be chosen."""
        row = min(problem.row for problem in self._problems.values())
        here = [kind for kind, problem in self._problems.items() if problem.row == row]
        why = ", and ".join(self._problems[kind].why for kind in here)
        said = [f"{kind}: {problem.count}, among {self.taken}" for kind, problem in self._problems.items()]
        hints = [hint for kind in self._problems for hint in _CHOICES[kind]]
        raise BallotsRefused(row, why, [*said, *hints])

    def _reduced(self, written: _Written) -> _Written:
        """The lines with the least weights that are whole."""
        common = self.factor
        if common > 1:
            for _, weight in written:
                common = gcd(common, weight)
        if common == 1:
            return written
        reduced = _Written(self._choices.keep_lines)
        for order, weight in written:
            reduced.add(order, weight // common)
        self.factor //= common
        return reduced

    def _compare_with_limits(self) -> None:
        """Refuses more lines, or longer ones, than the program reads."""
        if len(self.lines) > _MOST_LINES:
            raise BallotsRefused(self._row, f"{len(self.lines):,} lines, and {_MOST_LINES:,} are counted")
        # (a count has at most 20 digits, and metadata are short beside what is left)
        longest = len(self.lines) * (25 + 5 * len(self.names)) + 2**20
        if longest > _MOST_BYTES and sum(len(order) + 25 for order, _ in self.lines) > _MOST_BYTES - 2**20:
            raise BallotsRefused(self._row, f"the profile has more than {_MOST_BYTES:,} bytes")

    # ---- what is told

    def told(self) -> List[str]:
        """What was read and done, in words, a line each."""
        said = [f"read: {self.what}, {self.taken}", *self.notes]
        if self._gaps:
            said.append(f"ballots that skip a place or a rank: {self._gaps:,}; only the order counts")
        said += [f"choice: {line}" for line in self._told_choices()]
        said += [f"left out: {kind}, {count}" for kind, count in self.left_out.items()]
        if self.factor > 1:
            said.append(f"all weights are multiplied by {self.factor:,}, so that parts of voters are whole")
        return [*said, f"written: {self.written}, as {len(self.lines):,} line{'' if len(self.lines) == 1 else 's'}"]

    def _told_choices(self) -> Iterator[str]:
        choices = self._choices
        if choices.only:
            yield f"--only, the ballots are restricted to {', '.join(map(quoted, map(cleaned, choices.only)))}"
        if choices.empty:
            yield f"--empty {choices.empty}, empty ballots are left out"
        if choices.ties:
            yield f"--ties {choices.ties}, {_MEANINGS['ties', choices.ties]}"
        if choices.incomplete:
            order = ", ".join(map(quoted, map(cleaned, choices.worst)))
            said = f"{_MEANINGS['incomplete', choices.incomplete]}{f': {order}' if order else ''}"
            yield f"--incomplete {choices.incomplete}, {said}"
        if choices.keep_lines:
            yield "--keep-lines, equal orders stay lines of their own"

    # ---- the profile

    def head(self) -> List[str]:
        """The lines before the votes."""
        voters = sum(weight for _, weight in self.lines)
        said = ["# DATA TYPE: soc", f"# NUMBER ALTERNATIVES: {len(self.names)}", f"# NUMBER VOTERS: {voters}"]
        said.append(f"# NUMBER UNIQUE ORDERS: {len(self.lines)}")
        return said + [f"# ALTERNATIVE NAME {i}: {name}" for i, name in enumerate(self.names, 1) if name]

    def write(self, file: BinaryIO) -> None:
        """Writes the profile, and at its end what was done to make it."""
        lines = chain(
            (line + "\n" for line in self.head()),
            (f"{weight}: {order}\n" for order, weight in self.lines),
            [f"# TITLE: {self.title}\n", *(f"# {line}\n" for line in self.told())],
        )
        while True:
            part = "".join(islice(lines, _LINES_AT_ONCE))
            if not part:
                return
            file.write(part.encode("utf-8", "surrogateescape"))

    def ballots(self) -> Ballots:
        """The same as data."""
        lines = tuple((weight, tuple(map(int, order.split(",")))) for order, weight in self.lines)
        names = {i: name for i, name in enumerate(self.names, 1) if name}
        told = tuple(self.told())
        left = dict(self.left_out)
        return Ballots(len(self.names), lines, names, self.title, told, self.taken, self.written, left, self.factor)


_MEANINGS = {
    ("ties", "drop"): "ballots with ties are left out",
    ("ties", "all"): "a ballot with ties stands for all strict orders that agree with it, in equal parts",
    ("incomplete", "drop"): "incomplete ballots are left out",
    ("incomplete", "all"): "an incomplete ballot stands for all complete orders that agree with it, in equal parts",
    ("incomplete", "worst"): "what an incomplete ballot doesn't list stands behind, in this order",
}


def _extensions(groups: Groups) -> int:
    """How many strict orders agree with an order with ties."""
    number = 1
    for group in groups:
        number *= factorial(len(group))
    return number


def _strict_orders(groups: Groups) -> Iterator[str]:
    for parts in product(*(permutations(map(str, group)) for group in groups)):
        yield ",".join(number for part in parts for number in part)


def _shown(number: int) -> str:
    return f"{number:,}" if number < 10**15 else "more than 1,000,000,000,000,000"


# ---- files


def convert(
    file: BinaryIO,
    name: str,
    layout: Layout,
    choices: Choices,
    tell: Optional[Callable[[int], None]] = None,
) -> Conversion:
    """Reads a file of this name. `tell` is called now and then with the number of lines that have been read."""
    seen = Seen(_one_line(name))
    lines = Lines(file, layout.encoding, tell)
    tally = _Tally(choices.keep_lines)
    seen.last_row = tally.fill(read_form(lines, form_of(lines, name, layout), layout, seen))
    seen.title = _one_line(seen.title)
    return Conversion(seen, tally, layout, choices)


def _one_line(text: str) -> str:
    return "".join(letter if letter.isprintable() else "?" for letter in text)


def read_ballots(
    source: PathOrText,
    *,
    form: Optional[str] = None,
    ranks: Union[bool, Sequence[str]] = False,
    choices: Sequence[str] = (),
    list: Optional[str] = None,  # pylint: disable=redefined-builtin
    heads: Union[bool, str] = False,
    weight: Optional[str] = None,
    skip: Sequence[str] = (),
    names: Sequence[str] = (),
    incomplete: Union[None, str, Sequence[str]] = None,
    ties: Optional[str] = None,
    empty: Optional[str] = None,
    only: Sequence[str] = (),
    most: int = _MOST_LINES,
    keep_lines: bool = False,
    delimiter: Optional[str] = None,
    between: Optional[str] = None,
    encoding: Optional[str] = None,
) -> Ballots:
    """The profile of a file of ballots: a table, a file of PrefLib's, a `.blt`, or lines of orders (docs/BALLOTS.md).

    The source is a path, or the text of a file: bytes, or a string with a line feed, whose `form` is named. The choices
    are those of `virage-convert`. `incomplete` is "drop", "all", or the order that stands behind, worst last. What
    isn't clear is a BallotsRefused, with its row and what may be chosen.
    """
    layout = Layout(
        form, None if ranks is False else () if ranks is True else _names("ranks", ranks), _names("choices", choices),
        list, None if heads is False else "" if heads is True else heads, weight, _names("skip", skip),
        _names("names", names), delimiter, between, encoding)
    worst: Sequence[str] = ()
    if incomplete is not None and not isinstance(incomplete, str):
        incomplete, worst = "worst", _names("incomplete", incomplete)
    chosen = Choices(incomplete, worst, ties, empty, _names("only", only), most, keep_lines)
    checked(layout, chosen)
    if isinstance(source, bytes):
        return convert(io.BytesIO(source), "ballots", layout, chosen).ballots()
    if isinstance(source, str) and "\n" in source:
        return convert(io.BytesIO(source.encode("utf-8", "surrogatepass")), "ballots", layout, chosen).ballots()
    path = os.fspath(source)
    try:
        with open(path, "rb") as file:
            return convert(file, os.path.basename(path), layout, chosen).ballots()
    except OSError as stop:
        raise ReadFault(f"{path!r}: {stop.strerror}") from None


def _names(parameter: str, given: Sequence[str]) -> Sequence[str]:
    if isinstance(given, (str, bytes)) or not all(isinstance(name, str) for name in given):
        raise TypeError(f"{parameter} is a list of names, as ['tea', 'milk'], and not {given!r}")
    return tuple(given)


def checked(layout: Layout, choices: Choices) -> None:
    """Raises a ValueError for what can't be chosen, or not together."""
    ways = [layout.ranks is not None, bool(layout.choices), layout.listed is not None, layout.heads is not None]
    if sum(ways) > 1:
        raise ValueError("ranks, choices, list and heads say each how the rows are read: name one of them")
    if layout.form is not None and layout.form not in FORMS:
        raise ValueError(f"form is one of {', '.join(FORMS)}, and not {layout.form!r}")
    for option, word, known in (
        ("incomplete", choices.incomplete, ("drop", "all", "worst")),
        ("ties", choices.ties, ("drop", "all")),
        ("empty", choices.empty, ("drop",)),
    ):
        if word is not None and word not in known:
            raise ValueError(f"{option} is {' or '.join(known)}, and not {word!r}")
    if (choices.incomplete == "worst") != bool(choices.worst):
        raise ValueError("incomplete worst takes the order of what stands behind")
    if not 1 <= choices.most <= _MOST_LINES:
        raise ValueError(f"most is from 1 to {_MOST_LINES:,}")
    for option, sign in (("delimiter", layout.delimiter), ("between", layout.between)):
        if sign is not None and (len(sign) != 1 or sign in '"\r\n\0'):
            raise ValueError(f"{option} is one sign, and not {sign!r}")
    if layout.encoding is not None:
        try:
            "".encode(layout.encoding)
        except LookupError:
            raise ValueError(f"there is no encoding {layout.encoding!r}") from None
