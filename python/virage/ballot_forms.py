"""Files of ballots as people have them: tables, PrefLib's layouts, `.blt`, and lines of orders.

Each form is a generator of ballots: the row, how many voters it stands for, and its order as PrefLib writes it, with
braces around ties: `2,{1,3}`. Nothing is guessed: what isn't clear is a `BallotsRefused`, with its row.
"""

from __future__ import annotations

import csv
import io
import re
from dataclasses import dataclass, field
from fractions import Fraction
from itertools import chain
from operator import itemgetter
from typing import Any, BinaryIO, Callable, Dict, Iterable, Iterator, List, NamedTuple, Optional, Sequence, Set, Tuple

from .faults import BallotsRefused
from .usage import nearest

Groups = List[List[int]]

# the program counts so many alternatives
MOST_ALTERNATIVES = 1024

# how many rows that aren't plain are kept with what they become
_MOST_KNOWN = 100_000

FORMS = ("csv", "tsv", "preflib", "blt", "orders")

_ENDINGS = {".csv": "csv", ".tsv": "tsv", ".tab": "tsv", ".blt": "blt"}
_ENDINGS.update({ending: "preflib" for ending in (".soc", ".soi", ".toc", ".toi")})

_SEPARATORS = {",": "comma", ";": "semicolon", "\t": "tab"}

_WORDS_OF_PLACES = "first second third fourth fifth sixth seventh eighth ninth tenth".split()
_AROUND_PLACES = {"choice", "rank", "ranking", "place", "preference", "pref", "position", "vote", "no", "number"}


# a ballot of a file: its row, how many voters it stands for, and its order
Ballot = Tuple[int, int, str]

@dataclass(frozen=True)
class Layout:
    """What the caller says of a file: its form, and which columns of a table are what."""

    form: Optional[str] = None
    ranks: Optional[Sequence[str]] = None
    choices: Sequence[str] = ()
    listed: Optional[str] = None
    heads: Optional[str] = None
    weight: Optional[str] = None
    skip: Sequence[str] = ()
    names: Sequence[str] = ()
    delimiter: Optional[str] = None
    between: Optional[str] = None
    encoding: Optional[str] = None


@dataclass
class Seen:
    """What a file says beside its ballots. `labels` are the names of its alternatives, the first one's first."""

    title: str
    what: str = ""
    labels: List[str] = field(default_factory=list)
    withdrawn: Set[int] = field(default_factory=set)
    notes: List[str] = field(default_factory=list)
    rows_with_gaps: int = 0
    last_row: int = 1


def quoted(text: str) -> str:
    """A text of a file in quotes, on one line and not too long."""
    shown = "".join(letter if letter.isprintable() else "?" for letter in text)
    return f"'{shown if len(shown) <= 60 else shown[:57] + '..'}'"


def cleaned(text: str) -> str:
    """A name without blanks at its ends, and with one where it has several."""
    return " ".join(text.split())


def order_text(groups: Iterable[Sequence[int]]) -> str:
    """An order as PrefLib writes it."""
    return ",".join(
        str(group[0]) if len(group) == 1 else "{%s}" % ",".join(map(str, sorted(group))) for group in groups
    )


def groups_of(order: str) -> Groups:
    """What `order_text` has written."""
    if "{" not in order:
        return [[int(number)] for number in order.split(",")] if order else []
    return [[int(number) for number in part.strip("{}").split(",")] for part in re.findall(r"\{[^}]*\}|\d+", order)]


# ---- lines and names


class Lines:
    """The lines of a file as text. `number` is that of the last one."""

    def __init__(self, file: BinaryIO, encoding: Optional[str], tell: Optional[Callable[[int], None]] = None) -> None:
        buffered = file if isinstance(file, io.BufferedReader) else io.BufferedReader(file)  # type: ignore[arg-type]
        begin = buffered.peek(4)[:4]
        if encoding is None:
            encoding = "utf-16" if begin[:2] in (b"\xff\xfe", b"\xfe\xff") else "utf-8-sig"
        self.number = 0
        self._encoding = "UTF-8" if encoding == "utf-8-sig" else encoding
        self._tell = tell
        self._text = io.TextIOWrapper(buffered, encoding, "replace", newline="")
        self._ahead: List[str] = []

    def ahead(self) -> Iterator[str]:
        """The lines from the first on, which stay to be read."""
        for line in self._text:
            self._ahead.append(line)
            yield line

    def __iter__(self) -> Iterator[str]:
        for line in chain(self._ahead, self._text):
            self.number += 1
            if not line.isascii() and "\ufffd" in line:
                why = f"a byte isn't text in {self._encoding}"
                raise BallotsRefused(self.number, why, ["--encoding NAME reads another, as windows-1252"])
            if "\0" in line:
                why = "a zero byte, which no text has"
                raise BallotsRefused(self.number, why, ["--encoding NAME reads another encoding, as utf-16-le"])
            if self._tell is not None and not self.number & 0x3FFF:
                self._tell(self.number)
            yield line


class Names:
    """Names of alternatives with their numbers: the given ones, or those that come, in the order in which they do.

    `quick` has the numbers, as text, of texts that stood for an alternative before.
    """

    def __init__(self, given: Sequence[str]) -> None:
        self.labels: List[str] = []
        self.quick: Dict[str, str] = {}
        self._numbers: Dict[str, int] = {}
        for name in given:
            self.add(1, name)
        self._closed = bool(given)

    def add(self, row: int, name: str) -> int:
        """The number of a new name."""
        label = cleaned(name)
        if not label or label in self._numbers:
            raise BallotsRefused(row, f"two alternatives are called {quoted(label)}" if label else "an empty name")
        if len(self.labels) == MOST_ALTERNATIVES:
            raise BallotsRefused(row, f"{quoted(label)} is alternative 1,025, and at most 1,024 are counted")
        self.labels.append(label)
        self._numbers[label] = len(self.labels)
        return len(self.labels)

    def number(self, row: int, text: str) -> int:
        """The number of the alternative that a text of a ballot names."""
        label = cleaned(text)
        number = self._numbers.get(label)
        if number is None:
            if "\n" in text or "\r" in text:
                raise BallotsRefused(row, f"a name goes over several lines: {quoted(text)}")
            if self._closed:
                near = nearest(label, self.labels) if len(label) <= 40 else None
                meant = f" (is {quoted(near)} meant?)" if near else ""
                raise BallotsRefused(row, f"no alternative is called {quoted(label)}{meant}")
            number = self.add(row, label)
        self.quick[text] = str(number)
        return number


def _once(row: int, numbers: Sequence[int], labels: Sequence[str]) -> None:
    """Refuses an order that lists an alternative twice."""
    if len(set(numbers)) != len(numbers):
        twice = next(number for place, number in enumerate(numbers) if number in numbers[:place])
        raise BallotsRefused(row, f"the ballot lists {called(twice, labels)} twice")


def called(number: int, labels: Sequence[str]) -> str:
    """What an alternative is called in what is told."""
    label = labels[number - 1] if number <= len(labels) else ""
    return quoted(label) if label else str(number)


# ---- which form it is


def form_of(lines: Lines, name: str, layout: Layout) -> str:
    """The form of a file of this name: what the caller says, else by its ending, else by its head."""
    if layout.form is not None:
        return layout.form
    ending = re.search(r"\.[a-z]+$", name.lower())
    if ending and ending[0] in _ENDINGS:
        return _ENDINGS[ending[0]]
    head = next((line.strip() for line in lines.ahead() if line.strip()), "")
    if head.startswith("#") or re.fullmatch(r"\d+", head):
        return "preflib"
    if re.fullmatch(r"\d+[ \t]+\d+([ \t]*#.*)?", head):
        return "blt"
    if not head:
        raise BallotsRefused(1, "the file is empty")
    hints = ["--form csv or --form tsv: a table", "--form orders: lines such as '12: tea > milk = soup'"]
    raise BallotsRefused(1, f"its name and its first line don't tell its form: {quoted(head)}", hints)


def read_form(lines: Lines, form: str, layout: Layout, seen: Seen) -> Iterator[Ballot]:
    """The ballots of a file of this form."""
    if form in ("csv", "tsv"):
        return _read_table(lines, form, layout, seen)
    if form == "blt":
        return _read_blt(lines, seen)
    if form == "orders":
        return _read_orders(lines, layout, seen)
    return _read_preflib(lines, seen)


# ---- lists of names


class _Lists:
    """Texts that list alternatives: `tea > milk = soup`, or with commas or semicolons between them.

    Which sign stands between them is told by the first text that has one; then it is that of all.
    """

    def __init__(self, names: Names, sign: Optional[str]) -> None:
        self._names = names
        self._sign = sign

    def quick(self, text: str) -> Optional[str]:
        """The order of a text that is strict, and whose parts stood in others before."""
        try:
            numbers = [*map(self._names.quick.__getitem__, text.split(self._sign) if self._sign else (text,))]
        except KeyError:
            return None
        return ",".join(numbers) if len(set(numbers)) == len(numbers) else None

    def groups(self, row: int, text: str) -> Groups:
        """The order of a text, with its ties."""
        text = text.strip()
        if not text:
            return []
        parts = self._parts(row, text)
        ties = self._sign in (None, ">")
        groups = [[self._name(row, name) for name in (part.split("=") if ties else [part])] for part in parts]
        _once(row, [number for group in groups for number in group], self._names.labels)
        return groups

    def _parts(self, row: int, text: str) -> List[str]:
        has = next((sign for sign in (">", ";", ",") if sign in text), None)
        if self._sign is None:
            self._sign = has
        elif has is not None and has != self._sign and ">;,".index(has) < ">;,".find(self._sign):
            why = f"{quoted(has)} stands between names here, and {quoted(self._sign)} in the rows before"
            raise BallotsRefused(row, why, [f"--between SIGN says which of them it is, as --between {quoted(has)}"])
        parts = text.split(self._sign) if self._sign else [text]
        # (some forms write a sign behind the last one too)
        return parts[:-1] if self._sign == ";" and len(parts) > 1 and not parts[-1].strip() else parts

    def _name(self, row: int, text: str) -> int:
        if not text.strip():
            raise BallotsRefused(row, "nothing stands where a name is wanted in the list")
        return self._names.number(row, text)


# ---- tables


class _Ranks:
    """A row with the rank of each alternative, where 1 stands for the best."""

    def __init__(self, row: int, plan: _Plan, names: Names, seen: Seen) -> None:
        numbers = [names.number(row, name) for name in plan.called]
        twice = next((name for name, number in zip(plan.called, numbers) if numbers.count(number) > 1), None)
        if twice is not None:
            raise BallotsRefused(row, f"two columns are called {quoted(twice)}")
        self._columns = list(zip(numbers, plan.columns, plan.called))
        self._ordered = list(map(str, numbers))
        self._picked = picked(plan.columns)
        self._by_place = picked([str(place) for place in range(1, len(numbers) + 1)])
        self._ordinals = plan.ordinals
        self._known: Dict[Sequence[str], Tuple[str, bool]] = {}
        self._seen = seen

    def order(self, row: int, cells: Sequence[str]) -> str:
        """The order of a row."""
        ranks = self._picked(cells)
        try:
            return ",".join(self._by_place(dict(zip(ranks, self._ordered))))
        except KeyError:
            return self._other(row, cells, ranks)

    def _other(self, row: int, cells: Sequence[str], ranks: Sequence[str]) -> str:
        known = self._known.get(ranks)
        if known is None:
            known = self._judged(row, cells)
            if len(self._known) < _MOST_KNOWN:
                self._known[ranks] = known
        self._seen.rows_with_gaps += known[1]
        return known[0]

    def _judged(self, row: int, cells: Sequence[str]) -> Tuple[str, bool]:
        by_rank: Dict[Fraction, List[int]] = {}
        for number, column, head in self._columns:
            text = cells[column].strip()
            if text:
                by_rank.setdefault(self._rank(row, head, text), []).append(number)
        ranks = sorted(by_rank)
        groups = [by_rank[rank] for rank in ranks]
        return order_text(groups), not _without_gaps(ranks, groups)

    def _rank(self, row: int, head: str, text: str) -> Fraction:
        rank: Optional[Fraction] = None
        if re.fullmatch(r"[0-9]{1,6}(\.[0-9]{1,6})?", text):
            rank = Fraction(text)
        elif self._ordinals:
            place = place_in(text)
            rank = None if place is None else Fraction(place)
        if rank is None:
            why = f"{quoted(text)} in the column {quoted(head)} isn't a rank: a number, and 1 is the best"
            raise BallotsRefused(row, why, _hints_of_ranks(head, text))
        if not 1 <= rank <= len(self._columns):
            why = f"the rank {text} in the column {quoted(head)} isn't from 1 to {len(self._columns)}"
            raise BallotsRefused(row, f"{why}, the number of alternatives", [_skip_hint(head)])
        return rank


def _without_gaps(ranks: Sequence[Fraction], groups: Sequence[Sequence[int]]) -> bool:
    """Whether ranks are 1, 2, 3 and so on, or with ties as 1, 2, 2, 4 or 1, 2.5, 2.5, 4."""
    before, following, middle = 0, [], []
    for group in groups:
        following.append(Fraction(before + 1))
        middle.append(before + Fraction(len(group) + 1, 2))
        before += len(group)
    return list(ranks) in ([*range(1, len(groups) + 1)], following, middle)


def _skip_hint(head: str) -> str:
    return f"--skip {quoted(head)} leaves the column out, where it isn't of the ballot"


def _hints_of_ranks(head: str, text: str) -> List[str]:
    hints = [_skip_hint(head)]
    if place_in(text) is not None:
        hints.append("--heads reads such places, and names in brackets, as online forms write them")
    hints.append("--choices COLUMN.. takes columns as first, second, third choice; --list COLUMN takes one with a list")
    return hints


class _Choices:
    """A row with the first, second, third choice and so on."""

    def __init__(self, columns: Sequence[int], names: Names, seen: Seen) -> None:
        self._columns = columns
        self._picked = picked(columns)
        self._names = names
        self._seen = seen

    def order(self, row: int, cells: Sequence[str]) -> str:
        """The order of a row."""
        try:
            numbers = [*map(self._names.quick.__getitem__, self._picked(cells))]
            if len(set(numbers)) == len(numbers):
                return ",".join(numbers)
        except KeyError:
            pass
        chosen = [cells[column] for column in self._columns]
        listed = [self._names.number(row, text) for text in chosen if text.strip()]
        _once(row, listed, self._names.labels)
        self._seen.rows_with_gaps += any(not text.strip() for text in chosen[: len(listed)])
        return ",".join(map(str, listed))


class _Listed:
    """A row with a column that lists alternatives."""

    def __init__(self, plan: _Plan, lists: _Lists, names: Names) -> None:
        self._column = plan.columns[0]
        self._lists = lists
        self._names = names
        # the names that a head would list, if it were the first ballot
        self._in_head = set() if plan.sure else set(map(cleaned, re.split("[>;,=]", plan.called[0])))

    def order(self, row: int, cells: Sequence[str]) -> str:
        """The order of a row."""
        text = cells[self._column]
        order = self._lists.quick(text)
        if order is not None:
            return order
        groups = self._lists.groups(row, text)
        if self._in_head and self._in_head <= set(self._names.labels):
            why = "the head of the column lists names that stand here too: is it a ballot?"
            hints = ["--form orders reads a file without heads", "--list COLUMN takes it as the head"]
            raise BallotsRefused(row, why, hints)
        return order_text(groups)


def picked(keys: Sequence[Any]) -> Callable[[Any], Tuple[str, ...]]:
    """What takes these columns of a row, or what stands under these keys."""
    if len(keys) == 1:
        only = keys[0]
        return lambda cells: (cells[only],)
    return itemgetter(*keys)


def place_in(text: str) -> Optional[int]:
    """The place that a text such as `1st choice` names: the only number in it, or a word such as `second`."""
    numbers = re.findall(r"[0-9]+", text)
    if not numbers:
        numbers = [str(_WORDS_OF_PLACES.index(word) + 1) for word in re.findall(r"[a-z]+", text.lower())
                   if word in _WORDS_OF_PLACES]
    return int(numbers[0]) if len(numbers) == 1 and len(numbers[0]) <= 4 else None


def _is_place(head: str) -> bool:
    """Whether a head says a place, in these words alone, as `1st choice` and `Second`; a number alone doesn't."""
    words = re.findall(r"[a-z]+|[0-9]+", re.sub(r"([0-9])(st|nd|rd|th)\b", r"\1", head.lower()))
    plain = set(words) & _AROUND_PLACES or set(words) & set(_WORDS_OF_PLACES) or re.search("[0-9][a-z]", head.lower())
    fits = all(word.isdigit() or word in _AROUND_PLACES or word in _WORDS_OF_PLACES for word in words)
    return bool(plain) and fits and place_in(head) is not None


def _read_table(lines: Lines, form: str, layout: Layout, seen: Seen) -> Iterator[Ballot]:
    first = next(lines.ahead(), "")
    said = re.fullmatch(r"sep=(.)\s*", first)
    if said:
        first = next(lines.ahead(), "")
    delimiter = layout.delimiter or (said[1] if said else "\t" if form == "tsv" else _delimiter_of(first))
    texts = iter(lines)
    if said:
        next(texts)
    rows = _rows(csv.reader(texts, delimiter=delimiter, strict=True, skipinitialspace=True), 1 if said else 0)
    row, heads = next(rows, (1, []))
    if not any(map(str.strip, heads)):
        raise BallotsRefused(row, "the table has no heads in its first row" if first else "the file is empty")
    while not heads[-1].strip():
        heads.pop()
    find = _Heads(row, heads)
    weight = None if layout.weight is None else find.column(layout.weight)
    skipped = [find.column(word) for word in layout.skip]
    plan = _planned(find, [c for c in range(len(heads)) if c != weight and c not in skipped], layout)
    order_of = _taking(plan, row, layout, seen)
    _tell_plan(find, plan, weight, seen)
    for row, cells in rows:
        if len(cells) != len(heads):
            _fit(row, cells, len(heads))
        yield row, 1 if weight is None else _voters(row, cells[weight]), order_of(row, cells)


def _tell_plan(find: _Heads, plan: _Plan, weight: Optional[int], seen: Seen) -> None:
    """Notes which columns were taken for what."""
    seen.what, what = _KINDS[plan.kind]
    seen.notes.append(f"columns of {what}: {find.called(plan.columns)}")
    if weight is not None:
        seen.notes.append(f"column of weights: {find.called([weight])}")
    others = [column for column in range(len(find.heads)) if column not in plan.columns and column != weight]
    if others:
        seen.notes.append(f"columns that aren't read: {find.called(others)}")


def _delimiter_of(head: str) -> str:
    """What stands between the cells of a table, by its first line."""
    outside = re.sub(r'"[^"]*"', "", head)
    found = [sign for sign in _SEPARATORS if sign in outside]
    if len(found) > 1:
        said = " and ".join(f"{_SEPARATORS[sign]}s" for sign in found)
        hints = [f"--delimiter SIGN says which: {', '.join(_SEPARATORS[sign] for sign in found)}"]
        raise BallotsRefused(1, f"{said} stand in the heads, and one of them is between the columns", hints)
    return found[0] if found else ","


def _rows(reader: Iterator[List[str]], row: int) -> Iterator[Tuple[int, List[str]]]:
    """The rows of a table with their numbers, from the next one on. An empty line within is a row, at the end none."""
    empty: List[int] = []
    try:
        for cells in reader:
            row += 1
            if not cells:
                empty.append(row)
                continue
            if empty:
                yield from ((number, []) for number in empty)
                empty = []
            yield row, cells
    except csv.Error as stop:
        raise BallotsRefused(row + 1, f"the row can't be cut into cells: {stop}") from None


def _fit(row: int, cells: List[str], width: int) -> None:
    """Gives a row as many cells as there are heads, or refuses it."""
    if not any(map(str.strip, cells)):
        cells[:] = [""] * width
    elif any(map(str.strip, cells[width:])) or len(cells) < width:
        raise BallotsRefused(row, f"the row has {len(cells)} cells, and there are {width} heads")
    else:
        del cells[width:]


def _voters(row: int, text: str) -> int:
    if not re.fullmatch(r"\s*[0-9]{1,25}(\.0+)?\s*", text):
        raise BallotsRefused(row, f"the weight {quoted(text)} isn't a whole number")
    return int(text.partition(".")[0])


class _Heads:
    """The heads of a table, in the row of this number."""

    def __init__(self, row: int, heads: Sequence[str]) -> None:
        self.row = row
        self.heads = heads

    def column(self, word: str) -> int:
        """The column that a caller names: by its head, or by its number from 1."""
        wanted = cleaned(word)
        found = [column for column, head in enumerate(self.heads) if cleaned(head) == wanted]
        if not found and re.fullmatch("[0-9]{1,5}", wanted) and 1 <= int(wanted) <= len(self.heads):
            found = [int(wanted) - 1]
        if len(found) != 1:
            why = f"{'two columns are' if found else 'no column is'} called {quoted(word)}"
            raise BallotsRefused(self.row, why, [f"the columns are {self.called(range(len(self.heads)))}"])
        return found[0]

    def called(self, columns: Iterable[int]) -> str:
        """These columns in words."""
        return ", ".join(quoted(self.heads[c]) if self.heads[c].strip() else str(c + 1) for c in columns)

    def at(self, columns: Iterable[int]) -> List[str]:
        """The heads of these columns."""
        return [cleaned(self.heads[column]) for column in columns]


class _Plan(NamedTuple):
    """Which columns of a table are what: those of ballots, and what stands for each, a name or a head."""

    kind: str
    columns: Sequence[int]
    called: Sequence[str]
    ordinals: bool = False
    sure: bool = True


_KINDS = {
    "ranks": ("a table with a column of ranks for each alternative", "alternatives"),
    "choices": ("a table with a column for each place", "places"),
    "list": ("a table with a column of lists", "lists"),
}


def _taking(plan: _Plan, row: int, layout: Layout, seen: Seen) -> Callable[[int, Sequence[str]], str]:
    """What gives the order of a row."""
    names = Names(layout.names)
    seen.labels = names.labels
    if plan.kind == "ranks":
        return _Ranks(row, plan, names, seen).order
    if plan.kind == "choices":
        return _Choices(plan.columns, names, seen).order
    lists = _Lists(names, layout.between)
    return _Listed(plan, lists, names).order


def _planned(find: _Heads, left: Sequence[int], layout: Layout) -> _Plan:
    """What the columns that are left stand for, by what the caller says, else by their heads."""
    if layout.heads is not None:
        return _by_brackets(find, left, cleaned(layout.heads))
    for kind, words in (("choices", layout.choices), ("ranks", layout.ranks), ("list", _one(layout.listed))):
        if words:
            columns = [find.column(word) for word in words]
            return _Plan(kind, columns, find.at(columns))
    if layout.ranks is not None:
        return _Plan("ranks", left, _named(find, left))
    return _by_heads(find, left)


def _one(word: Optional[str]) -> Sequence[str]:
    return () if word is None else (word,)


def _named(find: _Heads, columns: Sequence[int]) -> List[str]:
    """The heads of these columns, each of which has one."""
    without = next((column for column in columns if not find.heads[column].strip()), None)
    if without is not None:
        why = f"column {without + 1} has no head"
        raise BallotsRefused(find.row, why, [f"--skip {without + 1} leaves it out, where it isn't of the ballot"])
    return find.at(columns)


def _by_heads(find: _Heads, left: Sequence[int]) -> _Plan:
    called = _named(find, left)
    places = [place_in(head) if _is_place(head) else None for head in called]
    if not called:
        raise BallotsRefused(find.row, "no column is left for the ballots")
    if len(called) == 1:
        if ">" in called[0]:
            why = f"the head {quoted(called[0])} looks like a ballot"
            raise BallotsRefused(find.row, why, ["--form orders reads a file without heads"])
        return _Plan("list", left, called, sure=False)
    if all(re.fullmatch("[0-9]+", head) for head in called):
        hints = [f"--choices {' '.join(called)} takes them as places, --ranks as the names of alternatives",
                 "--form orders reads lines without heads, as 'tea, milk, soup'"]
        raise BallotsRefused(find.row, "the heads are numbers; or is the first row a ballot?", hints)
    if sum(head.endswith("]") for head in called) > 1:
        hints = ["--heads reads what stands in brackets, as online forms write it",
                 "--ranks takes the heads as they are"]
        raise BallotsRefused(find.row, f"the heads have brackets, as {quoted(called[-1])}", hints)
    others = [column for column, place in zip(left, places) if place is None]
    if not others:
        ordered = sorted(zip(places, left), key=lambda pair: pair[0] or 0)
        return _Plan("choices", [column for _, column in ordered], find.at(column for _, column in ordered))
    if len(others) < len(left):
        words = " ".join(quoted(find.heads[column]) for column in others)
        why = f"some heads are places, as {quoted(called[left.index(next(c for c in left if c not in others))])}"
        hints = [f"--skip {words} leaves these columns out, where they aren't of the ballot"]
        raise BallotsRefused(find.row, f"{why}, and these aren't: {find.called(others)}", hints)
    return _Plan("ranks", left, called)


def _by_brackets(find: _Heads, left: Sequence[int], question: str) -> _Plan:
    """The columns with a name or a place in brackets, as `Rank these [Tea]`, of one question."""
    found = {}
    for column in left:
        parts = re.fullmatch(r"(.*)\[([^][]*)\]", cleaned(find.heads[column]))
        if parts:
            found.setdefault(parts[1].strip(), []).append((column, parts[2].strip()))
    if question:
        found = {asked: columns for asked, columns in found.items() if asked == question}
    if len(found) != 1:
        why = "no head ends with a name in brackets, as 'Rank these [Tea]'"
        if found:
            why = f"the heads ask several questions: {', '.join(map(quoted, found))}"
        hints = [f"--heads {quoted(asked)} reads this one" for asked in list(found)[:9]]
        raise BallotsRefused(find.row, why, hints or [f"the columns are {find.called(range(len(find.heads)))}"])
    columns, inside = zip(*next(iter(found.values())))
    if all(re.fullmatch("[0-9]+", text) for text in inside):
        words = " ".join(quoted(find.heads[column]) for column in columns)
        hints = [f"--choices {words} takes them as places", f"--ranks {words} takes them as alternatives"]
        raise BallotsRefused(find.row, "numbers stand in the brackets", hints)
    if all(map(_is_place, inside)):
        ordered = sorted(zip(map(place_in, inside), columns), key=lambda pair: pair[0] or 0)
        return _Plan("choices", [column for _, column in ordered], find.at(column for _, column in ordered))
    return _Plan("ranks", columns, inside, ordinals=True)


# ---- PrefLib


class _Numbered:
    """Orders of numbers, as PrefLib writes them."""

    _ITEM = r"[ \t]*(?:[0-9]+|\{[ \t]*[0-9]+[ \t]*(?:,[ \t]*[0-9]+[ \t]*)*\})[ \t]*"
    _ORDER = re.compile(f"{_ITEM}(?:,{_ITEM})*")

    def __init__(self, alternatives: int, seen: Seen) -> None:
        self._quick = {str(i): str(i) for i in range(1, alternatives + 1)}
        self._alternatives = alternatives
        self._seen = seen

    def order(self, row: int, text: str) -> str:
        """The order of a text."""
        try:
            numbers = [*map(self._quick.__getitem__, text.split(","))]
            if len(set(numbers)) == len(numbers):
                return ",".join(numbers)
        except KeyError:
            pass
        if not text.strip():
            return ""
        if not self._ORDER.fullmatch(text):
            raise BallotsRefused(row, f"{quoted(text.strip())} isn't an order of numbers, as 2,{{1,3}},4")
        parts = re.findall(r"\{[^}]*\}|[0-9]+", text)
        groups = [[self.number(row, member) for member in part.strip("{}").split(",")] for part in parts]
        _once(row, [number for group in groups for number in group], self._seen.labels)
        return order_text(groups)

    def number(self, row: int, text: str) -> int:
        """The number of an alternative."""
        number = _whole(row, text.strip(), "an alternative")
        if not 1 <= number <= self._alternatives:
            raise BallotsRefused(row, f"alternative {number}, and there are {self._alternatives}")
        return number


def _whole(row: int, text: str, what: str) -> int:
    if not re.fullmatch("[0-9]{1,25}", text):
        raise BallotsRefused(row, f"{quoted(text)} stands where {what} is wanted, a number")
    return int(text)


def _alternatives(row: int, text: str) -> int:
    number = _whole(row, text, "the number of alternatives")
    if not 1 <= number <= MOST_ALTERNATIVES:
        raise BallotsRefused(row, f"{number} alternatives, and 1 to 1,024 are counted")
    return number


class _Sums:
    """What a file says of its own size, which is compared when it has been read."""

    def __init__(self) -> None:
        self._said: Dict[str, Tuple[int, int]] = {}
        self.voters = 0
        self.lines = 0

    def say(self, row: int, what: str, number: int) -> None:
        self._said.setdefault(what, (row, number))

    def compare(self) -> None:
        """Refuses a file that has lost lines, or has some twice."""
        for what, (row, number) in self._said.items():
            there = self.voters if what == "voters" else self.lines
            if number != there:
                raise BallotsRefused(row, f"the file says {number} {what}, and {there} stand in it")


def _read_preflib(lines: Lines, seen: Seen) -> Iterator[Ballot]:
    texts = ((lines.number, line.strip(" \t\r\n")) for line in lines)
    texts = ((row, text) for row, text in texts if text)
    first = next(texts, None)
    if first is None:
        raise BallotsRefused(1, "the file is empty")
    seen.what = "a file of PrefLib's"
    if first[1].startswith("#"):
        yield from _read_new_layout(chain([first], texts), seen)
    else:
        seen.what += ", in the older layout"
        yield from _read_old_layout(first, texts, seen)


def _read_new_layout(texts: Iterable[Tuple[int, str]], seen: Seen) -> Iterator[Ballot]:
    sums, orders = _Sums(), None
    names: Dict[int, str] = {}
    row = 1
    for row, text in texts:
        key, colon, value = text.partition(":")
        if text.startswith("#"):
            number = _metadata(row, key[1:].strip(), value.strip(), names, sums, seen)
            if number is not None:
                if orders is not None and number != len(seen.labels):
                    raise BallotsRefused(row, "NUMBER ALTERNATIVES stands twice, with different numbers")
                seen.labels = [""] * number
                orders = _Numbered(number, seen)
            continue
        if orders is None:
            raise BallotsRefused(row, "no '# NUMBER ALTERNATIVES: m' stands before the first ballot")
        if not colon:
            raise BallotsRefused(row, f"no colon: {quoted(text)}; a ballot is as '3: 2,1,4'")
        voters = _whole(row, key.strip(), "how many voters")
        sums.voters, sums.lines = sums.voters + voters, sums.lines + 1
        yield row, voters, orders.order(row, value.strip())
    if orders is None:
        raise BallotsRefused(row, "the file has no '# NUMBER ALTERNATIVES: m'")
    sums.compare()
    seen.labels = [names.get(i, "") for i in range(1, len(seen.labels) + 1)]


def _metadata(row: int, key: str, value: str, names: Dict[int, str], sums: _Sums, seen: Seen) -> Optional[int]:
    """Takes a line of metadata, and gives the number of alternatives where it says that."""
    named = re.fullmatch("ALTERNATIVE NAME ([0-9]{1,6})", key)
    if named:
        names[int(named[1])] = cleaned(value)
    elif key == "TITLE" and value:
        seen.title = value
    elif key == "DATA TYPE" and value.lower() not in ("soc", "soi", "toc", "toi"):
        raise BallotsRefused(row, f"the DATA TYPE is {quoted(value)}, and soc, soi, toc and toi are orders")
    elif key == "NUMBER VOTERS":
        sums.say(row, "voters", _whole(row, value, key))
    elif key == "NUMBER UNIQUE ORDERS":
        sums.say(row, "lines of votes", _whole(row, value, key))
    elif key == "NUMBER ALTERNATIVES":
        return _alternatives(row, value)
    return None


def _read_old_layout(first: Tuple[int, str], texts: Iterator[Tuple[int, str]], seen: Seen) -> Iterator[Ballot]:
    row, text = first
    number = _alternatives(row, text.rstrip(", "))
    labels = []
    for i in range(1, number + 1):
        row, text = next(texts, (row, ""))
        said, comma, name = text.partition(",")
        if not comma or said.strip() != str(i):
            raise BallotsRefused(row, f"{quoted(text)} stands where '{i},NAME' is wanted")
        labels.append(cleaned(name))
    seen.labels = labels
    row, text = next(texts, (row, ""))
    numbers = [_whole(row, part.strip(), "a number of voters or orders") for part in text.split(",")]
    if len(numbers) != 3:
        raise BallotsRefused(row, f"{quoted(text)} stands where the numbers of voters, votes and orders are wanted")
    sums, orders = _Sums(), _Numbered(number, seen)
    sums.say(row, "voters", numbers[1])
    sums.say(row, "lines of votes", numbers[2])
    for row, text in texts:
        count, comma, order = text.partition(",")
        voters = _whole(row, count.strip(), "how many voters")
        sums.voters, sums.lines = sums.voters + voters, sums.lines + 1
        yield row, voters, orders.order(row, order)
    sums.compare()


# ---- .blt, and lines of orders


def _read_blt(lines: Lines, seen: Seen) -> Iterator[Ballot]:
    seen.what = "a .blt file"
    texts = ((lines.number, _without_comment(line)) for line in lines)
    texts = ((row, text) for row, text in texts if text)
    row, text = next(texts, (1, ""))
    head = re.fullmatch(r"([0-9]{1,6})[ \t]+([0-9]{1,6})", text)
    if not head:
        raise BallotsRefused(row, f"{quoted(text)} stands where the numbers of candidates and of seats are wanted")
    number = _alternatives(row, head[1])
    seen.notes.append(f"seats: {int(head[2])}")
    seen.labels = [""] * number
    orders, ballots = _Numbered(number, seen), 0
    for row, text in texts:
        if text.split() == ["0"]:
            break
        if text.startswith("-") and not ballots:
            seen.withdrawn.update(orders.number(row, word.lstrip("-")) for word in text.split())
            continue
        ballots += 1
        yield _blt_ballot(row, text, orders)
    else:
        raise BallotsRefused(row, "no line '0' ends the ballots")
    _blt_names(row, texts, number, seen)


def _without_comment(line: str) -> str:
    return re.sub(r'^((?:[^"#]|"[^"]*")*)#.*', r"\1", line.strip()).strip()


def _blt_ballot(row: int, text: str, orders: _Numbered) -> Ballot:
    """A line as `3 2 1=4 0`: how many voters, then an order, and 0."""
    words = re.sub(r"^\([^()]*\)", "", text).split()
    if len(words) < 2 or words[-1] != "0":
        raise BallotsRefused(row, f"{quoted(text)} isn't a ballot, as '3 2 1 0': how many voters, an order, and 0")
    voters = _whole(row, words[0], "how many voters")
    listed = [word for word in words[1:-1] if word != "-"]
    tied = ("{%s}" % word.replace("=", ",") if "=" in word else word for word in listed)
    return row, voters, orders.order(row, ",".join(tied))


def _blt_names(row: int, texts: Iterable[Tuple[int, str]], number: int, seen: Seen) -> None:
    """Takes the names, which stand behind the ballots, and the title."""
    found: List[str] = []
    for row, text in texts:
        names = re.findall(r'"([^"]*)"', text)
        if re.sub(r'"[^"]*"', "", text).strip() or not names:
            raise BallotsRefused(row, f"{quoted(text)} stands where a name in quotes is wanted")
        found += map(cleaned, names)
    if 0 < len(found) < number:
        raise BallotsRefused(row, f"{len(found)} names, and there are {number} candidates")
    seen.labels = found[:number] or seen.labels
    seen.title = " ".join(found[number : number + 1]) or seen.title
    withdrawn = [called(i, seen.labels) for i in sorted(seen.withdrawn)]
    if withdrawn:
        seen.notes.append(f"withdrawn, and left out of all ballots: {', '.join(withdrawn)}")


def _read_orders(lines: Lines, layout: Layout, seen: Seen) -> Iterator[Ballot]:
    seen.what = "lines of orders"
    names = Names(layout.names)
    seen.labels = names.labels
    lists = _Lists(names, layout.between)
    empty: List[int] = []
    comments = 0
    for line in lines:
        row, text = lines.number, line.strip()
        if text.startswith("#"):
            comments += 1
        elif not text:
            empty.append(row)
        else:
            for number in empty:
                yield number, 1, ""
            empty = []
            yield _orders_ballot(row, text, lists)
    if comments:
        seen.notes.append(f"lines of comments, which begin with #: {comments:,}")


def _orders_ballot(row: int, text: str, lists: _Lists) -> Ballot:
    """A line as `12: tea > milk = soup`, or an order alone, of one voter."""
    count, colon, rest = text.partition(":")
    voters, order = 1, text
    if colon and re.fullmatch(r"[0-9]{1,25}[ \t]*", count):
        voters, order = int(count), rest
    return row, voters, lists.quick(order) or order_text(lists.groups(row, order))
