"""The command `virage-convert`: makes a profile of a file of ballots, and says on standard error what it did."""

from __future__ import annotations

import argparse
import csv
import os
import sys
import tempfile
from typing import BinaryIO, List, NoReturn, Optional, Sequence

from .ballot_forms import FORMS, Layout
from .ballots import Choices, Conversion, checked, convert
from .faults import BallotsRefused

# the statuses are those of the program
_USAGE, _REFUSED, _UNREAD, _UNWRITTEN = 2, 4, 5, 6

_ABOUT = """\
Makes a profile, which virage counts, of a file of ballots as people have them: a table in CSV, a file of PrefLib's,
a .blt, or lines of orders. What needs a choice is refused, with its row, until the choice is named; what was done
is told on standard error, and stands at the end of the profile."""

_EXAMPLES = """\
A COLUMN is named by its head, or by its number from 1. NAMES are joined by commas: tea,milk,"Ito, K."
examples:
  {called} answers.csv --heads -o votes.soc
  {called} ranks.csv --skip voter --incomplete drop -o votes.soc
  {called} votes.toc --ties all >votes.soc
"""


class _Words(argparse.ArgumentParser):
    """Words of a call; what is wrong with them is a usage fault."""

    def error(self, message: str) -> NoReturn:
        print("usage fault", file=sys.stderr)
        if "required: FILE" in message:
            message = f"the file is the first word: {self.usage}"
        print(f"  {message}; --help says more", file=sys.stderr)
        raise SystemExit(_USAGE)


def words_of_a_call() -> argparse.ArgumentParser:
    """What reads the words of a call."""
    # (the script `virage` says how it is called)
    called = os.environ.get("VIRAGE_CALLED") or "virage-convert"
    words = _Words(called, f"{called} FILE [OPTION..]", _ABOUT, _EXAMPLES.format(called=called), allow_abbrev=False,
                   formatter_class=argparse.RawDescriptionHelpFormatter)
    words.add_argument("file", metavar="FILE", help="the file of ballots; - is standard input")
    words.add_argument("-o", "--output", metavar="SOC", help="the profile to write; else it is standard output")
    words.add_argument("--form", choices=FORMS, help="the form, where the ending or the first line doesn't tell it")
    rows = words.add_argument_group("what the columns of a table are")
    rows.add_argument("--ranks", nargs="*", metavar="COLUMN", help="a rank of each alternative; alone, all columns")
    rows.add_argument("--choices", nargs="+", action="extend", default=[], metavar="COLUMN", help="first, second ..")
    rows.add_argument("--list", metavar="COLUMN", help="a list, as tea > milk = soup, or with commas or semicolons")
    rows.add_argument("--heads", nargs="?", const="", metavar="QUESTION",
                      help="names or places in brackets, as 'Rank these [Tea]'; of this question, where it has several")
    rows.add_argument("--weight", metavar="COLUMN", help="how many voters a row stands for")
    rows.add_argument("--skip", nargs="+", action="extend", default=[], metavar="COLUMN", help="not of the ballot")
    rows.add_argument("--names", metavar="NAMES", help="all alternatives, in the order of their numbers")
    rows.add_argument("--delimiter", metavar="SIGN", help="what stands between the cells")
    rows.add_argument("--between", metavar="SIGN", help="what stands between the names of a list")
    rows.add_argument("--encoding", metavar="NAME", help="how the text is encoded, as windows-1252; else UTF-8")
    made = words.add_argument_group("what becomes of ballots that aren't strict complete orders")
    made.add_argument("--incomplete", nargs="+", metavar=("CHOICE", "NAMES"),
                      help="drop: left out; all: each stands for all orders that agree with it, in equal parts; "
                      "worst NAMES: what is missing stands behind, in this order")
    made.add_argument("--ties", choices=("drop", "all"), help="the same of ballots with ties")
    made.add_argument("--empty", choices=("drop",), help="empty ballots are left out")
    made.add_argument("--only", metavar="NAMES", help="restricts each ballot to these alternatives first")
    made.add_argument("--most", type=int, default=1_000_000, metavar="N", help="how many lines may be made")
    made.add_argument("--keep-lines", action="store_true", help="equal orders aren't joined")
    return words


def _names(words: Optional[str]) -> Sequence[str]:
    """Names with commas between them, in quotes where they have commas."""
    return () if not words else next(csv.reader([words], skipinitialspace=True))


def _chosen(given: argparse.Namespace) -> Choices:
    said: List[str] = given.incomplete or []
    if len(said) > (2 if said[:1] == ["worst"] else 1):
        raise ValueError("incomplete is drop, all, or worst and names with commas between them")
    incomplete = said[0] if said else None
    worst = _names(said[1]) if len(said) > 1 else ()
    return Choices(incomplete, worst, given.ties, given.empty, _names(given.only), given.most, given.keep_lines)


def _layout(given: argparse.Namespace) -> Layout:
    return Layout(given.form, given.ranks, given.choices, given.list, given.heads, given.weight, given.skip,
                  _names(given.names), given.delimiter, given.between, given.encoding)


def _tell_progress(lines: int) -> None:
    print(f"\r{lines:,} lines ", end="", file=sys.stderr, flush=True)


def _write(made: Conversion, output: Optional[str]) -> None:
    """Writes the profile, a file only as a whole."""
    if output is None:
        made.write(sys.stdout.buffer)
        sys.stdout.flush()
        return
    if os.path.exists(output) and not os.path.isfile(output):
        with open(output, "wb") as file:
            made.write(file)
        return
    folder = os.path.dirname(os.path.abspath(output))
    with tempfile.NamedTemporaryFile(dir=folder, prefix=".virage-", delete=False) as file:
        try:
            made.write(file)  # type: ignore[arg-type]
            file.flush()
            mask = os.umask(0)
            os.umask(mask)
            os.chmod(file.name, 0o666 & ~mask)
            os.replace(file.name, output)
        except BaseException:
            os.unlink(file.name)
            raise


def _converted(file: BinaryIO, name: str, layout: Layout, choices: Choices) -> Conversion:
    shows = sys.stderr.isatty()
    try:
        return convert(file, name, layout, choices, _tell_progress if shows else None)
    finally:
        if shows:
            print("\r\x1b[K", end="", file=sys.stderr, flush=True)


def _read(path: str, layout: Layout, choices: Choices) -> Conversion:
    if path == "-":
        return _converted(sys.stdin.buffer, "standard input", layout, choices)
    with open(path, "rb") as file:
        return _converted(file, os.path.basename(path), layout, choices)


def _said(line: str) -> None:
    print(line, file=sys.stderr)


def main(words: Optional[Sequence[str]] = None) -> int:
    """Converts the file that the words name, or those of the call, and gives the status."""
    parser = words_of_a_call()
    given = parser.parse_args(words)
    try:
        layout, choices = _layout(given), _chosen(given)
        checked(layout, choices)
    except (ValueError, StopIteration, csv.Error) as stop:
        parser.error(str(stop))
    if given.output is not None and os.path.exists(given.output) and given.file != "-":
        if os.path.exists(given.file) and os.path.samefile(given.file, given.output):
            parser.error("the profile would be written over the file that it is made of")
    try:
        made = _read(given.file, layout, choices)
    except BallotsRefused as stop:
        _said(f"ballots refused: {stop}")
        return _REFUSED
    except OSError as stop:
        _said(f"read fault\n  {given.file!r}: {stop.strerror}")
        return _UNREAD
    try:
        _write(made, given.output)
    except OSError as stop:
        _said(f"write fault\n  {given.output or 'standard output'!r}: {stop.strerror}")
        return _UNWRITTEN
    for line in made.told():
        _said(line)
    return 0

