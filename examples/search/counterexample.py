#!/usr/bin/env python3
"""Looks for a counterexample: a small profile, or one and a lift of it, that violates a property of a rule.

    python3 examples/search/counterexample.py examples/rules/instant-runoff.vir mono

All profiles of few voters are gone through in order, and then profiles are drawn. virage is asked about each by
`refute`; of a property on lifts it is asked about profiles in which one alternative is raised on some lines. What is
found first is made smaller while it still violates the property; then it is written to files, and printed with the
command that shows it again. What is found is proved: the rule lacks the property. Only of `neut`, which `refute`
doesn't judge, it is by two counts. Finding nothing proves nothing.

The files are called RULE.PROPERTY.soc and, of a property on lifts, RULE.PROPERTY.lifted.soc, in the folder of the call.
No file is overwritten: where one of these names is taken by something else, a number stands before the ending.

The status is 0 where a case is found, 1 where none is, 2 where the words are wrong, and 3 where virage gives no answer.
"""

from __future__ import annotations

import argparse
import itertools
import os
import shlex
import shutil
import sys
import time
import warnings
from pathlib import Path
from typing import Any, List, Optional, Sequence, TextIO, Tuple, Union

TOP = Path(__file__).resolve().parents[2]
if (TOP / "python" / "virage").is_dir():
    sys.path.insert(0, str(TOP / "python"))

import virage  # noqa: E402
from virage.cases import Bounds  # noqa: E402
from virage.searches import ON_LIFTS, Search  # noqa: E402

# seconds between two lines of progress, on a terminal, where the one takes the place of the other, and elsewhere
PAUSES = (0.5, 60.0)

FOUND, NONE, USAGE, NO_ANSWER, STOPPED = 0, 1, 2, 3, 130


class Progress:
    """Tells from time to time how many cases were tried."""

    def __init__(self, stream: TextIO) -> None:
        self._stream = stream
        self._terminal = stream.isatty()
        self._pause = PAUSES[0 if self._terminal else 1]
        self._next = time.monotonic() + self._pause
        self._told = False

    def tell(self, tried: int, cases: int) -> None:
        """Tells it, if it is time to."""
        if time.monotonic() < self._next:
            return
        self._next = time.monotonic() + self._pause
        line = f"{tried:,} of {cases:,} cases, none of them violates the property"
        self._stream.write(f"\r{line}" if self._terminal else f"{line}\n")
        self._stream.flush()
        self._told = True

    def end(self) -> None:
        """Clears the line on a terminal."""
        if self._told and self._terminal:
            self._stream.write("\r\x1b[K")


def shown(name: str, profile: virage.Profile) -> str:
    """A profile as it is printed: under the name of its file."""
    return f"{name}:\n" + "".join(f"  {line}\n" for line in profile.text().decode().splitlines())


def written(name: str, profiles: Sequence[virage.Profile]) -> List[str]:
    """Writes a profile to NAME.soc, and a second one to NAME.lifted.soc, and gives the names of the files.

    Where such a file is there and holds something else, NAME.2.soc is written, or the next number that is free.
    """
    for number in itertools.count(1):
        stem = name if number == 1 else f"{name}.{number}"
        files = [f"{stem}.soc", f"{stem}.lifted.soc"][: len(profiles)]
        if all(map(is_free, files, profiles)):
            break
    if number > 1:
        tell_warning(f"{name}.soc or {name}.lifted.soc holds something else, so a number stands in the names")
    for file, profile in zip(files, profiles):
        if not os.path.lexists(file):
            with open(file, "xb") as made:
                made.write(profile.text())
    return files


def is_free(name: str, profile: virage.Profile) -> bool:
    """Whether a file can be had for this profile: it isn't there, or holds just that."""
    return not os.path.lexists(name) or (os.path.isfile(name) and Path(name).read_bytes() == profile.text())


def called(program: virage.Program) -> str:
    """How the program is called in this folder."""
    if os.path.exists("virage") and os.path.exists(program.path) and os.path.samefile("virage", program.path):
        return "./virage"
    return "virage" if program.path == shutil.which("virage") else program.path


def stem(rule: str, property: str) -> str:
    """What the files of a case are named after, as those of examples/counterexamples are."""
    return f"{Path(rule).stem}.{property.replace('(', '').replace(')', '')}"


def listed(result: Optional[virage.Result]) -> str:
    """A result on one line."""
    return "; ".join(str(result).splitlines())


def found_text(found: virage.Counterexample, options: argparse.Namespace) -> str:
    """What is printed of a case that violates the property. Its profiles are written to files."""
    profiles = [found.profile] + [found.second] * (found.second is not None)
    files = written(options.files or stem(options.rule, options.property), profiles)
    text = f"case {found.tried:,} of seed {options.seed} violates {options.property}; this is left of it:\n"
    text += shown(files[0], found.profile)
    words = [called(virage.Program()), "refute", options.rule, options.property, *files]
    if found.renaming is not None:
        names = ", ".join(f"{old} is {new}" for old, new in enumerate(found.renaming, 1))
        return text + f"with {listed(found.before)}\nand, where {names}, {listed(found.after)}\n"
    if found.second is not None:
        text += shown(files[1], found.second)
        lines = [at for at, (before, after) in enumerate(zip(found.profile.lines, found.second.lines), 1)
                 if before != after]
        where = f"on line {', '.join(map(str, lines))} of the votes" if lines else "nowhere"
        text += f"  (alternative {found.lifted} is raised {where})\n"
        words.append(str(found.lifted))
    return text + f"the rule lacks the property, which is proved; this shows it again:\n  {shlex.join(words)}\n"


def none_text(search: Search, options: argparse.Namespace) -> str:
    """What is printed where no case was found."""
    met = search.reasons["ClauseHolds"]
    return (
        f"none of {search.tried:,} cases of seed {options.seed} violates {options.property}\n"
        f"{met:,} of them are cases that it speaks of\n"
        "this proves nothing: the rule may lack the property all the same\n"
    )


def count(text: str) -> int:
    """A number from 1 on. Any other word is a ValueError."""
    number = int(text)
    if number < 1:
        raise ValueError(text)
    return number


def span(text: str) -> Tuple[int, int]:
    """The limits in a word as 2-4, or 3. Any other word is a ValueError."""
    least, _, greatest = text.partition("-")
    limits = count(least), count(greatest or least)
    if limits[0] > limits[1]:
        raise ValueError(text)
    return limits


def read_options(words: Optional[List[str]] = None) -> argparse.Namespace:
    parser = argparse.ArgumentParser(
        description=__doc__, formatter_class=argparse.RawDescriptionHelpFormatter, allow_abbrev=False)
    parser.add_argument("rule", metavar="RULE", help="a rule file, of which the last rule is meant")
    parser.add_argument("property", metavar="PROPERTY", help="as mono or defers(2)")
    parser.add_argument("--seed", type=int, default=1, help="what the profiles are drawn from (%(default)s)")
    parser.add_argument("--cases", type=count, default=100_000, help="how many are tried (%(default)s)")
    parser.add_argument(
        "--alternatives", type=span, default=Bounds().alternatives, metavar="FROM-TO", help="how many (2-5)")
    parser.add_argument("--lines", type=count, default=Bounds().lines, help="how many at most (%(default)s)")
    parser.add_argument("--weight", type=count, default=Bounds().weight, help="of a line, at most (%(default)s)")
    parser.add_argument(
        "--files", metavar="NAME", help="NAME.soc and NAME.lifted.soc are written (RULE.PROPERTY); none is overwritten")
    options = parser.parse_args(words)
    if not os.path.isfile(options.rule):
        parser.error(f"{options.rule} is no file that can be read again and again")
    if options.property in ON_LIFTS and options.alternatives[1] < 2:
        parser.error("a single alternative can't be raised")
    if options.files and not Path(options.files).parent.is_dir():
        parser.error(f"there is no folder {Path(options.files).parent}")
    options.bounds = Bounds(options.alternatives, options.lines, options.weight)
    return options


def tell_warning(message: Union[Warning, str], *_: Any, **__: Any) -> None:
    """Says a warning, or what judges, as the script of a checkout says it of its build."""
    print(f"virage: {message}", file=sys.stderr)


def main() -> int:
    options = read_options()
    warnings.showwarning = tell_warning
    progress = Progress(sys.stderr)
    search = None
    try:
        search = Search(options.rule, options.property, options.seed, options.bounds)
        tell_warning(f"the cases are judged by {search.means}")
        found = search.run(options.cases, progress.tell)
    except virage.UsageFault:
        print(f"virage takes no refute of the property {options.property}", file=sys.stderr)
        return USAGE
    except virage.Fault as fault:
        print(f"virage gives no answer: {type(fault).__name__} {fault}", file=sys.stderr)
        return NO_ANSWER
    except KeyboardInterrupt:
        tried = 0 if search is None else search.tried
        print(f"\nstopped after {tried:,} cases, none of which violates {options.property}", file=sys.stderr)
        return STOPPED
    finally:
        progress.end()
    if found is None:
        print(none_text(search, options), end="")
        return NONE
    try:
        print(found_text(found, options), end="")
    except OSError as stop:
        print(f"no file of the case can be written: {stop.strerror}: {stop.filename}", file=sys.stderr)
        print(f"case {found.tried:,} of seed {options.seed} violates {options.property}; this is left of it:\n{found}")
    return FOUND


if __name__ == "__main__":
    sys.exit(main())
