"""What a call that gives no answer raises: one exception for each status of the program."""

from __future__ import annotations

import re
from typing import Callable, Dict, List, Optional, Sequence


class Fault(Exception):
    """The program gave no answer. Each of the exceptions below is one."""


class UsageFault(Fault):
    """The words of the call aren't of a form that the program knows (status 2).

    `word` is the one that is wrong, where one is by itself.
    """

    def __init__(self, text: str, word: Optional[str] = None) -> None:
        super().__init__(text)
        self.word = word


class TextRefused(Fault):
    """A rule file or a certificate has a fault (status 3).

    `kind` is the kind of its first fault, and `byte` the place of it, counted from 0. docs/LANGUAGE.md has the kinds.
    """

    def __init__(self, kind: str, byte: int) -> None:
        super().__init__(f"{kind} at byte {byte}")
        self.kind = kind
        self.byte = byte


class ProfileRefused(Fault):
    """A profile has a fault (status 4).

    `kind` is the kind of its first fault, and `line` the line of it, counted from 1. docs/FORMATS.md has the kinds.
    """

    def __init__(self, kind: str, line: int) -> None:
        super().__init__(f"{kind} at line {line}")
        self.kind = kind
        self.line = line


class BallotsRefused(Fault):
    """A file of ballots isn't converted: something in it is wrong, or needs a choice that wasn't named.

    `row` is where, counted from 1, `why` what it is, and `choices` what may be named, or is meant.
    """

    def __init__(self, row: int, why: str, choices: Sequence[str] = ()) -> None:
        super().__init__("\n  ".join([f"row {row}: {why}", *choices]))
        self.row = row
        self.why = why
        self.choices = tuple(choices)


class ReadFault(Fault):
    """A file is missing or can't be read (status 5)."""


class WriteFault(Fault):
    """The program couldn't write what it had to say (status 6)."""


class OutOfMemory(Fault):
    """Memory was wanting (status 7)."""


class NoCounter(Fault):
    """No counter serves a module of the rule (status 8). The program's own bench serves all."""


class NoProgram(Fault):
    """There is no program to call, or none can be built (statuses 69 and 70 of the script `virage`)."""


class Broken(Fault):
    """The program ended as it never should, or said something that isn't understood here."""


def _not_understood(line: str) -> Fault:
    return Broken(f"what is said of a refused file isn't understood: {line!r}")


def _refused_text(line: str) -> Fault:
    found = re.fullmatch(r"text refused: (\w+) at byte (\d+)", line)
    return TextRefused(found[1], int(found[2])) if found else _not_understood(line)


def _refused_profile(line: str) -> Fault:
    found = re.fullmatch(r"profile refused: (\w+) at line (\d+)", line)
    return ProfileRefused(found[1], int(found[2])) if found else _not_understood(line)


_BY_STATUS: Dict[int, Callable[[str], Fault]] = {
    2: UsageFault,
    3: _refused_text,
    4: _refused_profile,
    5: ReadFault,
    6: WriteFault,
    7: OutOfMemory,
    8: NoCounter,
}


def fault_of(status: int, own: List[str], script: List[str]) -> Fault:
    """The fault of a status, where `own` are the program's lines of standard error and `script` the script's."""
    if status in _BY_STATUS:
        return _BY_STATUS[status](" ".join(own))
    if status in (69, 70):
        return NoProgram("\n".join(script))
    return Broken(f"status {status}: " + " ".join(script + own))
