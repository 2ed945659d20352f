"""Which word of a call is wrong, where the program says only that the words are no command.

The program itself says it: each word is tried in a call whose other words are sure to be right. No file is read then,
since one that isn't there stands in the place of each.
"""

from __future__ import annotations

from typing import Callable, Dict, Iterator, Optional, Sequence, Tuple, Union

from .faults import Fault, UsageFault
from .profiles import Given
from .rules import ON_LIFTS, table
from .terms import MODULES

# no file has this name
_FILE = "/nonexistent/virage"

# of each form of words what a word stands for, and one that is right
_FORMS: Dict[Tuple[str, int], Sequence[Tuple[str, str]]] = {
    ("prove", 2): (("RULE", _FILE), ("PROPERTY", "ne")),
    ("refute", 3): (("RULE", _FILE), ("PROPERTY", "cc"), ("SOC", _FILE)),
    ("refute", 5): (("RULE", _FILE), ("PROPERTY", "mono"), ("SOC", _FILE), ("SOC2", _FILE), ("ALT", "1")),
    ("synth", 2): (("SIZE", "1"), ("PROPERTIES", "el")),
    ("synth", 3): (("SIZE", "1"), ("PROPERTIES", "el"), ("MODULES", "elect")),
    ("position", 3): (("WEIGHTS", "1"), ("KIND", "max"), ("SOC", _FILE)),
    ("drill", 3): (("SEED", "0"), ("LINES", "1"), ("ALTERNATIVES", "1")),
}


def told_usage(run: Callable[..., object], stop: UsageFault, words: Sequence[Union[str, Given]]) -> UsageFault:
    """The fault of a call of these words, with the one that is wrong by itself, if one is."""
    command, given = str(words[0]), words[1:]
    form = _FORMS.get((command, len(given)), ())
    for place, ((name, _), word) in enumerate(zip(form, given)):
        if isinstance(word, str) and _is_wrong(run, command, [right for _, right in form], place, word):
            return UsageFault(f"{command}: {word!r} can't be {name} here{_hint(command, name, word)}", word)
    return stop


def _hint(command: str, name: str, word: str) -> str:
    """What may be meant by a wrong word, or what it takes, in words that stand behind it; or nothing."""
    if name in ("PROPERTY", "PROPERTIES"):
        said = _property_hints(command, word.split(",") if name == "PROPERTIES" else [word])
    elif name == "MODULES":
        said = (_meant(part.partition("(")[0].strip(), MODULES) for part in word.split(";"))
    elif name == "KIND":
        said = iter([_meant(word, ("max", "min", "below", "upto"))])
    else:
        return ""
    return next(filter(None, said), "")


def _property_hints(command: str, given: Sequence[str]) -> Iterator[str]:
    for part in given:
        if part in _NUMBERED:
            yield f": {part} has a number, as {part}(1)"
        elif "condorcet" in part.lower():
            yield " (is cc meant?)"
        elif part.partition("(")[0] not in table().properties:
            yield _meant(part.strip(), [*table().properties])
        elif command == "refute" and part in ON_LIFTS:
            yield ": it takes a second profile too, and the alternative that is raised in it"
        elif command == "refute" and part == "neut":
            yield ": a case of it isn't judged; virage.search looks for one by two counts"
        elif command == "refute":
            yield ": it takes one profile"


def _meant(word: str, known: Sequence[str]) -> str:
    found = nearest(word, known) if word not in known else None
    return f" (is {found}{'(1)' if found in _NUMBERED else ''} meant?)" if found else ""


# the properties that have a number
_NUMBERED = ("defers", "rejects", "elim")


def nearest(word: str, known: Sequence[str]) -> Optional[str]:
    """Which of the known words may be meant, as the script `virage` finds it."""
    found = min(known, key=lambda other: _away(word, other))
    return found if _away(word, found) <= (1 if len(word) < 4 else 2) else None


def _away(word: str, other: str) -> int:
    """How many letters are put in, left out or changed; at most 1 where one begins with the other."""
    if word == other:
        return 0
    if not word or len(word) > 40:
        return 40
    if other.startswith(word) or (len(other) > 3 and word.startswith(other)):
        return 1
    row = list(range(len(other) + 1))
    for number, letter in enumerate(word, 1):
        before, row[0] = row[0], number
        for at, letter_there in enumerate(other, 1):
            least = min(row[at] + 1, row[at - 1] + 1, before + (letter != letter_there))
            before, row[at] = row[at], least
    return row[-1]


def _is_wrong(run: Callable[..., object], command: str, right: Sequence[str], place: int, word: str) -> bool:
    tried = [*right[:place], word, *right[place + 1 :]]
    try:
        run(command, *tried)
    except UsageFault:
        return True
    except Fault:
        pass
    return False
