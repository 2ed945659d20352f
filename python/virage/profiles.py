"""Profiles and rules as they are handed to the program: files, texts, or data."""

from __future__ import annotations

import collections.abc
import operator
import os
import re
import tempfile
from dataclasses import dataclass, field
from pathlib import Path
from types import TracebackType
from typing import Dict, Iterable, Mapping, Optional, Sequence, SupportsIndex, Tuple, Type, Union

from .terms import SCORES, Term

Order = Sequence[Union[SupportsIndex, str]]
Line = Tuple[SupportsIndex, Order]


@dataclass(frozen=True)
class Profile:
    """Weighted orders of alternatives, which are numbered from 1, and names of some of these.

    A line is a weight, which is how many voters cast that ballot, and the order, the most preferred first. What is
    wrong with an order is for the program to say: it is told as a fault of the text that `text` makes, by its line.
    """

    alternatives: int
    lines: Tuple[Tuple[int, Tuple[int, ...]], ...]
    names: Mapping[int, str] = field(default_factory=dict)

    @classmethod
    def of(cls, lines: Iterable[Line], names: Sequence[str] = ()) -> Profile:
        """The profile of these lines. Orders list numbers, or the names of the alternatives.

        The alternatives are numbered as in `names`; without them, where orders list names, as in the first order.
        """
        _of_type("lines", lines, "a list of weights and orders", collections.abc.Iterable)
        ballots = list(map(_ballot, lines))
        first = ballots[0][1] if ballots else ()
        called = list(names) or [name for name in first if isinstance(name, str)]
        numbers = {name: i for i, name in enumerate(called, 1)}
        if len(numbers) != len(called):
            raise ValueError("two alternatives have the same name")
        read = tuple((weight, tuple(_number(entry, numbers) for entry in order)) for weight, order in ballots)
        return cls(max(len(called), len(first)), read, dict(enumerate(called, 1)))

    @classmethod
    def read(cls, text: bytes) -> Profile:
        """The profile of a `.soc` file that the program accepts. What it refuses may be a ValueError, or not."""
        alternatives, ballots, names = 0, [], {}
        for line in map(_trimmed, text.removeprefix(b"\xef\xbb\xbf").split(b"\n")):
            key, _, value = (_trimmed(part) for part in line.partition(b":"))
            if line.startswith(b"#"):
                named = _NAME.match(line)
                if _trimmed(key[1:]) == b"NUMBER ALTERNATIVES":
                    alternatives = int(value)
                elif named:
                    names[int(named[1])] = _trimmed(named[2]).decode("utf-8", "surrogateescape")
            elif line:
                ballots.append((int(key), tuple(int(member) for member in value.split(b","))))
        return cls(alternatives, tuple(ballots), {i: name for i, name in sorted(names.items()) if name})

    def text(self) -> bytes:
        """The `.soc` file of this profile: the number of alternatives, then the names, then the lines."""
        if any("\n" in name for name in self.names.values()):
            raise ValueError("a name can't hold a line feed")
        said = [f"# NUMBER ALTERNATIVES: {self.alternatives}"]
        said += [f"# ALTERNATIVE NAME {i}: {name}" for i, name in sorted(self.names.items())]
        said += [f"{weight}: {','.join(map(str, order))}" for weight, order in self.lines]
        return "".join(line + "\n" for line in said).encode("utf-8", "surrogateescape")


def _ballot(line: Line) -> Tuple[int, Tuple[Union[SupportsIndex, str], ...]]:
    try:
        weight, order = line
        return operator.index(weight), tuple(order)
    except (TypeError, ValueError):
        said = "a line of votes is a weight and an order, as (3, [2, 1, 3]) or (3, ['tea', 'milk'])"
        raise TypeError(f"{said}, and not {line!r}") from None


def _number(entry: Union[SupportsIndex, str], numbers: Mapping[str, int]) -> int:
    if not isinstance(entry, str):
        return operator.index(entry)
    if entry not in numbers:
        raise ValueError(f"no alternative is called {entry!r}")
    return numbers[entry]


PathOrText = Union[str, bytes, "os.PathLike[str]"]
RuleLike = Union[PathOrText, Term]
ProfileLike = Union[PathOrText, Profile, Iterable[Line]]

_NAME = re.compile(rb"#[ \t\r]*ALTERNATIVE NAME 0*([1-9][0-9]*)[ \t\r]*:(.*)", re.DOTALL)

# what looks like a term, and like no path
_TERM = re.compile(r"\s*[A-Za-z][A-Za-z0-9_-]*\s*\([A-Za-z0-9_,()[\]\s-]*\)\s*")

# how many bytes the path of a file that is kept has at most, unless the folder for such files is far down
_MOST_OF_KEPT = 100

# the name that the file of a rule has in a call
RULE_FILE = "rule.vir"

# what stands before a term in the text of a rule file that is made of it
_RULE = b"rule = "


class Given:
    """A file that a call is handed: a path, or a content; and the name that it has among the files of the call.

    A path is read only by what asks for the content; a content stands in a file only once that is asked for.
    """

    def __init__(
        self, files: Files, name: str, path: Optional[str] = None, content: Optional[bytes] = None, before: int = 0
    ) -> None:
        self.name = name
        # what an answer calls it: its path, or what is put here
        self.called = path or ""
        # how many bytes stand before what a user has written
        self.before = before
        self._files = files
        self._path = path
        self._named = path
        self._content = content

    def unread(self) -> Optional[str]:
        """Which file can't be read, and why, as far as that is seen now; None where nothing is."""
        if self._named is None:
            return None
        if not os.path.lexists(self._named):
            return f"{self._named!r}: {_missing(self.name, self._named)}"
        if not os.path.exists(self._named):
            return f"{self._named!r}: a link to no file"
        if os.path.isdir(self._named):
            return f"{self._named!r}: a folder"
        return None if os.access(self._named, os.R_OK) else f"{self._named!r}: no permission to read it"

    def content(self) -> Optional[bytes]:
        """What stands in it; None where it can't be read."""
        if self._content is None and self._path is not None:
            try:
                with open(self._path, "rb") as file:
                    self._content = file.read()
            except (OSError, ValueError):
                return None
        return self._content

    def content_again(self) -> Optional[bytes]:
        """What stands in it, behind a call; None where it is a pipe of which it isn't known."""
        if self._content is None and (self._path is None or not os.path.isfile(self._path)):
            return None
        return self.content()

    def path(self) -> str:
        """A file that has this content, under a name that is text: that of the path, or one that goes with `Files`."""
        if self._path is None:
            self._path = self._files.keep(self.name, self.content() or b"")
        elif not _is_text(self._path):
            self._path = self._files.link(self.name, self._path)
        return self._path

    @property
    def most_bytes(self) -> int:
        """How many bytes a line of a manifest has at most that names it."""
        return 1 + max(_MOST_OF_KEPT, len((self._path or "").encode("utf-8", "surrogateescape")))

    def beside(self) -> Sequence[Given]:
        """The files that this one names."""
        return ()


class Manifest(Given):
    """A manifest of files. `names` are those that it had in the last call."""

    def __init__(self, files: Files, listed: Sequence[Given]) -> None:
        super().__init__(files, "manifest.txt")
        self.names: Sequence[str] = ()
        self._listed = listed

    def content(self) -> Optional[bytes]:
        return self._of([given.name for given in self._listed])

    def path(self) -> str:
        paths = [given.path() for given in self._listed]
        for path in paths:
            if not path or "\n" in path or path.endswith("\r"):
                raise ValueError(f"a manifest can't name the file {path!r}")
        return self._files.keep(self.name, self._of(paths))

    def beside(self) -> Sequence[Given]:
        return self._listed

    def _of(self, names: Sequence[str]) -> bytes:
        self.names = names
        return "".join(f"{name}\n" for name in names).encode("utf-8", "surrogateescape")


class Files:
    """What a call is handed. What the program needs as files, and isn't one, goes at the end."""

    def __init__(self) -> None:
        self._room: Optional[tempfile.TemporaryDirectory[str]] = None

    def __enter__(self) -> Files:
        return self

    def __exit__(
        self, kind: Optional[Type[BaseException]], stop: Optional[BaseException], at: Optional[TracebackType]
    ) -> None:
        if self._room is not None:
            self._room.cleanup()

    def rule(self, rule: RuleLike) -> Given:
        """The file of a rule.

        A string with a semicolon is the text of a rule file; one of the form of a term is that term; any other is a
        file's name.
        """
        if isinstance(rule, Term):
            return self._term(str(rule))
        _of_type("rule", rule, "a path, the text of a rule file, or a term", str, bytes, os.PathLike)
        if isinstance(rule, str) and ";" not in rule and _is_term(rule):
            return self._term(rule)
        return self.path_or_text(RULE_FILE, rule, ";")

    def profile(self, profile: ProfileLike, name: str = "profile.soc", parameter: str = "profile") -> Given:
        """The file of a profile, of this name where it has none, which was given as this parameter.

        A string that holds a line feed is the text of a profile, any other a file's name.
        """
        if isinstance(profile, Profile):
            return Given(self, name, None, profile.text())
        if isinstance(profile, (str, bytes, os.PathLike)):
            return self.path_or_text(name, profile, "\n")
        what = "a path, the text of a profile, a Profile, or a list of weights and orders"
        _of_type(parameter, profile, what, collections.abc.Iterable)
        listed = Profile.of(profile)
        if listed.alternatives == 0:
            raise ValueError(
                f"{parameter} has no votes: a list has a weight and an order at least, as [(3, [2, 1, 3])]")
        return Given(self, name, None, listed.text())

    def manifest(self, listed: Sequence[Given]) -> Manifest:
        """A manifest of these files."""
        return Manifest(self, listed)

    def path_or_text(self, name: str, given: PathOrText, sign: str) -> Given:
        """The file itself, or one of this name for a text: bytes, or a string that holds the sign."""
        _of_type(name.partition(".")[0], given, "a path or a text", str, bytes, os.PathLike)
        if isinstance(given, bytes):
            return Given(self, name, None, given)
        if isinstance(given, str) and sign in given:
            return Given(self, name, None, given.encode("utf-8", "surrogateescape"))
        return Given(self, name, os.fspath(given))

    def keep(self, name: str, content: bytes) -> str:
        """A file of this name with this content, which goes at the end."""
        path = Path(self._folder(), name)
        path.write_bytes(content)
        return str(path)

    def link(self, name: str, path: str) -> str:
        """Another name for a file, which goes at the end."""
        place = os.path.join(self._folder(), name)
        os.symlink(os.path.abspath(path), place)
        return place

    def _folder(self) -> str:
        if self._room is None:
            self._room = tempfile.TemporaryDirectory(prefix="virage-")
        return self._room.name

    def _term(self, text: str) -> Given:
        content = b"%s%s;\n" % (_RULE, text.encode("utf-8", "surrogateescape"))
        return Given(self, RULE_FILE, None, content, len(_RULE))


def _is_term(text: str) -> bool:
    """Whether a string is a term, or is meant as one: it has a term's signs, and no file has its name."""
    try:
        Term.read(text)
    except ValueError:
        return _TERM.fullmatch(text) is not None and not os.path.exists(text)
    return True


def _of_type(parameter: str, given: object, what: str, *types: type) -> None:
    """Raises a TypeError that names the parameter, where what is given for it is none of these."""
    if not isinstance(given, types):
        raise TypeError(f"{parameter} is {what}, and not {given!r}")


def _missing(name: str, path: str) -> str:
    """That a string isn't the path of a file of this name, and what may be meant by it."""
    if name == RULE_FILE and re.fullmatch(r"[a-z]+", path):
        said = f'; "seq(max({path}),elect)" is a rule of this score' if path in SCORES else ""
        return (
            "no such file; a term as a string, or text with a semicolon, is a rule that isn't read from a file"
            f"{said}")
    if name == RULE_FILE and re.search(r"[()=[\]]", path) and not path.endswith(".vir") and os.sep not in path:
        return f"neither a file nor a term: {_wrong_term(path)}"
    if name != RULE_FILE and re.fullmatch(r"[0-9]+:[0-9, ]+", path):
        return "no such file; the text of a profile has a line feed"
    return "no such file"


def _wrong_term(text: str) -> str:
    """What is wrong with a string that is meant as a term, or as the text of a rule file, and is neither."""
    if "=" in text:
        return f"the text of a rule file has a semicolon behind each definition, as {text.strip() + ';'!r}"
    for opening, closing in ("()", "[]"):
        more = text.count(opening) - text.count(closing)
        if more:
            missing = (closing if more > 0 else opening) * abs(more)
            return f"{missing!r} {'is' if abs(more) == 1 else 'are'} missing"
    try:
        Term.read(text)
    except ValueError as stop:
        return str(stop)
    return "it can't be read"


def _is_text(path: str) -> bool:
    try:
        path.encode("utf-8")
    except UnicodeEncodeError:
        return False
    return True


def names_in(given: Given, alternatives: int) -> Dict[int, str]:
    """The names that an accepted profile gives; none where it is a pipe that the program has read."""
    content = given.content_again() or b""
    if b"NAME" not in content:
        return {}
    names: Dict[int, str] = {}
    for number, line in enumerate(content.split(b"\n")):
        if b"#" not in line:
            continue
        found = _NAME.match(_trimmed(line[3:] if number == 0 and line.startswith(b"\xef\xbb\xbf") else line))
        if found and len(found[1]) <= 4 and int(found[1]) <= alternatives:
            names[int(found[1])] = _trimmed(found[2]).decode("utf-8", "surrogateescape")
    return {i: name for i, name in sorted(names.items()) if name}


def _trimmed(line: bytes) -> bytes:
    return line.strip(b" \t\r")
