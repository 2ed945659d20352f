"""What the program prints, as data. Texts are as docs/FORMATS.md says; any other is a ValueError."""

from __future__ import annotations

from dataclasses import dataclass, field
from typing import Dict, FrozenSet, Iterable, List, Mapping, Optional, Sequence, Tuple, Union

from .derivations import Derivation, Finding, Holds, Reason, Underived, read_reasons
from .rules import Judgement, table
from .terms import Term


@dataclass(frozen=True)
class Result:
    """Whom a rule elects, rejects and defers, by number; and the names that the profile gives."""

    elected: FrozenSet[int]
    rejected: FrozenSet[int]
    deferred: FrozenSet[int]
    names: Mapping[int, str] = field(default_factory=dict, hash=False)

    def labels(self, alternatives: Iterable[int]) -> List[str]:
        """The names of these alternatives, ascending by number; the number where there is no name."""
        return [self.names.get(i, str(i)) for i in sorted(alternatives)]

    def __str__(self) -> str:
        sets = (("elected", self.elected), ("rejected", self.rejected), ("deferred", self.deferred))
        return "\n".join(f"{word}: {self._listed(alternatives)}".rstrip() for word, alternatives in sets)

    def _repr_html_(self) -> str:
        """The three sets, for a notebook."""
        from .pages import shown_result

        return shown_result(self)

    def _listed(self, alternatives: Iterable[int]) -> str:
        return ", ".join(f"{i} {self.names[i]}" if i in self.names else str(i) for i in sorted(alternatives))


@dataclass(frozen=True)
class Report:
    """A rule, the size and the names of a profile, the result, and what is derived of the rule on every profile.

    `text` is what the program printed.
    """

    term: Term
    alternatives: int
    voters: int
    result: Result
    findings: Mapping[str, Finding] = field(hash=False)
    text: bytes = field(repr=False)

    def _repr_html_(self) -> str:
        """The result and the findings, for a notebook."""
        from .pages import shown_report

        return shown_report(self)

    @property
    def names(self) -> Mapping[int, str]:
        """The names that the profile gives, by number."""
        return self.result.names

    @property
    def holds(self) -> Dict[str, Derivation]:
        """The properties that the rule is derived to have, each with its first derivation."""
        return {text: found.derivation for text, found in self.findings.items() if isinstance(found, Holds)}

    @property
    def underived(self) -> Dict[str, Tuple[Reason, ...]]:
        """The properties that have no derivation, each with the reasons."""
        return {text: found.reasons for text, found in self.findings.items() if isinstance(found, Underived)}


@dataclass(frozen=True)
class Instruction:
    """An instruction of counting code: its position, its name, and numbers or, for `call`, a module."""

    position: int
    name: str
    arguments: Tuple[Union[int, Term], ...]

    def __str__(self) -> str:
        return " ".join(map(str, (self.position, self.name, *self.arguments)))


@dataclass(frozen=True)
class Drill:
    """The size of a made-up profile, and whom each of four rules elects on it."""

    lines: int
    voters: int
    alternatives: int
    elected: Mapping[Term, FrozenSet[int]] = field(hash=False)


@dataclass(frozen=True)
class Certificate:
    """That a property holds of a term, with a derivation; `text` is what the program printed, and `check` takes."""

    version: int
    term: Term
    property: str
    derivation: Derivation
    text: bytes = field(repr=False)


@dataclass(frozen=True)
class Verdict:
    """What `check` says of a certificate. Where it isn't accepted, the first bad node, in preorder from 0, and why."""

    accepted: bool
    node: Optional[int] = None
    why: Optional[str] = None

    def __bool__(self) -> bool:
        return self.accepted


@dataclass(frozen=True)
class Found:
    """The first term that has the wanted properties, and the first derivation of each."""

    term: Term
    derivations: Mapping[str, Derivation] = field(hash=False)


@dataclass(frozen=True)
class CaseVerdict:
    """What `refute` says of a case: that it violates the property, or the first reason why it doesn't."""

    violated: bool
    reason: Optional[str] = None

    def __bool__(self) -> bool:
        return self.violated


@dataclass(frozen=True)
class Step:
    """A step of `simplify`: the name of its equation, and the place of the part that it replaces.

    Places are counted from 0, in the order of `preorder` of the term at hand.
    """

    equation: str
    place: int


@dataclass(frozen=True)
class Simplified:
    """The term that no equation makes smaller, and the steps that lead to it."""

    term: Term
    steps: Tuple[Step, ...]


@dataclass(frozen=True)
class Counted:
    """A profile of a batch that was accepted: its file, its voters, and the result, without names."""

    file: str
    voters: int
    result: Result


@dataclass(frozen=True)
class Refused:
    """A profile of a batch that was refused: its file, and the kind and the line of its first fault."""

    file: str
    kind: str
    line: int


class Lines:
    """Lines of a printed text, and how many of them are read."""

    def __init__(self, text: bytes) -> None:
        lines = text.decode("utf-8", "surrogateescape").split("\n")
        if lines.pop() != "":
            raise ValueError("the text ends within a line")
        self._lines = lines
        self._at = 0

    def more(self) -> bool:
        """Whether there are lines left."""
        return self._at < len(self._lines)

    def begins(self, start: str) -> bool:
        """Whether the next line begins so."""
        return self.more() and self._lines[self._at].startswith(start)

    def after(self, start: str) -> str:
        """What stands in the next line behind this start, which it has to have."""
        if not self.begins(start):
            raise ValueError(f"no line {start!r} where one has to be")
        self._at += 1
        return self._lines[self._at - 1][len(start) :]

    def end(self) -> None:
        """Makes sure that no line is left."""
        if self.more():
            raise ValueError(f"a line more than there has to be: {self._lines[self._at]!r}")


def read_result(text: bytes) -> Result:
    """The result that `count` printed, without names."""
    lines = Lines(text)
    result = _result(lines, {})
    lines.end()
    return result


def read_report(text: bytes) -> Report:
    """The report that `report` printed."""
    lines = Lines(text)
    term = Term.printed(lines.after("rule "))
    alternatives = int(lines.after("alternatives "))
    voters = int(lines.after("voters "))
    names = {}
    while lines.begins("name "):
        number, _, name = lines.after("name ").partition(": ")
        names[int(number)] = name
    result = _result(lines, names)
    findings = {}
    while lines.more():
        found = read_finding(lines, term)
        findings[found.property] = found
    if [text.partition("(")[0] for text in findings] != list(table().properties):
        raise ValueError("the report doesn't tell of each property")
    return Report(term, alternatives, voters, result, findings, text)


def read_finding(lines: Lines, term: Term) -> Finding:
    """What the next lines tell of a property of the term."""
    if lines.begins("holds "):
        return read_holds(lines, term)
    return read_underived(lines)


def read_holds(lines: Lines, term: Term) -> Holds:
    """A property that the next line tells to hold of the term."""
    text, _, derivation = lines.after("holds ").partition(" ")
    return Holds(text, Derivation.read(derivation, Judgement(text, (term,))))


def read_underived(lines: Lines) -> Underived:
    """A property that the next lines tell to be underived, with the reasons."""
    text = lines.after("underived ")
    reasons = []
    while lines.begins("- "):
        reasons.append("- " + lines.after("- "))
    return Underived(text, read_reasons(reasons))


def read_listing(text: bytes) -> Tuple[Instruction, ...]:
    """The code that `listing` printed."""
    lines = Lines(text)
    code = []
    while lines.more():
        position, name, *arguments = lines.after("").split(" ")
        code.append(Instruction(int(position), name, tuple(map(_argument, arguments))))
    return tuple(code)


def read_drill(text: bytes) -> Drill:
    """What `drill` printed."""
    lines = Lines(text)
    words = lines.after("lines ").split(" ")
    if words[1::2] != ["voters", "alternatives"]:
        raise ValueError(f"not the size of a drill: {words}")
    drawn, voters, alternatives = map(int, words[::2])
    elected = {}
    while lines.more():
        term, _, numbers = lines.after("").partition(" elected:")
        elected[Term.printed(term)] = _numbers(numbers)
    return Drill(drawn, voters, alternatives, elected)


def _argument(word: str) -> Union[int, Term]:
    return int(word) if word.isdigit() else Term.printed(word)


def read_certificate(text: bytes) -> Certificate:
    """A certificate as `prove` prints it. What it says of its derivation is true: that is looked at here too."""
    lines = Lines(text)
    version = int(lines.after("virage-certificate "))
    term = Term.printed(lines.after("term "))
    property = lines.after("property ")
    derivation = Derivation.read(lines.after("derivation "), Judgement(property, (term,)))
    lines.end()
    return Certificate(version, term, property, derivation, text)


def read_proof(text: bytes) -> Union[Certificate, Underived]:
    """What `prove` printed."""
    lines = Lines(text)
    if not lines.begins("underived "):
        return read_certificate(text)
    underived = read_underived(lines)
    lines.end()
    return underived


def read_verdict(text: bytes) -> Verdict:
    """What `check` printed."""
    lines = Lines(text)
    if lines.begins("accepted"):
        verdict = Verdict(lines.after("accepted") == "")
    else:
        node, _, why = lines.after("refused node ").partition(": ")
        verdict = Verdict(False, int(node), why)
    lines.end()
    return verdict


def read_batch(text: bytes, files: Sequence[str]) -> Tuple[Union[Counted, Refused], ...]:
    """What `batch` printed of these files."""
    lines = Lines(text)
    rows = tuple(_row(lines, file) for file in files)
    refused = sum(isinstance(row, Refused) for row in rows)
    if lines.after("profiles ") != f"{len(rows)} refused {refused}":
        raise ValueError("the last line has other numbers than the lines before it")
    lines.end()
    return rows


def _row(lines: Lines, file: str) -> Union[Counted, Refused]:
    if lines.begins(f"{file} refused "):
        kind, _, line = lines.after(f"{file} refused ").partition(" at line ")
        return Refused(file, kind, int(line))
    voters, _, sets = lines.after(f"{file} voters ").partition(" elected:")
    elected, _, others = sets.partition(" rejected:")
    rejected, _, deferred = others.partition(" deferred:")
    return Counted(file, int(voters), Result(_numbers(elected), _numbers(rejected), _numbers(deferred)))


def read_case_verdict(text: bytes) -> CaseVerdict:
    """What `refute` printed."""
    lines = Lines(text)
    if lines.begins("violated"):
        verdict = CaseVerdict(lines.after("violated") == "")
    else:
        verdict = CaseVerdict(False, lines.after("not violated: "))
    lines.end()
    return verdict


def read_simplified(text: bytes) -> Simplified:
    """What `simplify` printed."""
    lines = Lines(text)
    term = Term.printed(lines.after("simple "))
    steps = []
    while lines.more():
        equation, _, place = lines.after("").partition(" ")
        steps.append(Step(equation, int(place)))
    return Simplified(term, tuple(steps))


def read_found(text: bytes) -> Optional[Found]:
    """What `synth` printed: None where there is no such term."""
    lines = Lines(text)
    if lines.begins("none up to "):
        return None
    term = Term.printed(lines.after("found "))
    derivations = {}
    while lines.more():
        found = read_holds(lines, term)
        derivations[found.property] = found.derivation
    return Found(term, derivations)


def _result(lines: Lines, names: Mapping[int, str]) -> Result:
    elected, rejected, deferred = (_numbers(lines.after(word + ":")) for word in ("elected", "rejected", "deferred"))
    return Result(elected, rejected, deferred, names)


def _numbers(text: str) -> FrozenSet[int]:
    return frozenset(map(int, text.split()))
