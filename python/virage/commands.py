"""The commands of the program as functions."""

from __future__ import annotations

import collections.abc
import operator
from dataclasses import replace
from typing import (
    Callable,
    Iterable,
    Iterator,
    List,
    Mapping,
    Optional,
    Sequence,
    SupportsIndex,
    Tuple,
    TypeVar,
    Union,
)

from .answers import (
    CaseVerdict,
    Certificate,
    Counted,
    Drill,
    Found,
    Instruction,
    Refused,
    Report,
    Result,
    Simplified,
    Verdict,
    read_batch,
    read_case_verdict,
    read_drill,
    read_found,
    read_listing,
    read_proof,
    read_report,
    read_result,
    read_simplified,
    read_verdict,
)
from .derivations import Underived
from .engines import Engine, engine
from .explanations import Explanation, Pairs, read_explained, read_pairs
from .faults import Broken, ReadFault, TextRefused, UsageFault
from .profiles import Files, Given, PathOrText, ProfileLike, RuleLike, names_in
from .program import Answer
from .terms import Term
from .usage import told_usage

Read = TypeVar("Read")

# how many bytes a manifest may have
_LONGEST_MANIFEST = 1_048_576


def count(rule: RuleLike, profile: ProfileLike, *, program: Optional[Engine] = None) -> Result:
    """Whom the last rule of a rule file elects, rejects and defers on a profile."""
    with Files() as files:
        votes = files.profile(profile)
        return _named(_answer(read_result, program, "count", files.rule(rule), votes), votes)


def report(rule: RuleLike, profile: ProfileLike, *, program: Optional[Engine] = None) -> Report:
    """What `count` gives, and what is derived of the rule on every profile: findings with derivations or reasons."""
    with Files() as files:
        return _answer(read_report, program, "report", files.rule(rule), files.profile(profile))


def explain(
    rule: RuleLike, profile: ProfileLike, *, program: Optional[Engine] = None
) -> Optional[Explanation]:
    """How the last rule of a rule file comes to its result on a profile; None where the text would be too long."""
    with Files() as files:
        return _answer(read_explained, program, "explain", files.rule(rule), files.profile(profile))


def pairs(profile: ProfileLike, *, program: Optional[Engine] = None) -> Pairs:
    """How many voters of a profile put one alternative before another, and the Condorcet winner."""
    with Files() as files:
        return _answer(read_pairs, program, "pairs", files.profile(profile))


def prove(rule: RuleLike, property: str, *, program: Optional[Engine] = None) -> Union[Certificate, Underived]:
    """A certificate that the last rule of a rule file has a property, as `mono`, or why none is derived."""
    with Files() as files:
        return _answer(read_proof, program, "prove", files.rule(rule), property)


def check(certificate: Union[PathOrText, Certificate], *, program: Optional[Engine] = None) -> Verdict:
    """Whether a certificate's derivation is valid, so that its term has its property.

    A string that holds a line feed is the text of a certificate, any other a file's name.
    """
    given = certificate.text if isinstance(certificate, Certificate) else certificate
    with Files() as files:
        return _answer(read_verdict, program, "check", files.path_or_text("certificate", given, "\n"))


def refute(
    rule: RuleLike,
    property: str,
    profile: ProfileLike,
    second: Optional[ProfileLike] = None,
    lifted: Optional[SupportsIndex] = None,
    *,
    program: Optional[Engine] = None,
) -> CaseVerdict:
    """Whether a profile shows that the last rule of a rule file lacks a property.

    Of a property on lifts (`dli`, `imono`, `dimono`, `dmono`, `mono`) it takes a second profile too, and the
    alternative that is lifted in it.
    """
    if (second is None) != (lifted is None):
        raise ValueError("a second profile comes with the alternative that is lifted in it, and none without it")
    with Files() as files:
        words: List[Union[str, Given]] = [files.rule(rule), property, files.profile(profile)]
        if second is not None and lifted is not None:
            words += [files.profile(second, "second.soc", "second"), str(operator.index(lifted))]
        return _answer(read_case_verdict, program, "refute", *words)


def simplify(rule: RuleLike, *, program: Optional[Engine] = None) -> Simplified:
    """A term of the same meaning as the last rule of a rule file, which no equation makes smaller, and the steps."""
    with Files() as files:
        return _answer(read_simplified, program, "simplify", files.rule(rule))


def synth(
    size: int,
    properties: Union[str, Sequence[str]],
    leaves: Union[None, str, Term, Sequence[Union[Term, str]]] = None,
    *,
    program: Optional[Engine] = None,
) -> Optional[Found]:
    """The first term of up to this size that is derived to have these properties; None where there is none.

    It is composed of these modules, and without them of a list that the program has.
    """
    words = [str(size), properties if isinstance(properties, str) else ",".join(properties)]
    if leaves is not None:
        words.append(str(leaves) if isinstance(leaves, (str, Term)) else ";".join(map(str, leaves)))
    return _answer(read_found, program, "synth", *words)


def position(
    weights: Sequence[SupportsIndex], kind: str, profile: ProfileLike, *, program: Optional[Engine] = None
) -> Result:
    """Whom an elimination of this kind (max, min, below, upto) rejects and defers by weights of places.

    The last weight is that of all further places.
    """
    listed = ",".join(str(operator.index(weight)) for weight in weights)
    with Files() as files:
        votes = files.profile(profile)
        return _named(_answer(read_result, program, "position", listed, kind, votes), votes)


def batch(
    rule: RuleLike,
    profiles: Union[Iterable[ProfileLike], Mapping[str, ProfileLike]],
    *,
    program: Optional[Engine] = None,
) -> Tuple[Union[Counted, Refused], ...]:
    """Whom the last rule of a rule file elects, rejects and defers on each of these profiles.

    The file of a row is the path of its profile, or its key where profiles are a dictionary; of what has neither it is
    the number in the list, from 0. More profiles than one call takes are cut into calls.
    """
    rows: List[Union[Counted, Refused]] = []
    with Files() as files:
        given_rule = files.rule(rule)
        given = [
            _called(files.profile(it, f"{i}.soc", f"profiles[{i if key is None else key!r}]"), key, i)
            for i, (key, it) in enumerate(_each(profiles))
        ]
        for part in _cut(given, (program or engine()).most_profiles):
            manifest = files.manifest(part)
            read = _answer(lambda text: read_batch(text, manifest.names), program, "batch", given_rule, manifest)
            rows += map(_named_row, read, part)
    return tuple(rows)


def _each(
    profiles: Union[Iterable[ProfileLike], Mapping[str, ProfileLike]],
) -> Iterable[Tuple[Optional[str], ProfileLike]]:
    """The profiles, each with its key, if it has one."""
    if isinstance(profiles, (str, bytes)) or not isinstance(profiles, collections.abc.Iterable):
        raise TypeError(f"profiles is a list of profiles, or a dictionary of them, and not {profiles!r}")
    if isinstance(profiles, Mapping):
        return profiles.items()
    return ((None, it) for it in profiles)


def _called(given: Given, key: Optional[str], number: int) -> Given:
    given.called = key if key is not None else given.called or str(number)
    return given


def _cut(given: Sequence[Given], most: int) -> Iterator[Sequence[Given]]:
    """Parts of at most so many, whose names fit into a manifest; one part even of none."""
    part: List[Given] = []
    size = 0
    for it in given:
        size += it.most_bytes
        if part and (len(part) == most or size > _LONGEST_MANIFEST):
            yield part
            part, size = [], it.most_bytes
        part.append(it)
    if part or not given:
        yield part


def _named_row(row: Union[Counted, Refused], given: Given) -> Union[Counted, Refused]:
    if isinstance(row, Refused):
        return replace(row, file=given.called)
    return Counted(given.called, row.voters, _named(row.result, given))


def listing(rule: RuleLike, *, program: Optional[Engine] = None) -> Tuple[Instruction, ...]:
    """The counting code of the last rule of a rule file."""
    with Files() as files:
        return _answer(read_listing, program, "listing", files.rule(rule))


def drill(seed: int, lines: int, alternatives: int, *, program: Optional[Engine] = None) -> Drill:
    """Whom four stated rules elect on a profile that is made up from the seed."""
    return _answer(read_drill, program, "drill", str(seed), str(lines), str(alternatives))


def _named(result: Result, given: Given) -> Result:
    """The result with the names that are given in the file of the profile."""
    alternatives = len(result.elected) + len(result.rejected) + len(result.deferred)
    names = names_in(given, alternatives)
    return replace(result, names=names) if names else result


def _answer(read: Callable[[bytes], Read], program: Optional[Engine], *words: Union[str, Given]) -> Read:
    answer = _run(program or engine(), words)
    try:
        return read(answer.text)
    except (ValueError, IndexError, TypeError) as stop:
        raise Broken(f"what {words[0]} printed isn't understood: {stop}") from stop


def _run(called: Engine, words: Sequence[Union[str, Given]]) -> Answer:
    try:
        return called.run(*words)
    except UsageFault as stop:
        raise told_usage(called.run, stop, words) from None
    except ReadFault as stop:
        given = [given for word in words if isinstance(word, Given) for given in (word, *word.beside())]
        why = next(filter(None, (it.unread() for it in given)), None)
        raise stop if why is None else ReadFault(f"{stop}: {why}") from None
    except TextRefused as refused:
        raise TextRefused(refused.kind, _place(refused.byte, words[1])) from None


def _place(byte: int, given: Union[str, Given]) -> int:
    """The place in what a user has written, where a call made a file of it."""
    return max(byte - given.before, 0) if isinstance(given, Given) else byte
