"""A report as a page: one file that opens without network and holds no script."""

from __future__ import annotations

import base64
import hashlib
import re
from pathlib import Path
from typing import Dict, Iterable, List, Mapping, Optional, Sequence, Set, Tuple

from .account_pages import LISTED, facts, more
from .account_pages import sections as account_sections
from .answers import Report, Result
from .derivations import Derivation, Finding, Holds, Reason, Underived
from .explanations import Explanation, Pairs
from .markup import Markup, element, joined, prose, term_code
from .profiles import Profile
from .rules import Judgement, Rule, table
from .terms import Term

_STYLE = Path(__file__).with_name("page.css")

# the id of a section, its title, and what it has
Part = Tuple[str, str, Tuple[Markup, ...]]

_ALWAYS = (
    "These are true of this rule whoever votes and however: on every set of alternatives and every profile. Each is "
    "derived by rules that are proved to be sound."
)
_OPEN = "Of these nothing is said: they have no derivation, which doesn't mean that they are false."

# where a judgement on two terms is explained
_NOTES = {"Disjoint terms": "property-disj"}

# of a longer name this much is shown
_SHOWN = 200

# of a longer term this much is shown beside a judgement on it
_TERM_SHOWN = 2000

# a tree of more parts is folded
_PARTS_SHOWN = 30

# in a derivation of more steps each one that stands in it several times is drawn once
_DRAWN_IN_FULL = 1000

_LINK = re.compile(r'<a href="#[^"]*">(.*?)</a>')

GLOSSES: Dict[str, str] = {
    "elect": "elects all",
    "defer": "defers all",
    "plurality": "elects those with most first places, and rejects the others",
    "pass": "defers {first} in the order {order}, and rejects the others",
    "drop": "rejects {first} in the order {order}, and defers the others",
    "max": "rejects those below the greatest {score}",
    "min": "rejects those with the least {score}",
    "below": "rejects those below the average {score}",
    "upto": "rejects those at or below the average {score}",
    "rev": "defers whom its part elects, and rejects the others",
    "seq": "one after the other: the second part decides on whom the first defers",
    "par": "side by side: both parts decide on the same alternatives",
    "loop": "again and again, until their number is exactly {number} or a turn defers all",
    "until": "again and again, until their number is at most {number} or a turn defers all",
}

# of each property a question that is answered by always or by not always
QUESTIONS: Dict[str, str] = {
    "ne": "Is nobody elected?",
    "ea": "Is everybody elected?",
    "el": "Is somebody elected?",
    "defers": "Is the number of deferred alternatives exactly {number}?",
    "rejects": "Is the number of rejected alternatives exactly {number}?",
    "elim": "Of more than {number}, is the number of rejected ones exactly {number}?",
    "nb": "Does somebody escape rejection?",
    "decr": "Is somebody rejected, where there are two or more?",
    "dli": "Does the result stay the same when a deferred alternative gets more support?",
    "imono": "When a winner gets more support, do the winners stay the same, or does it win alone?",
    "dimono": "Is nobody elected, and do the deferred stay the same when one of them gets more support?",
    "dmono": "Is a deferred alternative that gets more support still deferred?",
    "mono": "Does a winner that gets more support still win?",
    "cc": "Does the Condorcet winner win, alone?",
    "dcc": "Is the Condorcet winner deferred, and are all others rejected?",
    "cprog": "With a Condorcet winner: is it deferred, nobody elected yet, and somebody else rejected?",
    "ccomp": "Is the Condorcet winner safe: not rejected, and no other elected?",
    "neut": "Are all alternatives treated alike, whatever their numbers?",
}

SCORES: Dict[str, str] = {
    "plurality": "number of first places",
    "borda": "Borda score",
    "copeland": "Copeland score",
    "minimax": "minimax score",
    "condorcet": "Condorcet score",
}


def page(
    report: Report,
    explanation: Optional[Explanation] = None,
    pairs: Optional[Pairs] = None,
    profile: Optional[Profile] = None,
    name: Optional[str] = None,
) -> str:
    """The page of a report, as the text of one file; with how its result came about, the pairs and the ballots.

    `name` is what the rule is called: it heads the page.
    """
    style = _STYLE.read_text(encoding="utf-8")
    if explanation is not None and (explanation.term, explanation.result) != (report.term, report.result):
        raise ValueError("the explanation isn't that of the report's rule and result")
    first, *others = _sections(report, tuple(facts(report.result, report.voters, explanation, pairs)))
    parts = [first, *account_sections(explanation, pairs, profile), *others]
    told = (_section(id_, title, *content) for id_, title, content in parts)
    body = joined(_header(report, name), _contents(parts), element("main", *told), _footer())
    return whole_page(f"Report: {name or report.term}", style, body)


def whole_page(title: str, style: str, body: str) -> str:
    """A page of one file with this title, style and markup, which asks the browser to refuse all else."""
    whole = element("html", _head(title, style), element("body", body), lang="en")
    return f"<!DOCTYPE html>\n{whole}\n"


def shown_findings(report: Report) -> str:
    """The part of a page that tells what is derived of a rule, by itself."""
    return _LINK.sub(r"\1", joined(*_properties(report.findings)))


def shown_result(result: Result) -> str:
    """The part of a page that tells a result, by itself."""
    return str(_result(result))


def shown_report(report: Report) -> str:
    """The parts of a page that tell whom a rule elects, what the rule is, and what is derived of it, by themselves."""
    heading = element("p", term_code(_cut(str(report.term))))
    parts = (heading, _result(report.result), *_properties(report.findings))
    return _LINK.sub(r"\1", joined(*parts))


def shown_derivation(derivation: Derivation) -> str:
    """A derivation as a page draws it, by itself and open."""
    return _LINK.sub(r"\1", _derived_tree(derivation))


def _head(title: str, style: str) -> Markup:
    allowed = base64.b64encode(hashlib.sha256(style.encode()).digest()).decode()
    policy = f"default-src 'none'; style-src 'sha256-{allowed}'; base-uri 'none'; form-action 'none'"
    return element(
        "head",
        Markup('<meta charset="utf-8">'),
        Markup(f'<meta http-equiv="Content-Security-Policy" content="{policy}">'),
        Markup('<meta name="viewport" content="width=device-width, initial-scale=1">'),
        element("title", title),
        element("style", Markup(style)),
    )


def _header(report: Report, name: Optional[str]) -> Markup:
    size = f"{_number(report.alternatives, 'alternative')} and {_number(report.voters, 'voter')}"
    kind = [element("p", "Report on a voting rule", class_="kind")] if name else []
    return element(
        "header",
        *kind,
        element("h1", name or "Report on a voting rule"),
        element("p", term_code(_cut(str(report.term)))),
        element("p", f"Counted on ballots with {size}."),
    )


def _contents(parts: Iterable[Part]) -> Markup:
    links = (element("li", element("a", title, href=f"#{id_}")) for id_, title, _ in parts)
    return element("nav", element("ul", *links, role="list"), aria_label="Contents")


def _footer() -> Markup:
    said = "This page was drawn from what virage printed. Drawing isn't part of what is proved."
    return element("footer", element("p", said))


def _sections(report: Report, told: Tuple[Markup, ...]) -> Iterable[Part]:
    printed = element("pre", report.text.decode("utf-8", "surrogateescape"), tabindex="0")
    yield "result", "Who is elected", (_result(report.result), *told)
    yield "rule", "The rule", (_folded_rule(report.term),)
    yield "properties", "What holds on every profile", tuple(_properties(report.findings))
    meanings = element("details", element("summary", "Properties and rules of derivation"), *_meanings(report))
    yield "meaning", "What the words mean", (meanings,)
    yield "text", "The report as it was printed", (element("details", element("summary", "Show it"), printed),)


def _section(id_: str, title: str, *content: Markup) -> Markup:
    return element("section", element("h2", title, id=id_), *content, aria_labelledby=id_)


def _number(number: int, noun: str) -> str:
    return f"{number:,} {noun}" if number == 1 else f"{number:,} {noun}s"


# ---- the result


def _result(result: Result) -> Markup:
    """The three sets. One that is empty is told in a line, but for the first."""
    rest = (("Rejected", result.rejected), ("Deferred", result.deferred))
    sets = [_set("Elected", result.elected, result.names)]
    sets += [_set(word, numbers, result.names) for word, numbers in rest if numbers]
    empty = " and ".join(f"nobody is {word.lower()}" for word, numbers in rest if not numbers)
    line = [element("p", f"{empty[0].upper()}{empty[1:]}.", class_="kind")] if empty else []
    return joined(element("div", *sets, class_="sets"), *line)


def _set(word: str, numbers: Iterable[int], names: Mapping[int, str]) -> Markup:
    members = [_alternative(i, names) for i in sorted(numbers)]
    listed = [element("ul", *members[:LISTED], role="list") if members else element("p", "nobody")]
    if len(members) > LISTED:
        rest = element("ul", *members[LISTED:], role="list")
        listed.append(element("details", more(len(members) - LISTED), rest, class_="more"))
    heading = element("h3", f"{word} ", element("span", f"{len(members):,}", class_="count"))
    return element("div", heading, *listed, class_=word.lower())


def _alternative(number: int, names: Mapping[int, str]) -> Markup:
    shown = [element("span", str(number), class_="number")]
    if number in names:
        name = names[number]
        cut = "" if len(name) <= _SHOWN else f"… ({len(name):,} characters)"
        shown += [" ", element("bdi", name[:_SHOWN], class_="name")]
        shown += [element("span", cut)] if cut else []
    return element("li", joined(*shown))


# ---- the rule


def _folded_rule(term: Term) -> Markup:
    """The rule as a tree, folded where it has many parts."""
    parts = sum(1 for _ in term.preorder())
    if parts <= _PARTS_SHOWN:
        return _rule(term)
    return element("details", element("summary", f"Show its {parts:,} parts"), _rule(term))


def _rule(term: Term) -> Markup:
    parts = element("ul", _part(term), role="list")
    return element("div", parts, class_="tree", tabindex="0", role="group", aria_labelledby="rule")


def _part(term: Term) -> Markup:
    head = term_code(term.head(*("…" for _ in term.parts)))
    told = joined(head, " ", element("span", _gloss(term), class_="gloss"))
    return _node(told, [_part(part) for part in term.parts])


def _node(told: Markup, below: List[Markup]) -> Markup:
    rest = (element("ul", *below, role="list"),) if below else ()
    return element("li", element("div", told, class_="node"), *rest)


def _gloss(term: Term) -> str:
    listed = ", ".join(map(str, term.order))
    order = f"{listed}, then ascending" if listed else "of the numbers"
    first = "the first" if term.number == 1 else f"the first {term.number}"
    score = SCORES.get(term.score or "", "")
    return GLOSSES[term.word].format(number=term.number, first=first, order=order, score=score)


# ---- the properties


def _properties(findings: Mapping[str, Finding]) -> Iterable[Markup]:
    """The properties, grouped by what is found of each."""
    always = [found for found in findings.values() if isinstance(found, Holds)]
    open_ = [found for found in findings.values() if isinstance(found, Underived)]
    counted = f"Of {len(findings)} properties {len(always)} are always true of this rule. {len(open_)} are open."
    yield element("p", counted)
    yield from _group("always", "Always", _ALWAYS, always)
    yield from _group("open", "Open", _OPEN, open_)


def _group(kind: str, heading: str, says: str, members: Sequence[Finding]) -> Iterable[Markup]:
    if not members:
        return
    count = element("span", str(len(members)), class_="count")
    yield element("h3", f"{heading} ", count)
    yield element("p", says, class_="kind")
    yield element("ul", *(_line(kind, found) for found in members), role="list", class_="findings")


def _line(kind: str, found: Finding) -> Markup:
    """A property in a line, its question below, and folded why."""
    number = re.search(r"[0-9]+", found.property)
    term = table().property(found.property).term
    called = re.sub(r"\bk$", number[0], term) if number else term
    sign = element("span", "✓" if kind == "always" else "?", aria_hidden="true", class_="sign")
    finding = element("span", f" {kind}", class_="found")
    what = element("span", element("b", called), " ", element("code", found.property))
    asked = element("span", question(found.property), class_="question")
    summary = element("summary", sign, finding, " ", what, " ", asked)
    folded = element("details", summary, *why(found))
    return element("li", folded, class_=f"finding {kind}", data_property=found.property)


def question(property_: str) -> str:
    """The question that is asked of a property, as `defers(2)`."""
    word, _, rest = property_.partition("(")
    number = rest.rstrip(")")
    return QUESTIONS[word].replace("{number}", "one" if number == "1" else number)


def why(found: Finding) -> Iterable[Markup]:
    """What stands behind a finding, folded."""
    if isinstance(found, Holds):
        return _derivation(found.property, found.derivation)
    return _reasons(found)


def _derivation(property_: str, derivation: Derivation) -> Iterable[Markup]:
    steps = _number(derivation.size, "step")
    told = f" is derived in {steps}, the last one by "
    yield element("p", _property_link(property_), told, _rule_link(derivation.rule))
    yield _derived_tree(derivation)


def _derived_tree(derivation: Derivation) -> Markup:
    drawn: Optional[Set[int]] = None if derivation.size <= _DRAWN_IN_FULL else set()
    tree = element("ul", _derived(derivation, drawn), role="list")
    once = element("p", "It is long, so that a step which stands in it several times is drawn once.")
    return element("div", *([] if drawn is None else [once]), tree, class_="tree")


def _derived(derivation: Derivation, drawn: Optional[Set[int]]) -> Markup:
    """A step and those that it stands on, these only where it isn't among the drawn ones."""
    rule = element("span", "by ", _rule_link(derivation.rule), class_="by")
    told = joined(_judgement(derivation.judgement), " ", rule)
    if drawn is not None and derivation.premises:
        if id(derivation) in drawn:
            return _node(joined(told, ", as above"), [])
        drawn.add(id(derivation))
    return _node(told, [_derived(premise, drawn) for premise in derivation.premises])


def _reasons(found: Underived) -> Iterable[Markup]:
    """Why a property isn't derived."""
    fit = len(found.reasons)
    said = (
        " isn't derived: no rule of derivation concludes it of a rule of this form." if fit == 0
        else " isn't derived: one rule of derivation fits, and lacks a premise." if fit == 1
        else f" isn't derived: {fit} rules of derivation fit, and each lacks a premise."
    )
    yield element("p", _property_link(found.property), said)
    if fit:
        yield element("ul", *map(_reason, found.reasons))


def _reason(reason: Reason) -> Markup:
    return element(
        "li",
        _rule_link(reason.rule),
        f" would conclude it, but its premise {reason.number} has no derivation: ",
        _judgement(reason.premise),
    )


def _judgement(judgement: Judgement) -> Markup:
    about = [term_code(_cut(str(term))) for term in judgement.terms]
    between = about[:1] + [part for term in about[1:] for part in (Markup(" and "), term)]
    return element("span", _property_link(judgement.property), " of ", *between, class_="judgement")


def _cut(term: str) -> str:
    return term if len(term) <= _TERM_SHOWN else f"{term[:_TERM_SHOWN]} … ({len(term):,} characters)"


def _property_link(text: str) -> Markup:
    return element("a", element("code", text), href=f"#property-{text.partition('(')[0]}")


def _rule_link(name: str) -> Markup:
    return element("a", element("code", name), href=f"#rule-{name}")


# ---- what the words mean


def _meanings(report: Report) -> Iterable[Markup]:
    known = table()
    used = _used(report.findings.values())
    yield element("h3", "Properties")
    yield element(
        "p",
        "A property speaks of all finite sets of alternatives and all profiles on them; here A is the set, and it is "
        "the term that elects, rejects and defers on A. A Condorcet winner is preferred to each other alternative by "
        "more voters than prefer that one to it.",
    )
    about = known.properties.items()
    yield element("dl", *(_meaning(f"property-{word}", it.text, it.term, it.says) for word, it in about))
    for heading, paragraphs in known.notes.items():
        told = (element("p", prose(paragraph)) for paragraph in paragraphs)
        yield element("div", element("h4", heading), *told, id=_NOTES.get(heading, heading.lower()), class_="note")
    yield element("h3", "Rules of derivation")
    yield element(
        "p",
        "These are the rules that are named above. In them m and n are the parts of a term in their order, t is the "
        "whole term or the other one, k is a number, o a fixed order, w the Condorcet winner, and x the one who is "
        "lifted.",
    )
    named = (rule for rule in known.rules.values() if rule.name in used)
    yield element("dl", *(_meaning(f"rule-{it.name}", it.name, f"no. {it.number}", _says(it)) for it in named))


def _meaning(id_: str, code: str, term: str, says: str) -> Markup:
    head = element("dt", element("code", code), " ", element("span", term))
    return element("div", head, element("dd", prose(says)), id=id_)


def _says(rule: Rule) -> str:
    premises = f" from {'; '.join(rule.premises)}" if rule.premises else ""
    return f"Concludes {rule.conclusion}{premises}. Why: {rule.why}"


def _used(findings: Iterable[Finding]) -> Set[str]:
    """The names of the rules that the findings name."""
    names: Set[str] = set()
    for found in findings:
        if isinstance(found, Holds):
            names.update(node.rule for node in found.derivation.distinct())
        else:
            names.update(reason.rule for reason in found.reasons)
    return names
