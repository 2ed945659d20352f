"""The table of the rules of derivation, as data, and which premises a rule has of a judgement.

A row is a rule's name, what it concludes, and behind `if` its premises. Letters stand for what they meet, and a letter
that stands twice for the same both times: k is a number, o a fixed order, m and n are parts of a term, and t is any
term. A slash is between words of which one has to stand there.
"""
from typing import NamedTuple

from properties import Property, property_text
from terms import Term, term_text

TABLE = """
ne-leaf: ne of defer/pass/drop/max/min/below/upto
ne-rev: ne of rev
ne-seq: ne of seq(m,n) if ne of m; ne of n
ne-par: ne of par(m,n) if ne of m; ne of n
ne-loop: ne of loop(k,m) if ne of m
ea-leaf: ea of elect
ea-seq: ea of seq(m,n) if ea of m
ea-par-left: ea of par(m,n) if ea of m
ea-par-right: ea of par(m,n) if ea of n
el-leaf: el of elect/plurality
el-seq-first: el of seq(m,n) if el of m
el-seq-second: el of seq(m,n) if nb of m; el of n
el-par-left: el of par(m,n) if el of m
el-par-right: el of par(m,n) if el of n
el-ea: el of t if ea of t
defers-leaf: defers(k) of pass(k,o)
defers-seq-one: defers(1) of seq(m,n) if ne of m; nb of m; defers(1) of n
defers-seq-both: defers(k) of seq(m,n) if defers(k) of m; defers(k) of n
defers-loop-elim: defers(k) of loop(k,m) if elim(1) of m; ne of m
defers-loop-one: defers(1) of loop(1,m) if ne of m; nb of m; decr of m
rejects-leaf: rejects(k) of drop(k,o)
elim-par-left: elim(1) of par(m,n) if ne of m; defers(1) of m; rejects(2) of n; disj of m,n
elim-par-right: elim(1) of par(m,n) if ne of n; defers(1) of n; rejects(2) of m; disj of m,n
nb-leaf: nb of defer/pass/max/min/below/upto
nb-rev: nb of rev(m) if el of m
nb-seq: nb of seq(m,n) if nb of m; nb of n
nb-par-left: nb of par(m,n) if nb of m
nb-par-right: nb of par(m,n) if nb of n
nb-loop: nb of loop(k,m) if nb of m
nb-el: nb of t if el of t
nb-defers: nb of t if ne of t; defers(1) of t
decr-leaf: decr of drop
decr-seq: decr of seq(m,n) if decr of m
decr-elim: decr of t if elim(1) of t
decr-rejects: decr of t if rejects(1) of t
decr-defers: decr of t if ne of t; defers(1) of t
dli-leaf: dli of elect/defer/pass/drop/plurality
dli-seq-both: dli of seq(m,n) if dli of m; dli of n
dli-seq-one: dli of seq(m,n) if dimono of m; ne of n; defers(1) of n; dmono of n
dli-par: dli of par(m,n) if disj of m,n; dli of m; dli of n
dli-loop: dli of loop(k,m) if dli of m
imono-leaf: imono of elect/plurality
dimono-leaf: dimono of max(plurality/borda/copeland/condorcet)
dimono-rev: dimono of rev(m) if imono of m
dimono-dli: dimono of t if dli of t; ne of t
dmono-leaf: dmono of max/min/below/upto
dmono-rev: dmono of rev(m) if mono of m
dmono-par: dmono of par(m,n) if ne of m; ne of n; dmono of m; dmono of n
dmono-dli: dmono of t if dli of t
dmono-dimono: dmono of t if dimono of t
mono-seq-defers: mono of seq(m,n) if dli of m; ne of m; defers(1) of m; el of n
mono-seq-ea: mono of seq(m,n) if ne of m; dmono of m; ea of n
mono-par: mono of par(m,n) if mono of m; mono of n
mono-ne: mono of t if ne of t
mono-ea: mono of t if ea of t
mono-imono: mono of t if imono of t
cc-seq-first: cc of seq(m,n) if cc of m
cc-seq-dcc: cc of seq(m,n) if dcc of m; el of n
cc-seq-ccomp: cc of seq(m,n) if ccomp of m; ne of m; cc of n
cc-par: cc of par(m,n) if cc of m; cc of n
dcc-leaf: dcc of max(copeland/minimax/condorcet)
dcc-rev: dcc of rev(m) if cc of m
dcc-seq-ccomp: dcc of seq(m,n) if ccomp of m; ne of m; dcc of n
dcc-seq-first: dcc of seq(m,n) if dcc of m; ne of n; nb of n
dcc-par: dcc of par(m,n) if dcc of m; dcc of n
dcc-loop: dcc of loop(1,m) if cprog of m
cprog-leaf: cprog of min/below/upto(borda/copeland/minimax/condorcet)
cprog-seq-first: cprog of seq(m,n) if cprog of m; ccomp of n; ne of n
cprog-seq-second: cprog of seq(m,n) if ccomp of m; ne of m; cprog of n
cprog-dcc: cprog of t if dcc of t
ccomp-leaf: ccomp of defer
ccomp-seq: ccomp of seq(m,n) if ccomp of m; ccomp of n
ccomp-par: ccomp of par(m,n) if ne of m; ne of n; ccomp of m; ccomp of n
ccomp-loop: ccomp of loop(k,m) if ccomp of m
ccomp-cprog: ccomp of t if cprog of t
ccomp-cc: ccomp of t if cc of t
disj-pass-drop: disj of pass(k,o), drop(k,o)
disj-drop-pass: disj of drop(k,o), pass(k,o)
disj-seq-left: disj of seq(m,n), t if disj of m,t
disj-seq-right: disj of t, seq(m,n) if disj of t,m
disj-rev-left: disj of rev(m), t if disj of m,t
disj-rev-right: disj of t, rev(m) if disj of t,m
neut-leaf: neut of elect/defer/plurality/max/min/below/upto
neut-rev: neut of rev(m) if neut of m
neut-seq: neut of seq(m,n) if neut of m; neut of n
neut-par: neut of par(m,n) if neut of m; neut of n
neut-loop: neut of loop(k,m) if neut of m
neut-until: neut of until(k,m) if neut of m
ne-until: ne of until(k,m) if ne of m
defers-until-elim: defers(k) of until(k,m) if elim(1) of m; ne of m
defers-until-one: defers(1) of until(1,m) if ne of m; nb of m; decr of m
nb-until: nb of until(k,m) if nb of m
dli-until: dli of until(k,m) if dli of m
dcc-until: dcc of until(1,m) if cprog of m
ccomp-until: ccomp of until(k,m) if ccomp of m
"""

# the rules that a certificate of the first version may name: those of the language before `until` and `neut`
FIRST_VERSION = 82


class Of(NamedTuple):
    """The judgement that a term has a property."""
    property: Property
    term: Term


class Disjoint(NamedTuple):
    """The judgement that two terms are disjoint."""
    first: Term
    second: Term


def judgement_text(judgement):
    if isinstance(judgement, Disjoint):
        return f'disj of {term_text(judgement.first)} and {term_text(judgement.second)}'
    return f'{property_text(judgement.property)} of {term_text(judgement.term)}'


class Pattern:
    """What a term has to look like: a word or one of some, and what its arguments have to be; or a letter."""

    def __init__(self, text):
        word, opened, inside = text.strip().partition('(')
        self.words = word.split('/')
        self.arguments = inside[:-1].split(',') if opened else []

    def meets(self, term, letters):
        if is_letter(self.words[0]):
            return stands_for(self.words[0], term, letters)
        return term.word in self.words and all(
            stands_for(wanted, argument, letters) for wanted, argument in zip(self.arguments, term.arguments))


def is_letter(word):
    return len(word) == 1 and word.isalpha()


def stands_for(wanted, value, letters):
    """Whether a value is what is wanted: what the letter stands for already; the number; or one of the words."""
    if is_letter(wanted):
        return letters.setdefault(wanted, value) == value
    if wanted.isdigit():
        return value == int(wanted)
    return value in wanted.split('/')


class Claim:
    """A judgement with letters: a property of one pattern, or `disj` of two."""

    def __init__(self, text):
        head, _, terms = text.strip().partition(' of ')
        self.word, opened, number = head.partition('(')
        self.number = number[:-1] if opened else None
        self.patterns = [Pattern(part) for part in split_outside(terms)]

    def meets(self, judgement):
        """What the letters stand for where this is that judgement, else None."""
        letters = {}
        if isinstance(judgement, Of):
            word, number = judgement.property
            if self.word != word or (self.number and not stands_for(self.number, number, letters)):
                return None
            terms = [judgement.term]
        else:
            if self.word != 'disj':
                return None
            terms = list(judgement)
        met = all(pattern.meets(term, letters) for pattern, term in zip(self.patterns, terms))
        return letters if met else None

    def filled(self, letters):
        """The judgement that a premise is, where letters stand for these."""
        terms = [letters[pattern.words[0]] for pattern in self.patterns]
        if self.word == 'disj':
            return Disjoint(*terms)
        number = self.number and (letters[self.number] if is_letter(self.number) else int(self.number))
        return Of(Property(self.word, number), *terms)


def split_outside(text):
    """Parts between commas that stand in no parentheses."""
    parts, level = [''], 0
    for sign in text:
        level += (sign == '(') - (sign == ')')
        if sign == ',' and level == 0:
            parts.append('')
        else:
            parts[-1] += sign
    return parts


class Rule:
    def __init__(self, number, row):
        self.number = number
        self.name, says = row.split(': ')
        concludes, _, premises = says.partition(' if ')
        self.concludes = Claim(concludes)
        self.premises = [Claim(premise) for premise in premises.split(';') if premise]

    def premises_of(self, judgement):
        """The premises that the judgement then has, or None where the rule doesn't fit it."""
        letters = self.concludes.meets(judgement)
        return None if letters is None else [premise.filled(letters) for premise in self.premises]


RULES = [Rule(number, row) for number, row in enumerate(TABLE.strip().split('\n'), 1)]
BY_NAME = {rule.name: rule for rule in RULES}


def rules_by_conclusion():
    rules = {}
    for rule in RULES:
        rules.setdefault(rule.concludes.word, []).append(rule)
    return rules


BY_CONCLUSION = rules_by_conclusion()


def rules_for(judgement):
    """The rules that conclude something of this kind, in the order of the table."""
    return BY_CONCLUSION['disj' if isinstance(judgement, Disjoint) else judgement.property.word]
