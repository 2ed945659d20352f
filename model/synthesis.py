"""The first term up to a size of which wanted properties are derivable: by looking at all, and by signatures."""
from typing import NamedTuple, Optional

from derivations import Deriver
from properties import NUMBERED, WORDS, Property
from rules import BY_CONCLUSION, Disjoint, Of
from terms import ELIMINATIONS, FIXED, SCORES, Term, term


def all_modules():
    """The modules of a search that is told none."""
    fixed = [term(word, number, ()) for word in FIXED for number in (1, 2)]
    scored = [term(word, score) for word in ELIMINATIONS for score in SCORES]
    return [term('elect'), term('defer')] + fixed + [term('plurality')] + scored


def terms_of_size(modules, size, known):
    """All terms of a size in their order; `known` keeps the lists of smaller sizes."""
    if size == 1:
        return list(modules)
    if size not in known:
        known[size] = list(compositions_of_size(modules, size, known))
    return known[size]


def compositions_of_size(modules, size, known):
    smaller = terms_of_size(modules, size - 1, known)
    yield from (term('rev', part) for part in smaller)
    yield from (term('loop', 1, part) for part in smaller)
    for word in ('seq', 'par'):
        for first_size in range(1, size - 1):
            for first in terms_of_size(modules, first_size, known):
                for second in terms_of_size(modules, size - 1 - first_size, known):
                    yield term(word, first, second)


def first_plain(modules, wanted, greatest):
    """The first term with the wanted properties, by asking each term in turn."""
    deriver, known = Deriver(), {}
    for size in range(1, greatest + 1):
        for candidate in terms_of_size(modules, size, known):
            if all(deriver.derivable(Of(property, candidate)) for property in wanted):
                return candidate
    return None


class Signature(NamedTuple):
    """All that compositions ask of a term: a bit for each property that is derivable, and its `head`."""
    bits: int
    head: Optional[Term]


def head_of(of):
    """The module by which a term is derivably disjoint from others, if any."""
    while of.word in ('seq', 'rev'):
        of = of.arguments[0]
    return of if of.word in FIXED else None


def are_opposed(one, other):
    both = one is not None and other is not None
    return both and one.word != other.word and one.arguments == other.arguments


class Step(NamedTuple):
    """What one rule derives, and asks for: bits of the first part, of the second and of the term, and opposed parts."""
    derives: int
    first: int
    second: int
    same: int
    opposed: bool


class Signatures:
    """Signatures with the numbers of interest. The table itself is asked, about parts that stand for any term."""

    def __init__(self, numbers):
        numbers = sorted(set(numbers) | {1, 2})
        self.properties = [
            Property(word, number) for word in WORDS for number in (numbers if word in NUMBERED else [None])]
        self.bit = {property: 1 << place for place, property in enumerate(self.properties)}
        self.parts = term('any-first'), term('any-second')
        first, second = self.parts
        self.steps = {word: self._steps(term(word, *arguments)) for word, arguments in (
            ('rev', [first]), ('loop', [1, first]), ('seq', [first, second]), ('par', [first, second]))}

    def _steps(self, of):
        """What each rule that fits a composition derives of it, by the order of the properties."""
        fitting = [(property, rule.premises_of(Of(property, of)))
                   for property in self.properties for rule in BY_CONCLUSION[property.word]]
        return [self._step(of, property, premises) for property, premises in fitting if premises is not None]

    def _step(self, of, property, premises):
        bits = {self.parts[0]: 0, self.parts[1]: 0, of: 0}
        for premise in premises:
            if isinstance(premise, Of):
                bits[premise.term] |= self.bit[premise.property]
        opposed = any(isinstance(premise, Disjoint) for premise in premises)
        return Step(self.bit[property], *bits.values(), opposed)

    def of_module(self, module, deriver):
        bits = sum(bit for property, bit in self.bit.items() if deriver.derivable(Of(property, module)))
        return Signature(bits, head_of(module))

    def of_composition(self, word, one, other=Signature(0, None)):
        are_apart = word == 'par' and are_opposed(one.head, other.head)
        bits = 0
        for derives, first, second, same, opposed in self.steps[word]:
            if (one.bits & first == first and other.bits & second == second and bits & same == same
                    and (are_apart or not opposed)):
                bits |= derives
        return Signature(bits, one.head if word in ('rev', 'seq') else None)


class Search:
    """Keeps of each size the first term of each signature; `found` is the first one that has the wanted bits."""

    def __init__(self, signatures, wanted):
        self.signatures, self.wanted = signatures, wanted
        self.kept = [{}]        # by size
        self.composed = {'seq': {}, 'par': {}}
        self.found = None

    def keep(self, signature, made):
        """Keeps a term whose signature is new in its size, and says whether it is the one that is looked for."""
        self.kept[-1][signature] = made
        if signature.bits & self.wanted == self.wanted:
            self.found = made
        return self.found is not None

    def begin(self, modules):
        """Goes through the modules."""
        deriver = Deriver()
        self.kept.append({})
        return any(self.offer(self.signatures.of_module(module, deriver), module) for module in modules)

    def offer(self, signature, made):
        return signature not in self.kept[-1] and self.keep(signature, made)

    def grow(self):
        """Goes on to the next size."""
        size = len(self.kept)
        self.kept.append({})
        return (self.enclose('rev', size - 1) or self.enclose('loop', size - 1, 1)
                or any(self.compose(word, first, size - 1 - first)
                       for word in ('seq', 'par') for first in range(1, size - 1)))

    def enclose(self, word, size, *numbers):
        """Goes through the compositions of one part of this size."""
        return any(self.offer(self.signatures.of_composition(word, signature), term(word, *numbers, part))
                   for signature, part in self.kept[size].items())

    def compose(self, word, first_size, second_size):
        """Goes through the compositions of two parts of these sizes."""
        return any(self.compose_with(word, first, part, second_size) for first, part in self.kept[first_size].items())

    def compose_with(self, word, first, first_part, size):
        composed = self.composed[word].setdefault(first, {})
        for second, part in self.kept[size].items():
            if second not in composed:
                composed[second] = self.signatures.of_composition(word, first, second)
            if composed[second] not in self.kept[-1] and self.keep(composed[second], term(word, first_part, part)):
                return True
        return False


def first_fast(modules, wanted, greatest):
    """The same term, by looking at one term for each signature."""
    numbers = {module.arguments[0] for module in modules if module.word in FIXED}
    signatures = Signatures(numbers | {property.number for property in wanted if property.number})
    bits = 0
    for property in wanted:
        bits |= signatures.bit[property]
    search = Search(signatures, bits)
    found = search.begin(modules)
    while not found and len(search.kept) <= greatest:
        found = search.grow()
    return search.found
