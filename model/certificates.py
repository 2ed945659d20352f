"""Certificates: a term, a property and a derivation as one text, in two versions."""
from derivations import Derivation, derivation_text, rules_used
from properties import NUMBERED, WORDS, Property, property_text
from rule_files import Trees, number_in, sized_term
from rules import BY_NAME, FIRST_VERSION
from terms import preorder, term_text
from tokens import Fault, tokens_of

LONGEST_CERTIFICATE = 16_777_216
DEEPEST_DERIVATION = 256


def read_certificate(text):
    """The term, the property and the derivation that a certificate says; the first fault is raised."""
    if len(text) > LONGEST_CERTIFICATE:
        raise Fault('TextTooLong', LONGEST_CERTIFICATE)
    tokens = tokens_of(text)
    words = [text[start:end] for _, start, end in tokens[:2]]
    if words not in ([b'virage-certificate', b'1'], [b'virage-certificate', b'2']):
        raise Fault('BadHeader', 0)
    reader = CertificateReader(Trees(text, tokens, 2), words[1] == b'1')
    term, property, derivation = reader.term(), reader.property(), reader.derivation()
    if reader.trees.kind() is not None:
        raise Fault('TrailingText', reader.trees.start())
    return term, property, derivation


class CertificateReader:
    """Reads the parts of a certificate one after another. Its first version knows less."""

    def __init__(self, trees, is_first_version):
        self.trees, self.is_first_version = trees, is_first_version

    def keyword(self, word):
        if self.trees.word() != word:
            raise Fault('Unexpected', self.trees.start())
        self.trees.place += 1

    def term(self):
        self.keyword(b'term')
        start, tree = self.trees.start(), self.trees.tree()
        until = first_until(tree)
        if self.is_first_version and until is not None:
            raise Fault('UnknownName', until)
        return sized_term(tree, {}, start)

    def property(self):
        self.keyword(b'property')
        tree = self.trees.tree()
        if tree.kind != 'word':
            raise Fault('WrongSort', tree.start)
        word = tree.text.decode()
        if word not in WORDS or (word == 'neut' and self.is_first_version):
            raise Fault('UnknownName', tree.start)
        if len(tree.parts) != (1 if word in NUMBERED else 0):
            raise Fault('WrongCountOfArguments', tree.start)
        return Property(word, *map(number_in, tree.parts))

    def derivation(self):
        self.keyword(b'derivation')
        return self.node(1)

    def node(self, level):
        start = self.trees.start()
        rule = BY_NAME.get(self.trees.take('word').decode())
        if rule is None or (rule.number > FIRST_VERSION and self.is_first_version):
            raise Fault('UnknownRule', start)
        if level > DEEPEST_DERIVATION:
            raise Fault('TooDeep', start)
        children = ()
        if self.trees.kind() == '(':
            self.trees.take('(')
            children = self.trees.separated(')', lambda: self.node(level + 1))
        return Derivation(rule, children)


def first_until(tree):
    """Where the word `until` stands first in a tree, whatever it is there; None where it doesn't."""
    if tree.text == b'until':
        return tree.start
    return next((place for place in map(first_until, tree.parts) if place is not None), None)


def needs_second_version(term, property, derivation):
    return (property.word == 'neut' or any(node.word == 'until' for node in preorder(term))
            or any(rule.number > FIRST_VERSION for rule in rules_used(derivation)))


def certificate_text(term, property, derivation):
    """The text, in the first version wherever that is enough."""
    version = 2 if needs_second_version(term, property, derivation) else 1
    return (f'virage-certificate {version}\nterm {term_text(term)}\nproperty {property_text(property)}\n'
            f'derivation {derivation_text(derivation)}\n')
