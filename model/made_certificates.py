"""Makes certificates: valid ones, ones that say what isn't so, and ones with faults."""
from certificates import certificate_text
from derivations import Derivation, Deriver, derivation_text
from made_profiles import SocMaker
from made_rule_files import TOKENS, nested
from properties import NUMBERED, WORDS, Property
from rules import RULES, Of
from terms import term

LONGEST_DERIVATION = 20_000
TERMS = (
    lambda levels: nested(levels, b'elect'), b'seq(foo,until(1,elect))', b'max(until)', b'until', b'elect(until)',
    b'pass(until,foo)', b'(', b'seq(1,until(1,foo))', b'1', b'[1]', b'a', b'elect()', b'loop(0,until(1,elect))',
    b'rev(' * 81 + b'until')
PROPERTIES = (
    b'monotone', b'mono(1)', b'defers', b'defers(0)', b'defers(elect)', b'defers(1,2)', b'defers([1])', b'1', b'[1]',
    b'[]', b'neut', b'neut(1)', b'elim(1000001)', b'elim(01)', b'disj', b'ne()', b'rejects(rejects(1))', b'defers(',
    b'MONO', b'xx(foo)', b'rev(' * 81, nested(80, b'1', b'xx('), b'defers(' + b'xx(' * 80, b'el-ea', b'elim(0(1))')
DERIVATIONS = (
    b'ne-leaf()', b'ne-leaf(', b'ne-leaf(ne-leaf', b'1', b'ne-leaf[1]', b'elect', b'ne', b'ne-leaf(ne-leaf,)', b'',
    b'neut-leaf', b'ne-until(ne-leaf)', b'ne-seq(neut-leaf,xx)', b'NE-LEAF', b'ne-leaf ne-leaf', b'ne_leaf')
INNERMOST = (b'ea-leaf', b'xx', b'', b'1', b'ne-leaf(ne-leaf)', b'ne-leaf,ne-leaf')
BEHIND = (b')', b'ne-leaf', b'1', b'(', b'end', b';', b'#')
VERSIONS = (b'0', b'3', b'01', b'1 1', b'2', b'1', b'', b'one', b'12')
WORDS_OF_CERTIFICATES = (
    b'virage-certificate', b'1', b'2', b'3', b'01', b'term', b'property', b'derivation', b'ne', b'mono', b'defers',
    b'neut', b'neut-leaf', b'until', b'until(1,elect)', b'ne-leaf', b'ea-leaf', b'xx-leaf', b'disj', b'elim(0)',
    b'defers(1)', b'ne-until', b'dcc-until(cprog-leaf)')
BROKEN_OFF = (
    b'', b' ', b'#', b'virage-certificate', b'virage-certificate 1', b'Virage-certificate 1 term',
    b'1 virage-certificate', b'virage-certificate-1', b'\xef\xbb\xbfvirage-certificate 1')


class CertificateMaker(SocMaker):
    def property(self):
        word = self.one_of(*WORDS)
        return Property(word, self.number() if word in NUMBERED else None)

    def derivable_properties(self, of, deriver):
        for word in WORDS:
            for number in {1, 2, self.number()} if word in NUMBERED else (None,):
                if deriver.derivable(Of(Property(word, number), of)):
                    yield Property(word, number)

    def valid_parts(self):
        """A term, a property that is derivable of it, and the first derivation of that."""
        deriver = Deriver()
        for _ in range(60):
            of = self.allowed_term()
            properties = list(self.derivable_properties(of, deriver))
            if properties:
                property = self.one_of(*properties)
                derivation = deriver.first(Of(property, of))
                if len(derivation_text(derivation)) < LONGEST_DERIVATION:
                    return of, property, derivation
        return term('elect'), Property('el'), deriver.first(Of(Property('el'), term('elect')))

    def some_derivation(self, judgement, deriver, level=0):
        """A valid derivation, which need not be the first one."""
        serving = deriver.serving(judgement)
        rule = self.one_of(*serving) if self.happens(0.6) and level < 12 else serving[0]
        premises = rule.premises_of(judgement)
        return Derivation(rule, tuple(self.some_derivation(premise, deriver, level + 1) for premise in premises))

    def changed_derivation(self, derivation):
        """The derivation with one node changed."""
        return self.changed_at(derivation, self.one_of(*paths_of(derivation)))

    def changed_at(self, node, path):
        children = list(node.children)
        if path:
            children[path[0]] = self.changed_at(children[path[0]], path[1:])
            return Derivation(node.rule, tuple(children))
        kind = self.random.random()
        if kind < 0.5:
            return Derivation(self.one_of(*RULES), node.children)
        if kind < 0.6:
            alike = [rule for rule in RULES if rule.concludes.word == node.rule.concludes.word]
            return Derivation(self.one_of(*alike), node.children)
        return Derivation(node.rule, tuple(self.changed_children(children, kind)))

    def changed_children(self, children, kind):
        if kind < 0.75 and children:
            del children[self.random.randrange(len(children))]
        elif kind < 0.9:
            children.insert(self.random.randrange(len(children) + 1), Derivation(self.one_of(*RULES), ()))
        elif len(children) > 1:
            one, other = self.random.sample(range(len(children)), 2)
            children[one], children[other] = children[other], children[one]
        return children

    def derivation_tokens(self, derivation):
        children = [self.derivation_tokens(child) for child in derivation.children]
        return self.applied(derivation.rule.name.encode(), children)

    def property_tokens(self, property):
        word, number = property
        return self.applied(word.encode(), [] if number is None else [[self.number_text(number, True)]])

    def certificate(self):
        """A certificate that is accepted as a text. Most are valid."""
        of, property, derivation = self.valid_parts()
        kind = self.random.random()
        if kind < 0.3:
            return certificate_text(of, property, derivation).encode()
        if kind < 0.5:
            derivation = self.some_derivation(Of(property, of), Deriver())
        elif kind < 0.75:
            for _ in range(self.one_of(1, 1, 2)):
                derivation = self.changed_derivation(derivation)
        elif kind < 0.82:
            property = self.property()
        elif kind < 0.88:
            of = self.allowed_term()
        version = version_of(of, property, derivation)
        if self.happens(0.25):
            version = self.one_of(b'1', b'2', b'2')
        tokens = certificate_tokens(
            version, self.term_tokens(of, None, True), self.property_tokens(property),
            self.derivation_tokens(derivation))
        return self.joined(tokens, self.happens(0.6))

    def bad_certificate(self):
        if self.happens(0.25):
            return self.changed_bytes(self.certificate())
        of, property, derivation = self.valid_parts()
        version = version_of(of, property, derivation)
        parts = [self.term_tokens(of), self.property_tokens(property), self.derivation_tokens(derivation)]
        kind = self.random.randrange(12)
        if kind == 11:
            return self.one_of(*BROKEN_OFF)
        if kind == 9:
            tokens = self.changed_words(certificate_tokens(version, *parts))
        else:
            if kind == 8:
                version = self.one_of(*VERSIONS)
            self.spoil_part(parts, kind)
            tokens = certificate_tokens(version, *parts)
        return self.joined(tokens, self.happens(0.3))

    def spoil_part(self, parts, kind):
        """Spoils the term, the property or the derivation of a certificate in one of some ways."""
        if kind in (0, 2, 4):
            parts[kind // 2] = self.changed_tokens(parts[kind // 2])
        elif kind == 1:
            levels = self.one_of(63, 64, 79, 80, 81)
            made = self.one_of(*TERMS)
            parts[0] = [made(levels) if callable(made) else made]
        elif kind == 3:
            parts[1] = [self.one_of(*PROPERTIES)]
        elif kind == 5:
            levels, opening = self.one_of(254, 255, 256, 257), self.one_of(b'ea-seq(', b'ne-rev(', b'xx(')
            parts[2] = [nested(levels, self.one_of(*INNERMOST), opening)]
        elif kind == 6:
            parts[2] = [self.one_of(*DERIVATIONS)]
        elif kind == 7:
            parts[2].append(self.one_of(*BEHIND))
        elif kind == 10:
            parts[0] = self.term_tokens(self.near_limit())

    def changed_words(self, tokens):
        place = self.random.randrange(len(tokens) + 1)
        kind = self.random.random()
        if kind < 0.4:
            return tokens[:place]
        if kind < 0.7:
            tokens.insert(place, self.one_of(*WORDS_OF_CERTIFICATES, *TOKENS))
        elif place < len(tokens):
            tokens[place] = self.one_of(*WORDS_OF_CERTIFICATES)
        return tokens

    def some_certificate(self):
        return self.certificate() if self.happens(0.5) else self.bad_certificate()


def paths_of(derivation, path=()):
    """The way to each node, in preorder: the places of children to go down by."""
    yield path
    for place, child in enumerate(derivation.children):
        yield from paths_of(child, path + (place,))


def version_of(of, property, derivation):
    """The version in which a certificate is printed."""
    return certificate_text(of, property, derivation).split()[1].encode()


def certificate_tokens(version, of, property, derivation):
    return [b'virage-certificate', version, b'term'] + of + [b'property'] + property + [b'derivation'] + derivation
