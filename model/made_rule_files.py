"""Makes rule files: good ones in many spellings, and ones with a fault of each kind."""
from made_terms import TermMaker
from rule_files import LONGEST_RULE_FILE
from terms import Term, term, term_text, within_limits

NAMES = (
    b'r', b'a', b'b', b'rule', b'Rule-2', b'x_1', b'elect-all', b'seqq', b'electx', b'z9', b'plurality2', b'A', b'Seq',
    b'until1', b'n-', b'q_')
COMMENTS = (b'# note: x;y=(\n', b'#\n', b' # \xc3\xa9\xff comment\r\n', b'###[1,2]\n')
TOKENS = (
    b'(', b')', b'[', b']', b',', b';', b'=', b'elect', b'defer', b'seq', b'rev', b'par', b'loop', b'until', b'pass',
    b'drop', b'max', b'min', b'borda', b'plurality', b'condorcet', b'foo', b'a', b'0', b'1', b'2', b'1000001', b'1025',
    b'1000000', b'1024', b'99999999999999999999999999', b'neut', b'r', b'-', b'_', b'@', b'\xff', b'"', b'1a',
    b'minimax')
PUT_IN = b'()[],;=#abz019 \n\r\t{}:-_\xef\xbb\xbf\x00\xff'
PUT_OVER = b'()[],;=#abz019 \n\r\t{}:-_\xff\x00'

MISSHAPEN = (b'elect()', b'rev(elect,)', b'pass(1,[,])', b'pass(1,[1,])', b'pass(1,[a])', b'pass(1,[[1]])')
UNTYPED = (b'[1,2]', b'5', b'foo', b'foo(1)', b'borda', b'borda(1,2)')
WRONG_COUNTS = (
    b'elect(1)', b'plurality(borda)', b'defer(elect)', b'rev', b'rev(elect,elect)', b'seq(elect)', b'seq',
    b'par(elect,elect,elect)', b'loop(1)', b'loop', b'until(1)', b'pass', b'pass(1,[],2)', b'drop(1,2,3)', b'max',
    b'max(borda,borda)', b'p0(1)')
WRONG_SORTS = (
    b'loop(elect,1)', b'loop([1],elect)', b'pass(elect)', b'pass([1])', b'pass(1,2)', b'pass(1,elect)', b'max(1)',
    b'max([])', b'max(elect)', b'max(foo)', b'max(foo(1))', b'max(p0)', b'max(borda(1))', b'max(plurality(1))',
    b'max(elect(1))', b'seq(1,elect)', b'seq(elect,[1])', b'rev(borda)', b'rev(minimax(1))', b'loop(p0,elect)',
    b'pass(1,p0)', b'pass(foo)', b'until(foo,elect)', b'max(until)')
NUMBERS_AT_LIMITS = (
    b'pass(0)', b'pass(00)', b'pass(1000001)', b'drop(99999999999999999999)', b'loop(0,foo)', b'loop(1000001,elect)',
    b'pass(1,[0])', b'pass(1,[1,1025])', b'pass(1,[3,2,3,0])', b'pass(1,[3,2,0,3])', b'drop(1,[01,1])',
    b'pass(0,[0])', b'pass(1000000,[1024])', b'until(0,elect)', b'loop(0000001,elect)')
INNERMOST = (
    b'elect', b'foo', b'borda', b'5', b'max(borda)', b'rev', b'pass(1,[2])', b'elect(1)', b'foo(1)', b'pass(0)',
    b'max(elect)')
INSIDE_SIGNS = (
    b'elect', b'pass(1)', b'pass(1,[1])', b'@', b'(', b')', b'[1]', b'[', b'max(borda)', b'')
LEFT_OPEN = (b'', b'elect', b'(', b'[', b'a(', b'pass(1,[', b'[[', b'[(')
TAKEN_OR_NOT = (b'elect', b'borda', b'seq', b'until', b'condorcet', b'max', b'p0', b'neut', b'elec', b'mono')
# 127 modules and compositions by the name of f, 63 by that of e, and so on
DOUBLED = (
    b'a = seq(elect,elect);b = seq(a,a);c = seq(b,b);d = seq(c,c);e = seq(d,d);f = seq(e,e);g = ')
AROUND_200 = (
    b'seq(f,seq(e,b))', b'seq(f,seq(e,seq(b,elect)))', b'seq(f,seq(e,rev(b)))', b'seq(f,f)', b'rev(seq(f,e))',
    b'seq(f,foo)', b'seq(f,seq(e,seq(a,a)))', b'par(f,seq(e,seq(a,rev(a))))')
# the forms below of which faults of typing come
TYPING_FORMS = (15, 16, 17, 18, 19, 20, 20, 20, 21, 21, 22, 22, 22, 23, 23, 24, 25, 26, 27, 28, 29, 30, 30)


def nested(levels, inside, opening=b'rev('):
    return opening * levels + inside + b')' * levels


def run_together(before, token):
    """Whether two tokens would be one without something between them."""
    return bool(before) and (before[-1:].isalnum() or before[-1:] in b'_-') and token[:1].isalnum()


class RuleFileMaker(TermMaker):
    def gap(self, loose):
        """What stands between tokens: nothing where the spelling isn't loose."""
        if not loose:
            return b''
        kind = self.random.random()
        if kind < 0.6:
            return b''
        return self.one_of(b' ', b'  ', b'\n', b'\t', b'\r\n', b' \r') if kind < 0.95 else self.one_of(*COMMENTS)

    def joined(self, tokens, loose):
        text, before = self.gap(loose), b''
        for token in tokens:
            if run_together(before, token):
                text += self.gap(loose) or b' '
            text += token
            text += self.gap(loose)
            before = token
        return text

    def number_text(self, number, padded):
        zeros = b'0' * self.random.randint(1, 3) if padded and self.happens(0.1) else b''
        return zeros + b'%d' % number

    def term_tokens(self, of, names=None, padded=False):
        """The tokens of a term. A name may stand for it, where `names` has some."""
        if names and of in names and self.happens(0.7):
            return [self.one_of(*names[of])]
        arguments = [self.argument_tokens(argument, names, padded) for argument in of.arguments]
        return self.applied(of.word.encode(), [tokens for tokens in arguments if tokens])

    def argument_tokens(self, argument, names, padded):
        if isinstance(argument, Term):
            return self.term_tokens(argument, names, padded)
        if isinstance(argument, tuple):
            if not argument and not (padded and self.happens(0.2)):
                return []
            return [b'['] + with_commas([[self.number_text(member, padded)] for member in argument]) + [b']']
        return [self.number_text(argument, padded)] if isinstance(argument, int) else [argument.encode()]

    @staticmethod
    def applied(word, arguments):
        return [word, b'('] + with_commas(arguments) + [b')'] if arguments else [word]

    def definitions(self):
        """A good rule file, as a list of the tokens of each definition."""
        definitions, names, defined = [], {}, []
        for name in self.random.sample(NAMES, self.one_of(1, 1, 1, 2, 3, 5)):
            of = self.defined_term(defined)
            definitions.append([name, b'='] + self.term_tokens(of, names, True) + [b';'])
            names.setdefault(of, []).append(name)
            defined.append(of)
        return definitions

    def defined_term(self, defined):
        """A term that may use those that were defined before."""
        for _ in range(20):
            of = self.allowed_term()
            if defined and self.happens(0.7):
                part = self.one_of(*defined)
                of = self.one_of(
                    term('rev', part), term('seq', part, of), term('par', of, part), term('loop', self.number(), part),
                    part, term('seq', part, part))
            if within_limits(of):
                return of
        return self.module()

    def rule_file(self):
        if self.happens(0.3):
            return b'r = ' + self.text_of(self.allowed_term()) + b';' + self.one_of(b'', b'\n')
        loose = self.happens(0.7)
        return b''.join(self.joined(tokens, loose) for tokens in self.definitions())

    @staticmethod
    def text_of(of):
        return term_text(of).encode()

    def small_text(self):
        return self.text_of(self.term(self.one_of(1, 2, 3, 5)))

    def changed_tokens(self, tokens):
        """The tokens with one to three of them taken out, put in, replaced or exchanged."""
        tokens = list(tokens)
        for _ in range(self.one_of(1, 1, 1, 2, 3)):
            place = self.random.randrange(len(tokens) + 1)
            kind = self.random.random()
            if kind < 0.3 and place < len(tokens):
                del tokens[place]
            elif kind < 0.6:
                tokens.insert(place, self.one_of(*TOKENS))
            elif kind < 0.9 and place < len(tokens):
                tokens[place] = self.one_of(*TOKENS)
            elif len(tokens) > 1:
                other, place = self.random.randrange(len(tokens)), min(place, len(tokens) - 1)
                tokens[place], tokens[other] = tokens[other], tokens[place]
            tokens = tokens or [self.one_of(*TOKENS)]
        return tokens

    def changed_bytes(self, text):
        text = bytearray(text)
        for _ in range(self.one_of(1, 1, 2, 4)):
            place = self.random.randrange(len(text) + 1)
            kind = self.random.random()
            if kind < 0.35 and place < len(text):
                del text[place:place + self.one_of(1, 1, 2, 5)]
            elif kind < 0.7:
                text.insert(place, self.one_of(*PUT_IN))
            elif kind < 0.85 and place < len(text):
                text[place] = self.one_of(*PUT_OVER)
            else:
                del text[place:]
        return bytes(text)

    def deep_text(self, levels, inside):
        return self.one_of(*(nested(levels, inside, opening) for opening in (b'rev(', b'loop(1,', b'seq(defer,')))

    def faulty_forms(self, before):
        """Ways to go on behind some definitions so that most have one fault."""
        rule = before + b'r = '
        small, one_of = self.small_text, self.one_of
        return [
            lambda: before,
            lambda: before + b'# x' if before else b' \n# x\n',
            lambda: rule + small() + b'; @',
            lambda: rule + small(),
            lambda: before + b'r ' + small() + b';',
            lambda: before + b'= ' + small() + b';',
            lambda: rule + b';',
            lambda: rule + small() + b';;',
            *(lambda text=text: rule + text + b';' for text in MISSHAPEN + UNTYPED),
            lambda: rule + one_of(*WRONG_COUNTS) + b';',
            lambda: rule + one_of(*WRONG_SORTS) + b';',
            lambda: rule + one_of(*NUMBERS_AT_LIMITS) + b';',
            lambda: rule + self.deep_text(one_of(62, 63, 64, 65), one_of(*INNERMOST)) + b';',
            lambda: (before + b'a = ' + nested(one_of(1, 10, 30), b'elect') + b'; r = '
                     + nested(one_of(33, 34, 35, 52, 53, 54, 61, 62, 63), b'a') + b';'),
            lambda: rule + self.deep_text(one_of(79, 80, 81, 82), one_of(*INSIDE_SIGNS)) + b';',
            lambda: rule + b'rev(' * one_of(79, 80, 81) + one_of(*LEFT_OPEN),
            lambda: before + one_of(*TAKEN_OR_NOT) + b' = ' + small() + b';',
            lambda: b'r = elect; r = ' + one_of(b'foo', b'(', b'elect', b'1') + b';',
            lambda: DOUBLED + one_of(*AROUND_200) + one_of(b';', b'; h = '),
            lambda: (b'a = ' + self.text_of(self.near_limit()) + b';'
                     + one_of(b'', b'b = rev(a);', b'b=seq(a,elect);', b'b = a;')),
            lambda: rule + small() + b'; s = ' + small() + b' t = elect;']

    def faulty_rule_file(self):
        before = b''.join(
            b'p%d = %s;%s' % (number, self.small_text(), self.gap(True)) for number in range(self.one_of(0, 0, 1, 2)))
        forms = self.faulty_forms(before)
        if self.happens(0.01):
            return self.longest_rule_file()
        form = forms[self.one_of(*TYPING_FORMS)] if self.happens(0.45) else self.one_of(*forms)
        return form()

    def longest_rule_file(self):
        """A rule file about as long as one may be."""
        definition = b'r = elect;'
        padding = LONGEST_RULE_FILE + self.one_of(-1, 0, 0, 1, 1) - len(definition)
        return definition + self.one_of(b' ' * padding, b'#' * padding, b'\n' * (padding - 1) + b'@')

    def bad_rule_file(self):
        kind = self.random.random()
        if kind < 0.5:
            return self.faulty_rule_file()
        if kind < 0.8:
            tokens = [token for definition in self.definitions() for token in definition]
            return self.joined(self.changed_tokens(tokens), self.happens(0.5))
        return self.changed_bytes(self.rule_file())

    def some_rule_file(self):
        return self.rule_file() if self.happens(0.6) else self.bad_rule_file()


def with_commas(arguments):
    """The tokens of all arguments, with a comma before each but the first."""
    return [token for place, tokens in enumerate(arguments) for token in ([b','] if place else []) + tokens]
