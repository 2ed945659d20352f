#!/usr/bin/env python3
"""Makes cases: the words of a call, and the files in its folder. The same seed makes the same case.

cases.py SEED NUMBER           prints the first cases of a seed, each with what the model answers
cases.py SEED NUMBER --kinds   counts instead what they come to: statuses, kinds of faults, verdicts
"""
import collections
import sys

from made_certificates import CertificateMaker
from odd_words import ODD_WORDS, ODD_WORDS_FILES
from program import DENIED, DONE, PROFILE, TEXT, answer
from properties import ON_LIFTS, Property, property_text
from soc_files import MOST_ALTERNATIVES
from terms import ELIMINATIONS, term, term_text, within_limits
from words import COMMANDS, GREATEST_WEIGHT

# commands that are tried more often than others
OFTEN = ('report', 'check', 'prove', 'check')
COMPATIBLE = (
    'cc,mono,el', 'dcc,decr', 'elim(1)', 'defers(1),decr', 'cc,nb', 'rejects(2),ne,nb', 'elim(1),ne', 'dcc,dmono',
    'mono,cc', 'dli,defers(1),decr', 'cprog,decr', 'el,dmono', 'dcc,dli', 'nb,decr,ccomp', 'ea,dli,el',
    'rejects(1),nb')
NOT_UTF_8 = (b'\xff\n', b'\xc3\n', b'x\xed\xa0\x80', b'\xf4\x90\x80\x80\nq', b'\xc0\x80')


class CaseMaker(CertificateMaker):
    def __init__(self, seed, commands=COMMANDS):
        super().__init__(seed)
        self.commands = commands

    def case(self, only=None):
        """The words and the files of a case, of all commands or of those in `only`, where `words` are odd words."""
        if only:
            command = self.one_of(*(name for name in only if name == 'words' or name in self.commands))
        else:
            names = [*self.commands, 'count', *(name for name in OFTEN if name in self.commands)]
            command = 'words' if self.happens(0.07) else self.one_of(*names)
        return getattr(self, command + '_case')()

    def words_case(self):
        """Words of which most are no command."""
        return list(self.one_of(*ODD_WORDS)), dict(ODD_WORDS_FILES)

    def name(self, usual):
        """A name of a file, mostly the usual one."""
        if self.happens(0.93):
            return usual
        odd = ('{} x', '-{}', '{}.soc', '\u00e9{}', '--{}', 'count{}')
        return self.one_of(*(form.format(usual) for form in odd))

    def one_file(self, command, content, *rest, usual='R'):
        """A command on one file, which sometimes is missing."""
        name = self.name(usual)
        return [command, name, *rest], {name: content} if self.happens(0.98) else {}

    def two_files(self, command, rule, soc):
        names = self.name('R'), self.name('F')
        files = dict(zip(names, (rule, soc)))
        kind = self.random.random()
        if kind < 0.04:
            del files[names[0 if kind < 0.02 else 1]]
        return [command, *names], files

    def some_property(self, numbers=()):
        """A property, mostly with one of these numbers where it has any and there are some."""
        word, number = self.property()
        if number and numbers and self.happens(0.7):
            number = self.one_of(*numbers)
        return Property(word, number)

    def count_case(self):
        kind = self.random.random()
        if kind < 0.15:
            return self.close_scores_case()
        if kind < 0.5:
            return self.two_files('count', self.rule_file(), self.soc())
        if kind < 0.7:
            return self.two_files('count', self.bad_rule_file(), self.some_soc())
        if kind < 0.9:
            return self.two_files('count', self.rule_file(), self.bad_soc())
        return self.two_files('count', self.some_rule_file(), self.some_soc())

    def close_scores_case(self):
        """Eliminators on a profile with few lines, in which scores often are equal or nearly so."""
        made = self.one_of(
            self.eliminator(), term('seq', self.eliminator(), self.eliminator()),
            term('seq', term('drop', 1, self.order()), self.eliminator()),
            term('par', self.eliminator(), self.eliminator()), term('loop', self.number(), self.eliminator()))
        votes = self.votes(self.one_of(3, 4, 5, 6, 7), self.one_of(1, 2, 3, 4, 5))
        return self.two_files('count', self.one_rule(made), self.soc(votes))

    @staticmethod
    def one_rule(of):
        return b'r = ' + term_text(of).encode() + b';'

    def report_case(self):
        words, files = self.count_case()
        return ['report'] + words[1:], files

    def explain_case(self):
        words, files = self.count_case()
        return ['explain'] + words[1:], files

    def pairs_case(self):
        return self.one_file('pairs', self.some_soc(), usual='F')

    def prove_case(self):
        property = self.property()
        rule = self.rule_file() if self.happens(0.8) else self.bad_rule_file()
        return self.one_file('prove', rule, property_text(property))

    def check_case(self):
        return self.one_file('check', self.some_certificate(), usual='C')

    def listing_case(self):
        return self.one_file('listing', self.rule_file() if self.happens(0.85) else self.bad_rule_file())

    def simplify_case(self):
        if self.happens(0.7):
            made = self.reducible(self.random.randint(2, 24))
            if within_limits(made):
                return self.one_file('simplify', self.one_rule(made))
        return self.one_file('simplify', self.some_rule_file())

    def reducible(self, size):
        """A term to which equations often fit."""
        if size <= 1:
            reject, accept = term('rev', term('defer')), term('rev', term('elect'))
            return self.one_of(
                term('elect'), term('defer'), term('defer'), term('plurality'), reject, accept, self.module())
        kind = self.random.random()
        if kind < 0.25:
            return term('rev', self.reducible(size - 1))
        if kind < 0.45:
            word, number = self.one_of('loop', 'until'), self.one_of(1, 1, 2)
            made = term(word, number, self.reducible(max(1, size - 2)))
            return term(word, number, made) if self.happens(0.4) else made
        first_size = self.random.randint(1, max(1, size - 2))
        first = self.reducible(first_size)
        second = first if self.happens(0.15) else self.reducible(max(1, size - 1 - first_size))
        return term(self.one_of('seq', 'seq', 'par'), first, second)

    def synth_case(self):
        wanted = [property_text(self.some_property((1, 1, 2))) for _ in range(self.one_of(1, 1, 2, 2, 3, 4))]
        if self.happens(0.3):
            wanted = [self.one_of(*COMPATIBLE)]
        size = self.one_of(1, 2, 3, 3, 4, 5, 6, 7)
        if self.happens(0.03):
            size = self.one_of(9, 12, 15)
        words = ['synth', str(size), ','.join(wanted)]
        if self.happens(0.6):
            modules = [self.module() for _ in range(self.one_of(1, 1, 2, 3, 4, 6))]
            words.append(';'.join(map(term_text, modules)))
        return words, {}

    def drill_case(self):
        seed = self.one_of(0, 1, 7, self.random.randrange(2 ** 64), 2 ** 64 - 1)
        lines, alternatives = self.one_of(1, 1, 2, 3, 5, 10, 50, 200), self.one_of(1, 2, 3, 4, 6, 10, 16)
        return ['drill', str(seed), str(lines), str(alternatives)], {}

    def position_case(self):
        weights = sorted((self.position_weight() for _ in range(self.random.randint(1, 6))), reverse=True)
        name = self.name('F')
        words = ['position', ','.join(map(str, weights)), self.one_of(*ELIMINATIONS), name]
        return words, {name: self.some_soc()} if self.happens(0.98) else {}

    def position_weight(self):
        return self.one_of(0, 1, 2, 3, 5, 10, GREATEST_WEIGHT, self.random.randint(0, GREATEST_WEIGHT))

    def refute_case(self):
        of = self.allowed_term() if self.happens(0.5) else self.term(self.random.randint(1, 7))
        property = self.property()
        while property.word == 'neut':
            property = self.property()
        if property.number and self.happens(0.7):
            property = Property(property.word, self.one_of(1, 2))
        rule = self.one_rule(of) if self.happens(0.9) else self.some_rule_file()
        votes = self.votes(self.one_of(1, 2, 3, 3, 4))
        files = {'R': rule, 'P': self.soc(votes) if self.happens(0.93) else self.bad_soc()}
        words = ['refute', 'R', property_text(property), 'P']
        if property.word not in ON_LIFTS:
            return words, files
        alternative, lifted = self.lifted(*votes)
        files['Q'] = self.soc((votes[0], lifted)) if self.happens(0.94) else self.some_soc()
        if self.happens(0.03):
            del files[self.one_of('R', 'P', 'Q')]
        return words + ['Q', str(alternative)], files

    def lifted(self, alternatives, lines):
        """An alternative, and the lines with it raised in some, or with something that makes that no lift."""
        alternative = self.random.randint(1, alternatives)
        lines = [(weight, self.raised(order, alternative) if self.happens(0.6) else order) for weight, order in lines]
        kind = self.random.random()
        if kind < 0.06 and lines:
            lines.pop()
        elif kind < 0.12 and lines:
            lines[0] = (lines[0][0], tuple(self.shuffled(lines[0][1])))
        elif kind < 0.15 and lines:
            lines[0] = (lines[0][0] + (1 if lines[0][0] < 100 else 0), lines[0][1])
        elif kind < 0.18:
            alternative = self.one_of(alternatives + 1, MOST_ALTERNATIVES, alternative)
        return alternative, lines

    def raised(self, order, alternative):
        place = order.index(alternative)
        others = [other for other in order if other != alternative]
        others.insert(self.random.randint(0, place), alternative)
        return tuple(others)

    def searched_sizes(self):
        """A number of alternatives and one of voters, up to which a search ends soon."""
        sizes = (1, 0), (1, 3), (2, 0), (2, 2), (2, 5), (3, 0), (3, 1), (3, 2), (3, 3), (4, 1)
        return list(map(str, self.one_of(*sizes)))

    def searched_rule(self):
        of = self.shaped() if self.happens(0.3) else self.term(self.random.randint(1, 7))
        return self.one_rule(of) if within_limits(of) and self.happens(0.95) else self.some_rule_file()

    def find_case(self):
        property = self.some_property((1, 1, 2))
        words = ['find', 'R', property_text(property), *self.searched_sizes()]
        if self.happens(0.3):
            parts = self.one_of(1, 2, 3, 7, 10_000)
            words += [str(self.one_of(1, parts, self.random.randint(1, parts))), str(parts)]
        return words, {'R': self.searched_rule()} if self.happens(0.98) else {}

    def differ_case(self):
        rules = {'R': self.searched_rule(), 'S': self.searched_rule()}
        kind = self.random.random()
        if kind < 0.2:
            made = self.reducible(self.random.randint(2, 12))
            if within_limits(made):
                rules = dict.fromkeys('RS', self.one_rule(made))
        elif kind < 0.23:
            del rules[self.one_of('R', 'S')]
        return ['differ', 'R', 'S', *self.searched_sizes()], rules

    def batch_case(self):
        files = {'R': self.rule_file() if self.happens(0.9) else self.bad_rule_file()}
        for number in range(self.one_of(0, 1, 2, 3, 5)):
            name = self.one_of(f'p{number}', f'p {number}', f'\u00e9{number}', f'-{number}.soc')
            files[name] = self.some_soc()
        manifest = self.manifest([name for name in files if name != 'R'])
        if self.happens(0.01):
            files = {'R': files['R'], 'm': b'# NUMBER ALTERNATIVES: 1\n'}
            manifest = b'm\n' * self.one_of(9999, 10000, 10001, 10003) + self.one_of(b'', b'\xff\n')
        files['M'] = manifest
        if self.happens(0.03):
            del files[self.one_of('R', 'M')]
        return ['batch', 'R', 'M'], files

    def manifest(self, names):
        listed = [self.one_of(*names) for _ in range(self.random.randint(0, 6))] if names else []
        if self.happens(0.04):
            listed.insert(self.random.randrange(len(listed) + 1), 'missing')
        text = b''.join(name.encode() + self.one_of(b'\n', b'\n', b'\r\n', b'\n\n', b'\n\r\n') for name in listed)
        if self.happens(0.3):
            text = text.rstrip(b'\r\n')
        return text + self.one_of(*NOT_UTF_8) if self.happens(0.06) else text


def made_case(seed, number, only=None, commands=COMMANDS):
    """One case by itself: case `number` of a seed."""
    return CaseMaker(f'{seed}/{number}', commands).case(only)


def kind_of(words, status, out, err):
    """What a case comes to, in a few words."""
    command = words[0] if words and words[0] in COMMANDS else 'no command'
    if status in (TEXT, PROFILE):
        return err.decode().split(' at ')[0]
    if status == DENIED and command == 'check':
        return 'check: refused: ' + out.decode().split(': ')[1].strip()
    return f'{command}: status {status}' if status in (DONE, DENIED) else f'status {status}'


def main(seed, number, *options):
    kinds = collections.Counter()
    for case in range(int(number)):
        words, files = made_case(seed, case)
        answered = answer(words, files)
        kinds[kind_of(words, *answered)] += 1
        if not options:
            print(words, files, *answered)
    for kind, times in sorted(kinds.items()) if options == ('--kinds',) else ():
        print(f'{times:6} {kind}')


if __name__ == '__main__':
    if len(sys.argv) < 3:
        sys.exit(__doc__)
    main(*sys.argv[1:])
