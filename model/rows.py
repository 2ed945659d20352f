#!/usr/bin/env python3
"""Tries the model by itself: on elections and texts that were worked out by hand, on what is recorded of the examples,
and on laws that have to hold of whatever is made at random. Prints what is wrong, and how much was tried."""
import sys
from math import comb, factorial
from pathlib import Path

from benches import Bench, full_bench
from certificates import read_certificate
from counting_code import Machine, code_of
from derivations import Deriver, derivation_text, first_bad_node, is_valid
from devices import MemoryShelf, MemorySink
from drill import drill_file
from equations import replayed, simplified
from made_certificates import CertificateMaker
from meaning import literal_meaning, meaning, meaning_on, score
from positions import positional_scores
from profiles import Tally, condorcet_winner, is_lift, pair_table, restricted
import program
from program import answer, virage
from properties import WORDS, Property
from rule_files import read_rule_file
from rules import RULES, Of
from small_cases import cases_of, profiles_of
from soc_files import SocReader, read_soc, settled_fault, soc_text
from synthesis import all_modules, first_fast, first_plain, terms_of_size
from terms import SCORES, term_text
from tokens import Fault

TOP = Path(__file__).resolve().parent.parent
DIVIDED = (TOP / 'examples/profiles/divided.soc').read_bytes()
CIRCLE = b'# NUMBER ALTERNATIVES: 3\n1: 1,2,3\n1: 2,3,1\n1: 3,1,2\n'
COPELAND = 'seq(max(copeland),elect)'
RUNOFF = 'seq(loop(1,min(plurality)),elect)'
DUELS = 'seq(loop(1,par(seq(pass(2),seq(rev(plurality),pass(1))),drop(2))),elect)'

# rule, elected, rejected and deferred on DIVIDED: 2 beats 1 by 5 to 4 and 3 by 7 to 2, and 3 beats 1 by 5 to 4
SPLITS = (
    ('plurality', '1', '2 3', ''), (COPELAND, '2', '1 3', ''), (RUNOFF, '2', '1 3', ''), (DUELS, '2', '1 3', ''),
    ('max(borda)', '', '1 3', '2'), ('min(borda)', '', '3', '1 2'), ('below(borda)', '', '1 3', '2'),
    ('upto(minimax)', '', '3', '1 2'), ('max(condorcet)', '', '1 3', '2'), ('until(2,min(plurality))', '', '3', '1 2'),
    ('until(2,drop(2))', '', '1 2', '3'), ('loop(2,drop(2))', '', '1 2 3', ''), ('loop(2,pass(1))', '', '2 3', '1'),
    ('seq(pass(2),plurality)', '2', '1 3', ''), ('pass(1,[3,1])', '', '1 2', '3'), ('rev(rev(elect))', '', '1 2 3', ''),
    ('par(plurality,pass(1,[2]))', '1', '3', '2'), ('rev(' * 63 + 'elect' + ')' * 63, '', '1 2 3', ''))

# rule, profile, and the three sets
OTHER_SPLITS = (
    ('loop(1,min(borda))', CIRCLE, '', '', '1 2 3'), ('max(condorcet)', CIRCLE, '', '', '1 2 3'),
    ('plurality', b'# NUMBER ALTERNATIVES: 3\n', '1 2 3', '', ''),
    ('seq(drop(2),elect)', b'#NUMBER ALTERNATIVES:1', '', '1', ''),
    ('max(borda)', b'# NUMBER ALTERNATIVES: 2\n18446744073709551615: 1,2\n', '', '2', '1'))

# the second line of a file for three alternatives, and why it is refused
BAD_LINES = (
    (b'3: 1,2', 'Short'), (b'3: 1,{2,3}', 'Tie'), (b'3: 1,2,2', 'Repeated'), (b'3: 1,2,4', 'OutOfRange'),
    (b'3 1,2,3', 'NoColon'), (b'x: 1,2,3', 'BadCount'), (b'3: 1,2,3,', 'BadEntry'), (b'# DATA TYPE: toc', 'WrongType'),
    (b'# NUMBER VOTERS: 8', 'VotersDiffer'), (b'# NUMBER UNIQUE ORDERS: 8', 'OrdersDiffer'),
    (b'# NUMBER ALTERNATIVES: 4', 'CountDiffers'), (b'# NUMBER ALTERNATIVES: 1025', 'TooManyAlternatives'),
    (b'18446744073709551616: 1,2,3', 'TooManyVoters'))

BAD_RULES = (
    (b'r = seq(foo,elect);', 'UnknownName', 8), (b'r = rev(r);', 'UnknownName', 8),
    (b'r = max(elect);', 'WrongSort', 8), (b'r = pass(0);', 'BadNumber', 9), (b'', 'EmptyBook', 0),
    (b'r = pass(1,[2,2]);', 'RepeatedInOrder', 14), (b'r = elect; r = defer;', 'NameTwice', 11),
    (b'until = elect;', 'NameTwice', 0), (b'r = elect', 'Unexpected', 9), (b'r = "elect";', 'BadByte', 4),
    (b'r = ' + b'rev(' * 64 + b'defer' + b')' * 64 + b';', 'TooDeep', 260), (b'r = ' + b'rev(' * 81, 'TooDeep', 327),
    (b'r = seq(elect);', 'WrongCountOfArguments', 4),
    (b'a=seq(elect,elect);b=seq(a,a);c=seq(b,b);d=seq(c,c);e=seq(d,d);f=seq(e,e);g=seq(f,f);', 'TooLarge', 74))

CERTIFICATE = (
    b'virage-certificate 1\nterm seq(max(copeland),elect)\nproperty mono\n'
    b'derivation mono-seq-ea(ne-leaf,dmono-leaf,ea-leaf)\n')
DERIVATION = CERTIFICATE.split(b'\n')[3].removeprefix(b'derivation ')

# what is changed in it, into what, and what is then answered
CHANGED_CERTIFICATES = (
    (b'', b'', 'accepted'), (b'ea-leaf)', b'el-leaf)', 'refused node 3: RuleDoesNotFit'),
    (b',ea-leaf)', b')', 'refused node 0: WrongNumberOfPremises'),
    (b'mono\n', b'el\n', 'refused node 0: RuleDoesNotFit'),
    (DERIVATION, b'ea-seq(' * 255 + b'ea-leaf' + b')' * 255, 'refused node 0: RuleDoesNotFit'),
    (DERIVATION, b'ea-seq(' * 256 + b'ea-leaf' + b')' * 256, 'text refused: TooDeep at byte 1868'),
    (CERTIFICATE, b'', 'text refused: BadHeader at byte 0'),
    (b'ea-leaf)\n', b'ea-leaf)\nx', 'text refused: TrailingText at byte 116'),
    (b'seq-ea', b'seq-xx', 'text refused: UnknownRule at byte 76'),
    (b'mono\n', b'neut\n', 'text refused: UnknownName at byte 60'),
    (b'mono\n', b'defers(0)\n', 'text refused: BadNumber at byte 67'),
    (b'seq(max', b'until(1,max', 'text refused: UnknownName at byte 26'))

# rule, property, and its first derivation, if it has any
PROVED = (
    (COPELAND, 'mono', 'mono-seq-ea(ne-leaf,dmono-leaf,ea-leaf)'), (COPELAND, 'cc', 'cc-seq-dcc(dcc-leaf,el-leaf)'),
    ('until(1,min(borda))', 'dcc', 'dcc-until(cprog-leaf)'), ('loop(1,min(borda))', 'dcc', 'dcc-loop(cprog-leaf)'),
    (COPELAND, 'neut', 'neut-seq(neut-leaf,neut-leaf)'), ('pass(1)', 'neut', None), (RUNOFF, 'mono', None),
    (DUELS, 'cc', None), ('loop(2,pass(1))', 'defers', None))

# words behind the command, and the lines that are printed
SEARCHES = (
    ('3 el,mono elect', ['found elect', 'holds el el-leaf', 'holds mono mono-ea(ea-leaf)']),
    ('3 cc,mono,el', ['found seq(max(copeland),elect)', 'holds cc cc-seq-dcc(dcc-leaf,el-leaf)',
                      'holds mono mono-seq-ea(ne-leaf,dmono-leaf,ea-leaf)',
                      'holds el el-seq-second(nb-leaf,el-leaf)']),
    ('9 ne,el', ['none up to 9']))

# raising 1 in the last line takes its victory by instant runoff away: 3 stays in the place of 2
BEFORE_LIFT = b'# NUMBER ALTERNATIVES: 3\n6: 1,2,3\n5: 3,1,2\n4: 2,3,1\n2: 2,1,3\n'
LIFTED = BEFORE_LIFT.replace(b'2: 2,1,3', b'2: 1,2,3')
REFUTED = (
    (RUNOFF, 'mono BEFORE LIFTED 1', 'violated'), (RUNOFF, 'mono BEFORE BEFORE 1', 'not violated: ClauseHolds'),
    (RUNOFF, 'mono BEFORE LIFTED 4', 'not violated: NotALift'), ('plurality', 'cc DIVIDED', 'violated'),
    (RUNOFF, 'mono BEFORE LIFTED 2', 'not violated: NotALift'), (COPELAND, 'cc DIVIDED', 'not violated: ClauseHolds'),
    ('plurality', 'cc CIRCLE', 'not violated: PremiseNotMet'),
    ('par(plurality,defer)', 'el DIVIDED', 'not violated: ClauseHolds'))

SIMPLER = (
    ('seq(defer,seq(rev(elect),max(borda)))', 'max(borda)', 'rev-elect 3, seq-defer-left 2, seq-defer-left 0'),
    ('rev(rev(plurality))', 'rev(defer)', 'rev-rev 0'), (COPELAND, COPELAND, ''))


FIVE_WAYS = (TOP / 'examples/profiles/five-ways.soc').read_bytes()
TIED = (TOP / 'examples/profiles/tied.soc').read_bytes()
NO_LINES = b'# NUMBER ALTERNATIVES: 3\n'

# rule, profile, and the scores of each visit that has some: first places and Borda scores that were added up by hand
ROUNDS = (
    (RUNOFF, FIVE_WAYS, ('1=18 2=12 3=10 4=9 5=6', '1=18 2=16 3=12 4=9', '1=18 2=16 3=21', '1=18 3=37')),
    ('seq(loop(1,min(borda)),elect)', FIVE_WAYS,
     ('1=72 2=101 3=107 4=136 5=134', '2=64 3=70 4=99 5=97', '3=31 4=70 5=64', '4=27 5=28')),
    ('seq(max(condorcet),seq(max(borda),elect))', TIED, ('1=0 2=0 3=0 4=0', '1=17 2=16 3=13 4=20')),
    ('max(copeland)', DIVIDED, ('1=-2 2=2 3=0',)), (DUELS, DIVIDED, ('1=4 2=5', '2=7 3=2')))

# rule, profile, and the paragraphs
TOLD = (
    ('plurality', NO_LINES,
     ('at 0 plurality\nof: 1 2 3\nscores: 1=0 2=0 3=0\nelected: 1 2 3\nrejected:\ndeferred:',)),
    ('seq(plurality,loop(1,max(borda)))', DIVIDED,
     ('at 1 plurality\nof: 1 2 3\nscores: 1=4 2=3 3=2\nelected: 1\nrejected: 2 3\ndeferred:',
      'at 3 max(borda)\nof:\nscores:\nelected:\nrejected:\ndeferred:',
      'at 2 loop(1)\nof:\nelected:\nrejected:\ndeferred:',
      'at 0 seq\nof: 1 2 3\nelected: 1\nrejected: 2 3\ndeferred:')),
    ('until(2,min(plurality))', DIVIDED,
     ('at 1 min(plurality)\nof: 1 2 3\nscores: 1=4 2=3 3=2\nelected:\nrejected: 3\ndeferred: 1 2',
      'at 0 until(2)\nof: 1 2 3\nelected:\nrejected: 3\ndeferred: 1 2')),
    ('loop(1,par(drop(1),rev(drop(2,[2]))))', DIVIDED,
     ('at 2 drop(1)\nof: 1 2 3\nelected:\nrejected: 1\ndeferred: 2 3',
      'at 4 drop(2,[2])\nof: 1 2 3\nelected:\nrejected: 1 2\ndeferred: 3',
      'at 3 rev\nof: 1 2 3\nelected:\nrejected: 1 2 3\ndeferred:',
      'at 1 par\nof: 1 2 3\nelected:\nrejected: 1\ndeferred: 2 3',
      'at 2 drop(1)\nof: 2 3\nelected:\nrejected: 2\ndeferred: 3',
      'at 4 drop(2,[2])\nof: 2 3\nelected:\nrejected: 2 3\ndeferred:',
      'at 3 rev\nof: 2 3\nelected:\nrejected: 2 3\ndeferred:',
      'at 1 par\nof: 2 3\nelected:\nrejected: 2\ndeferred: 3',
      'at 0 loop(1)\nof: 1 2 3\nelected:\nrejected: 1 2\ndeferred: 3')))

# words behind R, which is plurality, or behind R and S, which is Borda's count, and what is printed
FOUND = (
    ('plurality', 'find R cc 3 4',
     'violated cc\nalternatives 3\nvoters 3\n1: 1,2,3\n1: 2,1,3\n1: 3,1,2\n'),
    ('plurality', 'find R cc 2 9', 'none up to 2 alternatives and 9 voters\n'),
    ('plurality', 'find R cc 2 9 3 4', 'none in part 3 of 4 up to 2 alternatives and 9 voters\n'),
    ('elect', 'find R dimono 1 0', 'violated dimono\nalternatives 1\nvoters 0\nraised 1\nbecomes\n'),
    ('pass(1)', 'find R neut 4 4', 'violated neut\nalternatives 2\nvoters 0\nexchanged 1 2\n'),
    ('plurality', 'find R neut 3 2', 'none up to 3 alternatives and 2 voters\n'),
    ('plurality', 'differ R S 3 2',
     'differ\nalternatives 3\nvoters 2\n1: 1,2,3\n1: 2,3,1\n'
     'first elected: 1 2 rejected: 3 deferred:\nsecond elected: 2 rejected: 1 3 deferred:\n'),
    ('plurality', 'differ R S 2 5', 'same up to 2 alternatives and 5 voters\n'),
    ('rev(rev(plurality))', 'differ R T 6 1000', 'same\n'))

# profiles, and what `pairs` prints of them
PAIRS = (
    (DIVIDED, 'alternatives 3\nvoters 9\nprefer 1: 0 4 4\nprefer 2: 5 0 7\nprefer 3: 5 2 0\ncondorcet winner: 2\n'),
    (CIRCLE, 'alternatives 3\nvoters 3\nprefer 1: 0 2 1\nprefer 2: 1 0 2\nprefer 3: 2 1 0\ncondorcet winner: none\n'),
    (NO_LINES, 'alternatives 3\nvoters 0\nprefer 1: 0 0 0\nprefer 2: 0 0 0\nprefer 3: 0 0 0\ncondorcet winner: none\n'),
    (b'# NUMBER ALTERNATIVES: 1\n', 'alternatives 1\nvoters 0\nprefer 1: 0\ncondorcet winner: 1\n'))


class Rows:
    """Counts what is tried, and tells what is wrong."""

    def __init__(self):
        self.tried = self.wrong = 0

    def equal(self, what, got, wanted):
        self.tried += 1
        if got != wanted:
            self.wrong += 1
            print(f'WRONG {what}\n  got    {got}\n  wanted {wanted}')


def rule(text):
    return f'r = {text};'.encode()


def term_of(text):
    return read_rule_file(rule(text))[-1][1]


def numbers(text):
    return frozenset(map(int, text.split()))


def kind_and_place(read, data):
    try:
        read(data)
    except Fault as fault:
        return fault.kind, fault.place
    return None


def elections(rows):
    profile = read_soc(DIVIDED).profile()
    table = pair_table(profile)
    firsts = Tally(profile).first_weights(profile.members)
    worked = {'plurality': [4, 3, 2], 'borda': [8, 12, 7], 'copeland': [-2, 2, 0], 'minimax': [4, 5, 2],
              'condorcet': [0, 1, 0]}
    for name in SCORES:
        rows.equal(f'scores by {name}', [score(name, profile.members, table, firsts, one) for one in (1, 2, 3)],
                   worked[name])
    rows.equal('the Condorcet winner', condorcet_winner(profile.members, table), 2)
    for text, data, *sets in [(text, DIVIDED, *sets) for text, *sets in SPLITS] + list(OTHER_SPLITS):
        profile = read_soc(data).profile()
        wanted = tuple(map(numbers, sets))
        rows.equal(text, meaning_on(profile, term_of(text)), wanted)
        rows.equal(f'{text}, literally', literal_meaning(term_of(text), profile), wanted)
    for weights, wanted in (([2, 1, 0], [8, 12, 7]), ([3, 1, 0], [12, 15, 9]), ([1], [9, 9, 9]), ([1, 0], [4, 3, 2])):
        scores = positional_scores(weights, read_soc(DIVIDED).profile())
        rows.equal(f'weights {weights}', [scores[one] for one in (1, 2, 3)], wanted)
    rows.equal('the drilled ballot', drill_file(0, 1, 3).lines, [(1, (3, 1, 2))])


def refusals(rows):
    head, _, rest = DIVIDED.partition(b'\n')
    for line, kind in BAD_LINES:
        rows.equal(line, kind_and_place(read_soc, head + b'\n' + line + b'\n' + rest), (kind, 2))
    rows.equal('no last line feed', soc_text(read_soc(DIVIDED[:-1])), soc_text(read_soc(DIVIDED)))
    for text, kind, place in BAD_RULES:
        rows.equal(text[:40], kind_and_place(read_rule_file, text), (kind, place))
    for length in range(len(DIVIDED) + 1):
        rows.equal(f'the first {length} bytes', kind_and_place(read_soc, DIVIDED[:length]), cut_fault(length))


def cut_fault(length):
    """What is wrong with so many first bytes of DIVIDED: a line of 24 bytes, and three of 8, each with a line feed."""
    if length <= 23:
        return ('NoAlternativeCount' if length <= 21 else 'BadNumber'), 1
    line, inside = divmod(length - 25, 9)
    if length <= 25 or inside in (0, 8):
        return None
    return {1: 'NoColon', 4: 'Short', 6: 'Short'}.get(inside, 'BadEntry'), line + 2


def judgements(rows):
    rows.equal('rules', [of.name.split('-')[0] for of in RULES], [of.concludes.word for of in RULES])
    earlier = {word: place for place, word in enumerate(WORDS)}
    for of in RULES:
        same = [premise for premise in of.premises if premise.patterns[0].words == ['t'] and premise.word != 'disj']
        rows.equal(f'{of.name} asks for earlier properties of the same term',
                   [premise.word for premise in same if earlier[premise.word] >= earlier[of.concludes.word]], [])
    for text, word, derivation in PROVED:
        finding = Deriver().finding(Property(word, 2 if word == 'defers' else None), term_of(text))
        rows.equal(f'{word} of {text}', None if isinstance(finding, list) else derivation_text(finding), derivation)
    for old, new, said in CHANGED_CERTIFICATES:
        status, out, err = answer(['check', 'C'], {'C': CERTIFICATE.replace(old, new, 1) if old else CERTIFICATE})
        rows.equal(f'{old} as {new[:40]}', (out + err).decode().strip(), said)
    for words, lines in SEARCHES:
        rows.equal(f'synth {words}', answer(['synth', *words.split()], {})[1].decode().splitlines(), lines)
    for of in list(all_modules()) + terms_of_size(all_modules(), 2, {}):
        rows.equal(f'{of} is found', first_fast([of], [Property('nb')], 1), first_plain([of], [Property('nb')], 1))


def small_cases(rows):
    for text, words, said in FOUND:
        files = {'R': rule(text), 'S': rule('seq(max(borda),elect)'), 'T': rule('rev(defer)')}
        rows.equal(f'{words} of {text}', answer(words.split(), files)[1].decode(), said)
    for alternatives, voters in ((1, 4), (2, 5), (3, 0), (3, 4), (4, 2)):
        listed = [tuple(profile.lines) for profile in profiles_of(alternatives, voters)]
        orders = factorial(alternatives)
        rows.equal(f'profiles {alternatives} {voters}', len(set(listed)), comb(voters + orders - 1, voters))
        rows.equal(f'each profile {alternatives} {voters} once', len(listed), len(set(listed)))
    for profile in profiles_of(3, 3):
        cases = list(cases_of(Property('mono'), profile))
        rows.equal('cases of mono', len(cases), 1 + 2 * len(profile.lines))
        rows.equal('they are lifts', [c for c in cases if not is_lift(c.before, c.after, c.raised)], [])


def other_commands(rows):
    files = {'BEFORE': BEFORE_LIFT, 'LIFTED': LIFTED, 'DIVIDED': DIVIDED, 'CIRCLE': CIRCLE}
    for text, words, said in REFUTED:
        out = answer(['refute', 'R', *words.split()], {'R': rule(text), **files})[1]
        rows.equal(f'refute {text} {words}', out.decode().strip(), said)
    for text, simpler, steps in SIMPLER:
        to, taken = simplified(term_of(text))
        rows.equal(f'simplify {text}', (term_text(to), ', '.join(f'{name} {place}' for place, name in taken)),
                   (simpler, steps))
        rows.equal(f'simplify {text}, replayed', replayed(term_of(text), taken), to)
    regrouped = replayed(term_of('seq(seq(defer,elect),defer)'), [(0, 'seq-assoc-right')])
    rows.equal('a sequence regrouped', regrouped, term_of('seq(defer,seq(elect,defer))'))
    batch = {'R': rule(COPELAND), 'M': b'F\nG\nF\n', 'F': DIVIDED, 'G': DIVIDED.replace(b'4: 1,2,3', b'4: 1,2')}
    line = 'F voters 9 elected: 2 rejected: 1 3 deferred:\n'
    rows.equal('batch', answer(['batch', 'R', 'M'], batch)[1].decode(),
               line + 'G refused Short at line 2\n' + line + 'profiles 3 refused 1\n')


def explanations(rows):
    for text, data, scores in ROUNDS:
        told = answer(['explain', 'R', 'F'], {'R': rule(text), 'F': data})[1].decode().splitlines()
        rows.equal(f'rounds of {text}', tuple(line[8:] for line in told if line.startswith('scores:')), scores)
    for text, data, paragraphs in TOLD:
        told = answer(['explain', 'R', 'F'], {'R': rule(text), 'F': data})[1].decode()
        rows.equal(f'{text} told', told.split('\n\n')[1:], [paragraph + '\n' * (paragraph is paragraphs[-1])
                                                           for paragraph in paragraphs])
    for data, told in PAIRS:
        rows.equal(f'pairs of {data}', answer(['pairs', 'F'], {'F': data})[1].decode(), told)
    longest, text = program.LONGEST_EXPLANATION, answer(['explain', 'R', 'F'], {'R': rule(RUNOFF), 'F': DIVIDED})
    for room, said in ((len(text[1]), text), (len(text[1]) - 1, (1, b'explanation too long\n', b''))):
        program.LONGEST_EXPLANATION = room
        rows.equal(f'{room} bytes', answer(['explain', 'R', 'F'], {'R': rule(RUNOFF), 'F': DIVIDED}), said)
    program.LONGEST_EXPLANATION = longest


def devices(rows):
    files = {'R': rule('plurality'), 'F': DIVIDED}
    text = answer(['count', 'R', 'F'], files)[1]
    for call in range(1, 7):
        out, err = MemorySink(), MemorySink()
        status = virage(['count', 'R', 'F'], MemoryShelf(files, [call]), out, err, full_bench())
        rows.equal(f'call {call} of the shelf fails', (status, out.bytes, err.bytes), (5, b'', b'read fault\n'))
    for call in range(1, len(text) + 1):
        out, err = MemorySink(1, [call]), MemorySink()
        status = virage(['count', 'R', 'F'], MemoryShelf(files), out, err, full_bench())
        rows.equal(f'write {call} fails', (status, out.bytes, err.bytes), (6, text[:call - 1], b'write fault\n'))
    out, err = MemorySink(), MemorySink()
    status = virage(['count', 'R', 'F'], MemoryShelf(files), out, err, Bench([{('elect',)}]))
    rows.equal('nobody serves', (status, err.bytes), (8, b'no counter for plurality\n'))
    bench, profile = full_bench(), read_soc(DIVIDED).profile()
    bench.run(term_of(RUNOFF), profile.members, Tally(profile))
    rows.equal('calls and runs', (bench.calls, bench.runs), ([1, 0, 0, 2, 0, 0, 0, 0], 1))


def recorded(rows):
    """What is recorded of the examples."""
    for path in sorted((TOP / 'examples/expected').iterdir()):
        command, _, named = path.name.partition('.')
        if command not in ('report', 'explain', 'pairs'):
            command, named = 'count', path.name
        of, _, profile = named.rpartition('.')
        files = {'F': (TOP / f'examples/profiles/{profile}.soc').read_bytes()}
        if of:
            files['R'] = (TOP / f'examples/rules/{of}.vir').read_bytes()
        words = [command, 'R', 'F'] if of else [command, 'F']
        rows.equal(path.name, answer(words, files), (0, path.read_bytes(), b''))


def laws_of_meanings(rows, maker, case):
    profile = read_soc(maker.soc()).profile()
    of = maker.allowed_term()
    tally = Tally(profile)
    split = meaning(of, profile.members, tally)
    rows.equal(f'case {case}: literally', literal_meaning(of, profile), split)
    rows.equal(f'case {case}: by code', Machine(code_of(of), profile.members, tally).run(), split)
    rows.equal(f'case {case}: a split', sorted(one for part in split for one in part), sorted(profile.members))
    rows.equal(f'case {case}: simplified', meaning(simplified(of)[0], profile.members, tally), split)
    some = frozenset(one for one in profile.members if maker.happens(0.5))
    rows.equal(f'case {case}: on fewer', meaning(of, some, tally), meaning_on(restricted(profile, some), of))
    rows.equal(f'case {case}: read again', term_of(term_text(of)), of)


def laws_of_files(rows, maker, case):
    data, longest = maker.some_soc(), maker.one_of(maker.random.randint(3, 80), 268_435_456)
    whole = kind_and_place(lambda bytes_of: read_soc(bytes_of, longest), data)
    cut = maker.random.randrange(len(data) + 1)
    settled = settled_fault(data[:cut], longest)
    rows.equal(f'case {case}: settled', settled and (settled.kind, settled.place), settled and whole)
    for size in (1, 2, 7, 100):
        rows.equal(f'case {case}: in pieces of {size}',
                   kind_and_place(lambda bytes_of: read_in_pieces(bytes_of, longest, size), data), whole)
    if whole is None:
        again = read_soc(soc_text(read_soc(data)))
        rows.equal(f'case {case}: written and read', again.parts(), read_soc(data).parts())


def read_in_pieces(data, longest, size):
    reader = SocReader(longest)
    for place in range(0, len(data), size):
        reader.feed(data[place:place + size])
    return reader.finish()


def laws_of_certificates(rows, maker, case):
    try:
        of, property, derivation = read_certificate(maker.certificate())
    except Fault:
        return      # it is in the first version, and names what that doesn't know
    judgement = Of(property, of)
    rows.equal(f'case {case}: judged', first_bad_node(derivation, judgement) is None, is_valid(derivation, judgement))
    if is_valid(derivation, judgement):
        rows.equal(f'case {case}: so derivable', Deriver().derivable(judgement), True)


def main():
    rows = Rows()
    for part in (elections, refusals, judgements, other_commands, small_cases, explanations, devices, recorded):
        part(rows)
    for case in range(int(sys.argv[1]) if len(sys.argv) > 1 else 300):
        maker = CertificateMaker(f'rows/{case}')
        for laws in (laws_of_meanings, laws_of_files, laws_of_certificates):
            laws(rows, maker, case)
    print(f'{rows.tried} rows, {rows.wrong} of them wrong')
    return 1 if rows.wrong else 0


if __name__ == '__main__':
    sys.exit(main())
