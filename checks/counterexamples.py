#!/usr/bin/env python3
"""The map of the cookbook: each property of each rule is derived, true or false by a law, or false by a stored case.

checks/counterexamples.py check           has the program judge each case of examples/counterexamples, and says which
                                          cells of the map are open or told twice; where there are any the status is 1
checks/counterexamples.py write           looks for cases of the cells that have none, and for smaller ones
checks/counterexamples.py again SEED S    looks for each anew, for S seconds in all, and names those that it misses
"""
import re
import sys
import time
from collections import Counter
from pathlib import Path

TOP = Path(__file__).resolve().parent.parent
sys.path.insert(0, str(TOP / 'python'))
import virage  # noqa: E402
from virage.cases import Case  # noqa: E402
from virage.searches import ON_LIFTS, Search  # noqa: E402

CASES = TOP / 'examples/counterexamples'
LAWS = TOP / 'crates/vir_cookbook/src/laws.rt'
RULES = sorted((TOP / 'examples/rules').glob('*.vir'))
ANY_PROFILE = TOP / 'examples/profiles/tied.soc'
LIFTED = re.compile(r'^# RAISED ALTERNATIVE: (\d+)$', re.M)


def stem(rule, prop):
    """What the files of a case are named after."""
    return f'{rule.stem}.{re.sub("[()]", "", prop)}'


def case_files(rule, prop):
    """The file of a case, and that of its lift."""
    return CASES / f'{stem(rule, prop)}.soc', CASES / f'{stem(rule, prop)}.lifted.soc'


def laws():
    """What the laws of vir_cookbook say, by rule and property: whether it has it."""
    found = {}
    for name, clauses in re.findall(r'pub fn (\w+)\(\)\n((?:    ensures.*\n)+)', LAWS.read_text('utf-8')):
        for prop, rule, no in re.findall(r'Holds (\w+) \(mean rule\.(\w+)\)( → ⊥)?', clauses):
            if rule != name:
                sys.exit(f'the law {name} speaks of {rule}')
            found[name.replace('_', '-'), prop.lower()] = not no
    return found


def judged(rule, prop, program):
    """Whether the stored case violates the property."""
    first, second = case_files(rule, prop)
    if prop not in ON_LIFTS:
        return virage.refute(rule, prop, first, program=program).violated
    lifted = LIFTED.search(second.read_text()) if second.is_file() else None
    return lifted is not None and virage.refute(rule, prop, first, second, int(lifted[1]), program=program).violated


def cells(program):
    """Of each rule and property what is said of it: a list, which has one entry where all is well."""
    told, known = {}, laws()
    for rule in RULES:
        report = virage.report(rule, ANY_PROFILE, program=program)
        for prop in report.findings:
            said = ['derived'] if prop in report.holds else []
            if (rule.stem, prop) in known:
                said.append('true by law' if known.pop((rule.stem, prop)) else 'false by law')
            if case_files(rule, prop)[0].is_file():
                said.append('false by a case')
            told[rule, prop] = said
    if known:
        sys.exit(f'laws of no cell: {known}')
    return told


def check():
    program = virage.Program().direct()
    told = cells(program)
    wrong = [(key, said) for key, said in told.items() if len(said) != 1]
    stored = [key for key, said in told.items() if 'false by a case' in said]
    wrong += [(key, ['the case isn\'t violated']) for key in stored if not judged(*key, program)]
    of_cells = {path.name for key in stored for path in case_files(*key)}
    wrong += [((path, ''), ['of no cell']) for path in CASES.glob('*.soc') if path.name not in of_cells]
    for (rule, prop), said in wrong:
        print(f'counterexamples: {rule.stem} {prop}: {", ".join(said) or "open"}')
    counts = Counter(said[0] for said in told.values() if said)
    print(f'counterexamples: of {len(told)} cells ' + ', '.join(f'{n} {kind}' for kind, n in sorted(counts.items()))
          + f'; {len(stored)} cases judged')
    return 1 if wrong else 0


def sentence(result):
    """Whom a rule elects, rejects and defers, in words."""
    sets = (('elects', result.elected), ('rejects', result.rejected), ('defers', result.deferred))
    return '; '.join(f'{verb} {", ".join(map(str, sorted(found))) or "nobody"}' for verb, found in sets)


def text_of(profile, *said):
    lines = profile.text().decode().splitlines(True)
    return ''.join(f'# {key}: {value}\n' for key, value in said) + ''.join(lines)


def write_case(rule, found):
    """Writes the files of a case, each with a comment on what it shows."""
    first, second = case_files(rule, found.property)
    says = virage.table().properties[found.property.partition('(')[0]].says
    title = ('TITLE', f'{rule.stem} hasn\'t {found.property}')
    shown = f'{rule.stem} {sentence(found.before)}'
    CASES.mkdir(exist_ok=True)
    first.write_text(text_of(found.profile, title, ('PROPERTY', says), ('DESCRIPTION', shown)))
    if found.second is not None:
        second.write_text(text_of(
            found.second, title, ('RELATES TO', first.name), ('RAISED ALTERNATIVE', found.lifted),
            ('DESCRIPTION', f'{rule.stem} {sentence(found.after)}')))


def size(found):
    return Case(found.profile, found.second, found.lifted).size


def write(seeds=range(1, 7), cases=60_000):
    for (rule, prop), said in cells(virage.Program().direct()).items():
        if said in ([], ['false by a case']):
            found = [Search(rule, prop, seed).run(cases) for seed in seeds]
            smallest = min(filter(None, found), key=size, default=None)
            if smallest is None:
                print(f'counterexamples: none found of {rule.stem} {prop}')
            else:
                write_case(rule, smallest)


def again(seed, seconds):
    """Looks for each stored case anew, with more cases from round to round, until the time is over."""
    started, program = time.monotonic(), virage.Program().direct()
    left = [key for key, said in cells(program).items() if 'false by a case' in said]
    number, budget = len(left), 200
    while left and time.monotonic() - started < seconds:
        missed = []
        for rule, prop in left:
            over = time.monotonic() - started > seconds
            if over or Search(rule, prop, seed, program=program).run(budget) is None:
                missed.append((rule, prop))
        left, budget = missed, budget * 4
    print(f'counterexamples: {number - len(left)} of {number} found anew by seed {seed} in '
          f'{time.monotonic() - started:.0f} s; missed: {", ".join(stem(*key) for key in left) or "none"}')


def main(task='', *words):
    if task == 'check' and not words:
        return check()
    if task == 'write' and not words:
        return write()
    if task == 'again' and len(words) == 2:
        return again(*map(int, words))
    sys.exit(__doc__)


if __name__ == '__main__':
    sys.exit(main(*sys.argv[1:]))
