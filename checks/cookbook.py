#!/usr/bin/env python3
"""The tables of the cookbook: its map, by reports, laws and stored cases (counterexamples.py), and whom rules elect.

checks/cookbook.py          prints them
checks/cookbook.py write    puts them between their marks in the pages
checks/cookbook.py check    compares them with the pages; where they differ the status is 1
"""
import re
import sys
from collections import Counter

from counterexamples import LAWS, RULES, TOP, cells, laws, stem
import virage

MARKED = re.compile(r'(<!-- printed by checks/cookbook.py -->\n).*(<!-- end -->\n)', re.S)
NOTHING = '–'


def outcome(result):
    """Who is elected, or where nobody is, who is left."""
    elected, deferred = (', '.join(map(str, sorted(found))) for found in (result.elected, result.deferred))
    return elected or (f'leaves {deferred}' if deferred else NOTHING)


def row(cells):
    return '| ' + ' | '.join(cells) + ' |\n'


def table(head, rows):
    return row(head) + '|' + '---|' * len(head) + '\n' + ''.join(map(row, rows))


def link(rule):
    return f'[{rule.stem}](rules/{rule.name})'


def column(prop, pages):
    return f'[{prop}]({pages}RULES.md#property-{prop.split("(")[0]})'


def cell(rule, prop, said):
    """What the map says in a cell, with a link to the case or the law."""
    if said == ['false by a case']:
        return f'[false](counterexamples/{stem(rule, prop)}.soc)'
    if said in (['true by law'], ['false by law']):
        return f'[{said[0].split()[0]}](../docs/KNOWN.md#{rule.stem})'
    return ', '.join(said) or 'open'


def map_table(told):
    """A row for each rule and a column for each property, and how many cells there are of each kind."""
    words = list(dict.fromkeys(prop for _, prop in told))
    rows = [[link(rule)] + [cell(rule, prop, told[rule, prop]) for prop in words] for rule in RULES]
    counts = Counter(said[0] for said in told.values() if said)
    sentence = (f'Of these {len(told)} cells {counts["derived"]} are derived, {counts["true by law"]} are true by a '
                f'law, {counts["false by law"]} is false by a law, and {counts["false by a case"]} are false by a '
                'stored case.')
    return table(['Rule'] + [column(prop, '../docs/') for prop in words], rows) + f'\n{sentence}\n'


def having_table(told):
    """A row for each property: the rules that have it."""
    def named(prop, kind):
        found = [rule for rule in RULES if told[rule, prop] == [kind]]
        return ', '.join(f'[{rule.stem}](../examples/rules/{rule.name})' for rule in found)

    def by_law(prop):
        found = [rule.stem for rule in RULES if told[rule, prop] == ['true by law']]
        return ', '.join(f'[{name}](KNOWN.md#{name})' for name in found)

    words = dict.fromkeys(prop for _, prop in told)
    return table(['Property', 'Derived of', 'True by a law of'],
                 [[f'`{prop}`', named(prop, 'derived'), by_law(prop)] for prop in words])


def laws_table():
    """A row for each rule that a law of vir_cookbook speaks of, with what the law says of it."""
    notes = dict(re.findall(r'((?:/// .*\n)+)(?:#.*\n)*pub fn (\w+)', LAWS.read_text('utf-8')))
    why = {name.replace('_', '-'): note.replace('/// ', '').replace('\n', ' ').strip() for note, name in notes.items()}
    rows = []
    for name in dict.fromkeys(rule for rule, _ in laws()):
        said = [f'`{prop}`' + ('' if has else ': no') for (rule, prop), has in laws().items() if rule == name]
        rows.append([f'<a id="{name}"></a>[{name}](../examples/rules/{name}.vir)', ', '.join(said), why[name]])
    return table(['Rule', 'Properties', 'Why'], rows)


def outcomes_table(program):
    """Whom each rule elects on each shipped profile."""
    profiles = sorted((TOP / 'examples/profiles').glob('*.soc'))
    head = ['Rule'] + [f'[{profile.stem}](profiles/{profile.name})' for profile in profiles]
    rows = [[link(rule)] + [outcome(virage.count(rule, profile, program=program)) for profile in profiles]
            for rule in RULES]
    return table(head, rows)


def tables():
    """The tables of each page."""
    program = virage.Program().direct()
    told = cells(program)
    return {
        'examples/README.md': f'## The map\n\n{map_table(told)}\n## Whom each rule elects\n\n'
                              + outcomes_table(program),
        'docs/RULES.md': having_table(told),
        'docs/KNOWN.md': laws_table(),
    }


def main(task=''):
    status = 0
    for name, made in tables().items():
        path = TOP / name
        page = path.read_text('utf-8')
        wanted = MARKED.sub(lambda marks: marks[1] + made + marks[2], page)
        if task == '':
            print(made)
        elif task == 'write':
            path.write_text(wanted, 'utf-8')
        elif wanted == page and MARKED.search(page):
            print(f'cookbook: {name} has its tables')
        else:
            print(f"cookbook: {name} doesn't have its tables as they are: checks/cookbook.py write")
            status = 1
    return status


if __name__ == '__main__':
    if sys.argv[1:] not in ([], ['write'], ['check']):
        sys.exit(__doc__)
    sys.exit(main(*sys.argv[1:]))
