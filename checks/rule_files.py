#!/usr/bin/env python3
"""crates/vir_cookbook/specs/Files.antt, in which the rule files of examples/rules stand byte by byte.

checks/rule_files.py          prints it
checks/rule_files.py write    writes it
checks/rule_files.py check    compares it with the files; where they differ the status is 1
"""
import re
import sys
from pathlib import Path

TOP = Path(__file__).resolve().parent.parent
FILES = TOP / 'crates/vir_cookbook/specs/Files.antt'
HEAD = '''-- The rule files of the cookbook, as they stand in examples/rules. Printed by checks/rule_files.py.
-- (The program's promises don't stand on this file.)
use Rattle.std.specs.Prelude.{ℕ, List, [], ◌∷◌, ◌++◌, codes}
'''
WIDTH = 96  # of a text between quotation marks


def quoted(text):
    escaped = text.decode('ascii').replace('\\', '\\\\').replace('"', '\\"').replace('\n', '\\n')
    return f'codes "{escaped}"'


def literals(line):
    """A line as texts that end behind a word, and each byte that isn't ASCII as a number: `codes` takes ASCII alone."""
    for part in re.findall(rb'[\x00-\x7f]+|[\x80-\xff]+', line):
        if part[0] >= 0x80:
            yield '(' + ' ∷ '.join(map(str, part)) + ' ∷ [])'
            continue
        while len(part) > WIDTH:
            end = part.rfind(b' ', 0, WIDTH) + 1 or WIDTH
            yield quoted(part[:end])
            part = part[end:]
        yield quoted(part)


def definition(file):
    parts = [part for line in file.read_bytes().splitlines(True) for part in literals(line)]
    name = file.stem.replace('-', '_')
    return f'\nabbrev pub {name} : List ℕ\n{name} =\n    ' + ' ++\n    '.join(parts) + '\n'


def page():
    return HEAD + ''.join(map(definition, sorted((TOP / 'examples/rules').glob('*.vir'))))


def main(task=''):
    if task == '':
        print(page(), end='')
    elif task == 'write':
        FILES.write_text(page(), 'utf-8')
    elif FILES.read_text('utf-8') == page():
        print('rule files: specs/Files.antt of vir_cookbook has them byte by byte')
    else:
        print("rule files: specs/Files.antt of vir_cookbook doesn't have them as they are: checks/rule_files.py write")
        return 1
    return 0


if __name__ == '__main__':
    if sys.argv[1:] not in ([], ['write'], ['check']):
        sys.exit(__doc__)
    sys.exit(main(*sys.argv[1:]))
