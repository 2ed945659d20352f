#!/usr/bin/env python3
"""Explains each example rule on each example profile, and has tools/check-account judge the account: as it is, and
with one number changed at a time.

    checks/accounts.py [--made N] [--program PROGRAM]

With --made it also explains N made rules on made profiles of up to 40 alternatives. PROGRAM is ./virage where none is
named. The same cases are made in each run."""
import argparse
import random
import re
import subprocess
import sys
import tempfile
from importlib.machinery import SourceFileLoader
from pathlib import Path

TOP = Path(__file__).resolve().parent.parent
sys.dont_write_bytecode = True
tool = SourceFileLoader('check_account', str(TOP / 'tools/check-account')).load_module()

SCORES = ('plurality', 'borda', 'copeland', 'minimax', 'condorcet')
CHANGES = 12


def made_rule(chance, size):
    """A rule of this size."""
    if size == 1:
        module = chance.choice(('elect', 'defer', 'plurality', 'pass', 'drop', 'max', 'min', 'below', 'upto'))
        if module in ('pass', 'drop'):
            return f'{module}({chance.randint(1, 9)},[{",".join(map(str, chance.sample(range(1, 41), 3)))}])'
        return module if module in ('elect', 'defer', 'plurality') else f'{module}({chance.choice(SCORES)})'
    if size == 2 or chance.random() < 0.4:
        part = made_rule(chance, size - 1)
        return f'rev({part})' if chance.random() < 0.2 else (
            f'{chance.choice(("loop", "until"))}({chance.randint(1, 6)},{part})')
    first = chance.randint(1, size - 2)
    return f'{chance.choice(("seq", "seq", "par"))}({made_rule(chance, first)},{made_rule(chance, size - 1 - first)})'


def made_ballots(chance):
    """A profile of 1 to 40 alternatives, some of them with names."""
    count = chance.randint(1, 40)
    lines = [f'# NUMBER ALTERNATIVES: {count}']
    lines += [f'# ALTERNATIVE NAME {one}: plan {one}: b' for one in range(1, count + 1) if chance.random() < 0.3]
    for _ in range(chance.randint(0, 12)):
        order = chance.sample(range(1, count + 1), count)
        lines.append(f'{chance.choice((1, 2, 3, 40, 10 ** 15))}: ' + ','.join(map(str, order)))
    return '\n'.join(lines) + '\n'


def verdict(rule, ballots, text):
    try:
        tool.check(rule, ballots, text)
    except tool.Wrong as wrong:
        return str(wrong)
    return 'right'


def changed(chance, text):
    """The text with one of its numbers changed."""
    number = chance.choice(list(re.finditer(r'\d+', text)))
    other = int(number[0]) + chance.choice((-1, 1, 2))
    return text[:number.start()] + str(abs(other)) + text[number.end():]


def main():
    options = argparse.ArgumentParser(description=__doc__)
    options.add_argument('--made', type=int, default=0)
    options.add_argument('--program', default=str(TOP / 'virage'))
    asked = options.parse_args()
    cases = [(rule.read_text('latin-1'), ballots.read_text('latin-1'))
             for rule in sorted((TOP / 'examples/rules').glob('*.vir'))
             for ballots in sorted((TOP / 'examples/profiles').glob('*.soc'))]
    for case in range(asked.made):
        chance = random.Random(f'accounts/{case}')
        cases.append((f'made = {made_rule(chance, chance.randint(1, 30))};\n', made_ballots(chance)))
    chance, right, refused, bad = random.Random('accounts'), 0, 0, 0
    with tempfile.TemporaryDirectory() as folder:
        files = [Path(folder, name) for name in ('RULE', 'SOC')]
        for case in cases:
            for file, said in zip(files, case):
                file.write_text(said, 'latin-1')
            done = subprocess.run([asked.program, 'explain', *map(str, files)], capture_output=True, check=False)
            text = done.stdout.decode('latin-1')
            said = verdict(*case, text)
            right += said == 'right'
            if said != 'right':
                bad += 1
                print(f'NOT RIGHT, with status {done.returncode}:\n{case[0]}{case[1]}{said}')
                continue
            for _ in range(CHANGES):
                other = changed(chance, text)
                refused += other != text and verdict(*case, other) != 'right'
                if other != text and verdict(*case, other) == 'right':
                    bad += 1
                    print(f'NOT REFUSED:\n{case[0]}{case[1]}{other}')
    print(f'accounts: {right} are right, and {refused} with one number changed are refused; {bad} judged wrongly')
    sys.exit(1 if bad else 0)


if __name__ == '__main__':
    main()
