"""Compares the module in the page with the program, or with the library for C, to the byte: the status and both texts.

    packaging/web/tests/as_the_program.py WORKBENCH.html PROGRAM [--seconds N] [--seed N]

PROGRAM is a built program, or libvirage.so. Tried are all commands on all examples, the rows of model/rows.py, hostile
files of bench/, and cases that model/cases.py makes for so many seconds. The page answers by its own worker. Where a
browser gives no answer, the same cases are handed to a new one, and the last line says how often that was.
"""
import argparse
import itertools
import os
import resource
import subprocess
import sys
import tempfile
import time
from collections import Counter
from concurrent.futures import ThreadPoolExecutor
from pathlib import Path

from opened import TOP, NoAnswer, Workbench

sys.path.insert(0, str(TOP / 'model'))

import rows  # noqa: E402
from cases import made_case  # noqa: E402
from virage.library import Library  # noqa: E402

# so many cases are handed to the page at once, and hostile ones by themselves
AT_ONCE = 40

# so often the same cases are handed to a new browser
TRIES = 4

# how much memory the program may take here: as the page, it answers 7 where it wants more
MEMORY = 4 << 30

PROPERTIES = (
    'ne', 'ea', 'el', 'defers(1)', 'rejects(1)', 'elim(1)', 'nb', 'decr', 'dli', 'imono', 'dimono', 'dmono', 'mono',
    'cc', 'dcc', 'cprog', 'ccomp', 'neut', 'defers(2)', 'odd')
ON_LIFTS = ('dli', 'imono', 'dimono', 'dmono', 'mono')
OUT_OF_MEMORY = 7


class Program:
    """A built program, called with files in a folder of their own."""

    def __init__(self, path):
        self.path = os.path.abspath(path)

    def call(self, words, files):
        with tempfile.TemporaryDirectory(prefix='virage-web-') as folder:
            for name, content in files:
                Path(folder, os.fsdecode(name)).write_bytes(content)
            ended = subprocess.run(
                [self.path.encode(), *words], cwd=folder, stdin=subprocess.DEVNULL, capture_output=True, check=False)
        return ended.returncode, ended.stdout, ended.stderr


def in_bytes(words, files):
    """A case with words and names as bytes."""
    encoded = [word.encode('utf-8', 'surrogateescape') for word in words]
    contents = [(name.encode('utf-8', 'surrogateescape'), content) for name, content in files.items()]
    return encoded, contents


def example_files():
    found = {}
    for pattern in ('rules/*.vir', 'profiles/*.soc', 'certificates/*'):
        for path in sorted((TOP / 'examples').glob(pattern)):
            found[path.name] = path.read_bytes()
    return found


def example_cases():
    """All commands on all examples."""
    files = example_files()
    rules = [name for name in files if name.endswith('.vir')]
    profiles = [name for name in files if name.endswith('.soc')]
    files['all.txt'] = '\n'.join(profiles).encode() + b'\n'
    words = [[verb, *both] for verb in ('count', 'report', 'explain') for both in itertools.product(rules, profiles)]
    words += [[verb, rule] for verb in ('listing', 'simplify') for rule in rules]
    words += [['pairs', profile] for profile in profiles]
    words += [['prove', *both] for both in itertools.product(rules, PROPERTIES)]
    words += [['drill', str(seed), str(lines), str(count)]
              for seed, lines, count in itertools.product((0, 7, 123), (1, 5, 40), (1, 3, 12))]
    words += [['synth', str(size), wanted] for size, wanted in
              itertools.product((1, 2, 3), ('el', 'mono', 'el,mono', 'cc,neut', 'mono,ccomp'))]
    words += [['position', weights, kind, profile] for weights, kind, profile in
              itertools.product(('3,1', '1', '0,1'), ('max', 'min', 'below', 'upto'), profiles)]
    for rule, wanted in itertools.product(rules, PROPERTIES):
        if wanted in ON_LIFTS:
            words += [['refute', rule, wanted, *both, '1'] for both in itertools.product(profiles, repeat=2)]
        else:
            words += [['refute', rule, wanted, profile] for profile in profiles]
    words += [['batch', rule, 'all.txt'] for rule in rules] + [['check', name] for name in files]
    words += [[], ['count'], ['x'] * 7, ['count', 'none', profiles[0]], ['count', rules[0], 'none'], ['help']]
    for said in words:
        used = {name: files[name] for name in (*said, *(profiles if 'all.txt' in said else ())) if name in files}
        yield said, used


def row_cases():
    """The rows of the model: rules and profiles that were worked out by hand, and bad ones."""
    splits = [(rule, rows.DIVIDED) for rule, *_ in rows.SPLITS]
    splits += [(rule, profile) for rule, profile, *_ in rows.OTHER_SPLITS]
    for rule, profile in splits:
        for verb in ('count', 'report', 'explain'):
            yield [verb, 'R', 'P'], {'R': f'r = {rule};'.encode(), 'P': profile}
    for line, *_ in rows.BAD_LINES:
        yield ['count', 'R', 'P'], {'R': b'r=elect;', 'P': b'# NUMBER ALTERNATIVES: 3\n' + line + b'\n'}
    for text, *_ in rows.BAD_RULES:
        yield ['count', 'R', 'P'], {'R': text, 'P': rows.DIVIDED}


def hostile_cases():
    """The files of bench/hostile.sh and of bench/dear_rules.py, each counted and reported."""
    with tempfile.TemporaryDirectory() as room:
        quiet = {'stdout': subprocess.DEVNULL, 'stderr': subprocess.DEVNULL}
        dear = subprocess.run([sys.executable, TOP / 'bench/dear_rules.py', room], check=True, **quiet)
        assert dear.returncode == 0
        # (its files are wanted, and not what the program says of them)
        subprocess.run([TOP / 'bench/hostile.sh', room], check=False, **quiet)
        for path in sorted(Path(room).iterdir()):
            if path.is_file() and path.suffix not in ('.out', '.err', '.time'):
                files = {'R': path.read_bytes(), 'P': rows.DIVIDED}
                yield ['report', 'R', 'P'], files
                yield ['simplify', 'R'], {'R': files['R']}


def generated_cases(seed, seconds):
    end = time.monotonic() + seconds
    for number in itertools.count():
        if time.monotonic() > end:
            return
        yield made_case(seed, number)


def limit_memory(most):
    """How much memory this process and the programs that it starts may take."""
    _, hardest = resource.getrlimit(resource.RLIMIT_AS)
    resource.setrlimit(resource.RLIMIT_AS, (hardest if most is None else most, hardest))


class Pages:
    """A workbench, opened anew in another browser where one gives no answer."""

    def __init__(self, path):
        self.path, self.page, self.lost = path, None, []

    def __enter__(self):
        # (a browser reserves more than it takes)
        limit_memory(None)
        self.page = Workbench(self.path).__enter__()
        limit_memory(MEMORY)
        return self

    def __exit__(self, kind, stop, at):
        self.page.__exit__(kind, stop, at)

    def calls(self, cases):
        for tried in range(1, TRIES + 1):
            try:
                return self.page.calls(cases)
            except NoAnswer as stop:
                print(f'A new browser, since {stop}: {[words for words, _ in cases][:3]} ..', flush=True)
                self.lost.append(stop)
                if tried == TRIES:
                    raise
                self.__exit__(NoAnswer, stop, None)
                self.__enter__()


class Comparison:
    def __init__(self, page, program):
        self.page, self.program = page, program
        self.pool = ThreadPoolExecutor(2)
        self.statuses = Counter()
        self.same, self.other, self.wanting = 0, 0, 0

    def run(self, name, cases, at_once=AT_ONCE):
        """Tries the cases, and tells of those that differ."""
        before, start = (self.same, self.other), time.monotonic()
        cases = iter(cases)
        while some := [in_bytes(*case) for case in itertools.islice(cases, at_once)]:
            wanted = self.pool.map(lambda case: self.program.call(*case), some)
            got = self.page.calls([(words, dict(files)) for words, files in some])
            for case, one, other in zip(some, wanted, got):
                self.judge(case, one, other)
        print(f'{name}: {self.same - before[0]} answers are the same, {self.other - before[1]} are not, '
              f'in {time.monotonic() - start:.0f} s', flush=True)

    def judge(self, case, wanted, got):
        self.statuses[wanted[0]] += 1
        if wanted == got:
            self.same += 1
            return
        if got[0] == OUT_OF_MEMORY and wanted[0] != OUT_OF_MEMORY:
            self.wanting += 1
            return
        self.other += 1
        if self.other < 6:
            print('OTHER', case[0], [(name, content[:200]) for name, content in case[1]], wanted, got)


def main():
    parser = argparse.ArgumentParser(description=__doc__, formatter_class=argparse.RawDescriptionHelpFormatter)
    parser.add_argument('page')
    parser.add_argument('program')
    parser.add_argument('--seconds', type=float, default=20, help='how long cases are made (20)')
    parser.add_argument('--seed', type=int, default=34)
    options = parser.parse_args()
    program = Library(options.program) if '.so' in options.program else Program(options.program)
    with Pages(options.page) as page:
        tried = Comparison(page, program)
        tried.run('examples', example_cases())
        tried.run("the model's rows", row_cases())
        tried.run('hostile files', hostile_cases(), 1)
        tried.run('generated cases', generated_cases(options.seed, options.seconds))
    told = ', '.join(f'{count} of status {status}' for status, count in sorted(tried.statuses.items()))
    print(f"{tried.same} answers are the same as the program's, {tried.other} are not, and {tried.wanting} want more "
          f'memory than the page has ({told}; {len(page.lost)} browsers gave no answer)')
    return 1 if tried.other else 0


if __name__ == '__main__':
    sys.exit(main())
