#!/usr/bin/env python3
"""Measures calls in one process, by the library, beside a process for each call, which is the program itself.

    bench/inside.py [LIBRARY [PROGRAM]]

It prints a row for each kind of call: microseconds by the library alone, by the Python module over it, and by a process
each; and seconds for 10,000 small profiles and 10,000 suspected counterexamples. Of repeated calls the fastest counts.
It ends with status 1 where a count of the smallest profile takes more than 25 microseconds by the module, or one of the
two bulks more than 0.5 seconds; or where an answer differs from the program's.
"""
import os
import subprocess
import sys
import time
from pathlib import Path

TOP = Path(__file__).resolve().parents[1]
sys.path.insert(0, str(TOP / 'python'))

import virage  # noqa: E402

MOST_MICROSECONDS, MOST_SECONDS, MANY = 25, 0.5, 10_000

CASES = [
    ('count', 'plurality', 'divided'), ('count', 'instant-runoff', 'five-ways'), ('report', 'copeland', 'board'),
    ('report', 'sequential-majority', 'five-ways')]


def fastest(call, times):
    """Seconds of the fastest of so many calls."""
    least = float('inf')
    for _ in range(times):
        start = time.perf_counter()
        call()
        least = min(least, time.perf_counter() - start)
    return least


def row(library, program, command, rule, profile):
    """The microseconds of a call by the library, by the module, and by a process; and whether the answers agree."""
    names = [f'examples/rules/{rule}.vir', f'examples/profiles/{profile}.soc']
    files = [(name.encode(), (TOP / name).read_bytes()) for name in names]
    words = [command.encode(), *(name for name, _ in files)]
    ask = getattr(virage, command)
    ended = subprocess.run([program, command, *names], cwd=TOP, capture_output=True, check=False)
    agree = library.call(words, files) == (ended.returncode, ended.stdout, ended.stderr)
    here = fastest(lambda: library.call(words, files), 3000)
    module = fastest(lambda: ask(*(content for _, content in files), program=library), 3000)
    there = fastest(lambda: subprocess.run([program, command, *names], cwd=TOP, capture_output=True, check=False), 100)
    print(f'| `{command}` {rule}, {profile} | {here * 1e6:.0f} | {module * 1e6:.0f} | {there * 1e6:.0f} |')
    return module * 1e6, agree


def small_profiles():
    """Texts of small profiles, all different."""
    orders = ('1,2,3', '1,3,2', '2,1,3', '2,3,1', '3,1,2', '3,2,1')
    for i in range(MANY):
        lines = ''.join(f'{1 + (i // 6 ** j) % 5}: {orders[(i // 3 ** j) % 6]}\n' for j in range(3))
        yield b'# NUMBER ALTERNATIVES: 3\n' + lines.encode()


def bulks(library, program):
    """Seconds for many profiles in batches, and for as many cases that are judged one by one; and by a process each."""
    rule, profiles = b'r = seq(max(copeland),elect);', list(small_profiles())
    batch = fastest(lambda: virage.batch(rule, profiles, program=library), 3)
    refute = fastest(lambda: [virage.refute(rule, 'cc', text, program=library) for text in profiles], 2)
    started = time.perf_counter()
    for _ in range(200):
        subprocess.run([program, 'drill', '0', '1', '1'], capture_output=True, check=False)
    each = (time.perf_counter() - started) / 200 * MANY
    print(f'\n{MANY:,} small profiles by `batch`: {batch:.2f} s; as many `refute`s: {refute:.2f} s; '
          f'as many processes that do next to nothing: {each:.0f} s')
    return batch, refute


def main():
    words = sys.argv[1:]
    library = virage.Library(words[0]) if words else virage.engine()
    if not isinstance(library, virage.Library):
        sys.exit('bench/inside.py: there is no library, which c/archive and c/build make')
    program = words[1] if len(words) > 1 else str(TOP / 'crates' / 'virage' / 'out' / 'virage')
    if not os.access(program, os.X_OK):
        sys.exit(f'bench/inside.py: there is no program {program}')
    print('| Call | By the library, microseconds | By the module | A process each |\n|---|---|---|---|')
    rows = [row(library, program, *case) for case in CASES]
    batch, refute = bulks(library, program)
    missed = [what for what, is_missed in (
        ('an answer differs', not all(agree for _, agree in rows)),
        ('a count', rows[0][0] > MOST_MICROSECONDS),
        ('the batch', batch > MOST_SECONDS), ('the refutes', refute > MOST_SECONDS)) if is_missed]
    print(f'missed: {", ".join(missed)}' if missed else 'all bars kept')
    return 1 if missed else 0


if __name__ == '__main__':
    sys.exit(main())
