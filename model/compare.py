#!/usr/bin/env python3
"""Compares a program, or the library for C, with the model on generated cases: standard output, standard error and the
status.

Cases that differ are shown, made smaller as long as they differ in the same way, and saved. The last line is
`N passed, M failed`, and the status is 1 where one failed.
"""
import argparse
import json
import os
import shutil
import subprocess
import sys
import tempfile
from concurrent.futures import ProcessPoolExecutor
from functools import lru_cache, partial
from pathlib import Path
from typing import NamedTuple

from cases import made_case
from program import answer
from smaller import made_smaller
from words import COMMANDS


class Difference(NamedTuple):
    """What the model answers, and what the program: of each the status and the two streams."""
    wanted: tuple
    got: tuple


@lru_cache(maxsize=None)
def loaded(path):
    """The library of this path, in this process."""
    sys.path.insert(0, str(Path(__file__).resolve().parents[1] / 'python'))
    from virage import Library
    return Library(path)


class Setting(NamedTuple):
    """The program, the commands that it has, for how many seconds it may run, and whether it is a library."""
    program: str
    commands: tuple
    seconds: float
    is_library: bool = False

    def run(self, words, files):
        """What is answered of these files."""
        if not self.is_library:
            return self.run_in_a_folder(words, files)
        said = [word.encode('utf-8', 'surrogateescape') for word in words]
        held = [(name.encode('utf-8', 'surrogateescape'), content) for name, content in files.items()]
        return loaded(self.program).call(said, held)

    def run_in_a_folder(self, words, files):
        """What the program answers in a new folder with these files. Where it is too late, a new process is tried."""
        said = self.run_once(words, files)
        if said[0] == 'too late':
            print(f'too late after {self.seconds} s, once more: {words}', file=sys.stderr)
            said = self.run_once(words, files)
        return said

    def run_once(self, words, files):
        with tempfile.TemporaryDirectory(prefix='virage_model_') as folder:
            for name, content in files.items():
                Path(folder, name).write_bytes(content)
            call = [self.program.encode()] + [word.encode('utf-8', 'surrogateescape') for word in words]
            try:
                ended = subprocess.run(
                    call, cwd=folder, stdin=subprocess.DEVNULL, capture_output=True, timeout=self.seconds)
            except subprocess.TimeoutExpired as late:
                return 'too late', late.stdout or b'', late.stderr or b''
            return ended.returncode, ended.stdout, ended.stderr

    def difference(self, words, files):
        wanted, got = answer(words, files, self.commands), self.run(words, files)
        return None if wanted == got else Difference(wanted, got)


def tried(setting, seed, only, number):
    """The command of a case, and whether the program differs on it."""
    words, files = made_case(seed, number, only, setting.commands)
    command = words[0] if words and words[0] in COMMANDS else 'words'
    return number, command, setting.difference(words, files) is not None


def save(folder, words, files, difference):
    """Writes a case to a folder of its own: its words, its files, and both answers."""
    shutil.rmtree(folder, ignore_errors=True)
    for name, content in files.items():
        path = Path(folder, 'files', name)
        path.parent.mkdir(parents=True, exist_ok=True)
        path.write_bytes(content)
    Path(folder).mkdir(parents=True, exist_ok=True)
    Path(folder, 'words.json').write_text(json.dumps(words))
    for name, (status, out, err) in difference._asdict().items():
        Path(folder, name).write_bytes(b'status %s\n-- output\n%s-- error\n%s' % (str(status).encode(), out, err))


def shown(setting, options, only, number):
    """Saves a case that differs, shows it as small as it can be made, and saves that too."""
    words, files = made_case(options.seed, number, only, setting.commands)
    difference = setting.difference(words, files)
    if difference is None:
        print(f'case {number} differed once, and not again')
        return
    folder = Path(options.save, f'{options.seed}_{number}')
    save(folder / 'whole', words, files, difference)
    if difference.got[0] != 'too late':
        files, difference = made_smaller(partial(setting.difference, words), files, difference)
        save(folder / 'smaller', words, files, difference)
    print(f'--- case {number}: {words}, saved in {folder}')
    for name, content in files.items():
        print(f'  file {name!r}: {content[:600]!r}' + (' ..' if len(content) > 600 else ''))
    print(f'  the model:   {difference.wanted}\n  the program: {difference.got}')


def compare(setting, options):
    only = options.only.split(',') if options.only else None
    numbers = range(options.cases) if options.case is None else [options.case]
    counts, failed = {}, []
    with ProcessPoolExecutor(options.jobs) as pool:
        for number, command, differs in pool.map(partial(tried, setting, options.seed, only), numbers, chunksize=16):
            counts.setdefault(command, [0, 0])[differs] += 1
            if differs:
                failed.append(number)
    for number in failed[:options.show]:
        shown(setting, options, only, number)
    for command, (passed, differing) in sorted(counts.items()):
        print(f'{command:10} {passed:7} passed {differing:7} failed')
    if failed:
        print('cases that failed:', *failed[:50], *(['..'] if len(failed) > 50 else []))
    print(f'{len(numbers) - len(failed)} passed, {len(failed)} failed')
    return 1 if failed else 0


def read_options():
    parser = argparse.ArgumentParser(description=__doc__, formatter_class=argparse.RawDescriptionHelpFormatter)
    parser.add_argument('program', help='the built program, or with --library the built library')
    parser.add_argument('--library', action='store_true', help='it is the library for C, and is called in this process')
    parser.add_argument('--without', default='', metavar='NAMES',
                        help='commands, with commas, that the program lacks: their words are then usage faults')
    parser.add_argument('--only', metavar='NAMES', help='commands to be tried, with commas; `words` are odd words')
    parser.add_argument('--seed', type=int, default=1)
    parser.add_argument('--cases', type=int, default=1000, help='how many (1000)')
    parser.add_argument('--case', type=int, help='the one case of this number')
    parser.add_argument('--jobs', type=int, default=os.cpu_count(), help='processes at a time (one a processor)')
    parser.add_argument('--show', type=int, default=5, help='how many cases that differ are shown and saved (5)')
    parser.add_argument('--save', default='model_differences', help='the folder for them (model_differences)')
    parser.add_argument('--seconds', type=float, default=60, help='for how long a call may run (60)')
    return parser.parse_args()


def main():
    options = read_options()
    lacking = [name for name in options.without.split(',') if name]
    unknown = [name for name in lacking if name not in COMMANDS]
    if unknown:
        sys.exit(f'no such command: {", ".join(unknown)}')
    commands = tuple(name for name in COMMANDS if name not in lacking)
    return compare(Setting(os.path.abspath(options.program), commands, options.seconds, options.library), options)


if __name__ == '__main__':
    sys.exit(main())
