#!/usr/bin/env python3
"""Has each growth and each call of a device fail in turn, for each command, and looks at what the program does then.

    checks/faults.py [--quick] [--jobs N] [PROGRAM]
    checks/faults.py --library [LIBRARY]

PROGRAM is the proved build where none is named. checks/faults.c is compiled and loaded into it. It makes call N of
malloc, of open, of read or of write fail, where malloc stands for realloc and the like too: for N from 1 until no such
call is made any more; that call alone, or each from it on; with an error, with an interruption, or by taking one byte
or none. What has to come is the right answer, or the status and the line of that fault: 7 of memory, 5
of a file, 6 of standard output. Then standard output holds nothing, or with 6 a front of the right text. Where a call
takes one byte, the right answer has to come. An interruption of a read or a write is a fault, since none comes without
a handler of signals. With --quick there are fewer commands and kinds.

With --library each growth within a call of the library for C fails in turn: LIBRARY is the archive of c/build, and
c/out/lib/libvirage.a where none is named.

It prints a row for each call, and ends with 1 where something came that isn't due.
"""
import argparse
import errno
import os
import shutil
import subprocess
import sys
import tempfile
from collections import Counter
from concurrent.futures import ThreadPoolExecutor
from pathlib import Path

TOP = Path(__file__).resolve().parent.parent
HERE = TOP / 'checks'

RULES, PROFILES, CASES = 'examples/rules', 'examples/profiles', 'examples/counterexamples'

# of each command a call or more: those of --quick, and behind the empty line the others
CALLS = f'''count {RULES}/black.vir {PROFILES}/tied.soc
report {RULES}/plurality.vir {PROFILES}/divided.soc
explain {RULES}/borda.vir {PROFILES}/divided.soc
pairs {PROFILES}/board.soc
prove {RULES}/copeland.vir cc
check examples/certificates/copeland-mono.cert
refute {RULES}/borda.vir cc {PROFILES}/divided.soc
refute {RULES}/baldwin.vir mono {CASES}/baldwin.mono.soc {CASES}/baldwin.mono.lifted.soc 1
simplify made.vir
synth 3 cc,el
position 2,1,0 max {PROFILES}/five-ways.soc
batch {RULES}/borda.vir manifest.txt
listing {RULES}/baldwin.vir
drill 7 20 4
count {PROFILES}/board.soc {PROFILES}/board.soc
count {RULES}/black.vir {RULES}/black.vir
count {RULES}/black.vir none
count x

count {RULES}/instant-runoff.vir {PROFILES}/five-ways.soc
count {RULES}/nanson-schwartz.vir {PROFILES}/five-ways.soc
report {RULES}/copeland.vir {PROFILES}/board.soc
explain {RULES}/instant-runoff.vir {PROFILES}/five-ways.soc
prove {RULES}/plurality.vir cc
prove {RULES}/borda.vir imono
check {RULES}/borda.vir
simplify {RULES}/shortlist.vir
synth 4 cc,mono,el
synth 2 ne,el elect;defer
position 2,1 below {PROFILES}/board.soc
position 0,1 min {PROFILES}/board.soc
listing {RULES}/nanson-schwartz.vir
drill 0 0 0'''

# what is tried where nothing is named: the program, and the library
DEFAULTS = {False: 'crates/virage/out/virage', True: 'c/out/lib/libvirage.a'}

MADE = 'part = seq(elect,max(borda));\nmade = rev(rev(seq(seq(part,defer),par(elect,elect))));\n'
MANIFEST = f'{PROFILES}/divided.soc\n{RULES}/borda.vir\n{PROFILES}/board.soc\n'

# of each kind of call: whether it alone is changed or all from it on, and how
ERRORS = {
    'malloc': [('once', errno.ENOMEM), ('on', errno.ENOMEM)],
    'open': [('once', errno.EACCES), ('once', errno.EINTR), ('on', errno.EMFILE)],
    'read': [('once', errno.EIO), ('on', 'short'), ('once', errno.EINTR), ('once', 'short'), ('on', errno.EISDIR)],
    'write': [
        ('once', errno.EIO), ('on', 'short'), ('on', errno.ENOSPC), ('once', errno.EINTR), ('once', 'short'),
        ('on', errno.EPIPE), ('once', 'none'), ('on', 'none')],
}
# so many of these are tried with --quick
QUICK = {'malloc': 1, 'open': 1, 'read': 2, 'write': 2}

# the status of each kind, and its line
FAULTS = {'malloc': (7, b'out of memory\n'), 'open': (5, b'read fault\n'), 'read': (5, b'read fault\n'),
          'write': (6, b'write fault\n')}


def run_in_time(call, seconds, **how):
    """What a call ends with. Where it takes longer, a new process is tried once, and that is said."""
    for may_be_late in (True, False):
        try:
            return subprocess.run(call, capture_output=True, check=False, timeout=seconds, **how)
        except subprocess.TimeoutExpired:
            if not may_be_late:
                raise
            print(f'faults: once more, since it took over {seconds} s: {" ".join(call)}', flush=True)


class Tried:
    """A program that is called in a folder, with a library loaded into it that makes calls fail."""

    def __init__(self, program, faults, folder):
        self.program, self.faults, self.folder = program, faults, folder

    def right(self, words):
        """The status and the two texts of a call in which nothing fails."""
        return self._run(words, {})

    def run(self, words, call, at, how, error):
        """The same where this call of the C library fails; and whether it was made."""
        came, told = os.pipe()
        said = {'LD_PRELOAD': self.faults, 'FAULT_CALL': call, 'FAULT_AT': str(at), 'FAULT_HOW': how,
                'FAULT_ERRNO': str(error), 'FAULT_TOLD': str(told)}
        try:
            answer = self._run(words, said, (told,))
        finally:
            os.close(told)
        hit = os.read(came, 1) == b'x'
        os.close(came)
        return answer, hit

    def _run(self, words, environment, kept=()):
        try:
            ended = run_in_time(
                [self.program, *words], 60, cwd=self.folder, env=environment, stdin=subprocess.DEVNULL,
                pass_fds=kept)
        except subprocess.TimeoutExpired:
            return None, b'', b''
        return ended.returncode, ended.stdout, ended.stderr


def is_due(call, error, right, answer):
    """Whether an answer may come where this call fails so and nothing else does."""
    status, out, err = answer
    due, line = FAULTS[call]
    if answer == right:
        return True
    if error == 'short':
        return False
    if call == 'write' and right[0] > 1:
        # (only the line is written, and no status depends on it)
        return status == right[0] and out == b'' and right[2].startswith(err)
    is_front = right[1].startswith(out) if call == 'write' else out == b''
    return status == due and is_front and line.startswith(err)


def try_kind(tried, words, right, call, how, error):
    """How many calls failed in turn, and what came that isn't due."""
    at, wrong = 0, []
    while True:
        at += 1
        answer, hit = tried.run(words, call, at, how, error)
        if not is_due(call, error, right, answer) or not hit and answer != right:
            wrong.append(f'{call} {at} {how} {error}: {answer[0]}, {answer[1][-60:]!r}, {answer[2][-60:]!r}')
        if not hit:
            return at - 1, wrong


def try_call(tried, words, is_quick):
    """The row of a call, and what came that isn't due."""
    right = tried.right(words)
    made, wrong = Counter(), []
    for call, errors in ERRORS.items():
        for how, error in errors[:QUICK[call]] if is_quick else errors:
            count, more = try_kind(tried, words, right, call, how, error)
            made[call] = max(made[call], count)
            made['all'] += count
            wrong += more
    said = ', '.join(f'{made[call]} of {call}' for call in ERRORS)
    return f'{" ".join(words)}: status {right[0]}; {said}; {made["all"]} faults', made['all'], wrong


def make_folder(folder):
    """The files that the calls name."""
    shutil.copytree(TOP / 'examples', folder / 'examples')
    (folder / 'made.vir').write_text(MADE)
    (folder / 'manifest.txt').write_text(MANIFEST)


def compiled(room):
    """The library that makes calls fail."""
    made = str(room / 'faults.so')
    subprocess.run(['cc', '-std=gnu99', '-O2', '-Wall', '-Wextra', '-Werror', '-shared', '-fPIC', '-o', made,
                    str(HERE / 'faults.c')], check=True)
    return made


def try_program(program, folder, room, is_quick, jobs):
    """How many faults were made, and how many of them weren't met as they should be."""
    tried = Tried(program, compiled(room), folder)
    first, more = CALLS.split('\n\n')
    calls = (first if is_quick else first + '\n' + more).splitlines()
    faults = made = 0
    with ThreadPoolExecutor(jobs) as threads:
        for row, count, wrong in threads.map(lambda line: try_call(tried, line.split(' '), is_quick), calls):
            print('\n'.join([row, *(f'  WRONG: {it}' for it in wrong[:10])]), flush=True)
            faults, made = faults + len(wrong), made + count
    print(f'faults: {made} calls failed in turn, in {len(calls)} calls of {program}; {faults} answers not due')
    return faults


def files_of(folder, words):
    """The files that a call needs: those that it names, and those that a manifest among them names."""
    named = [word for word in words if (folder / word).is_file()]
    return named + (MANIFEST.splitlines() if 'manifest.txt' in named else [])


def try_library(library, folder, room):
    """How many calls of the library had an answer that isn't due."""
    tests, tester = TOP / 'c/tests', str(room / 'faults-library')
    sources = [HERE / 'faults-library.c', HERE / 'faults.c', tests / 'caller.c']
    subprocess.run(['cc', '-std=gnu99', '-O2', '-Wall', '-Wextra', '-Werror', '-fno-builtin', f'-I{TOP}/c',
                    f'-I{tests}', '-o', tester, *map(str, sources), library], check=True)
    calls, faults, made = CALLS.replace('\n\n', '\n').splitlines(), 0, 0
    for line in calls:
        words = line.split(' ')
        ended = run_in_time([tester, *files_of(folder, words), '--', *words], 600, cwd=folder, text=True)
        *wrong, count = ended.stdout.splitlines() or ['0']
        print('\n'.join([f'{line}: {count} growths', *(f'  WRONG: {it}' for it in wrong[:10])]), flush=True)
        faults, made = faults + (ended.returncode != 0), made + int(count)
    print(f'faults: {made} growths failed in turn, in {len(calls)} calls of {library}; {faults} calls with a fault')
    return faults


def main():
    parser = argparse.ArgumentParser(description=__doc__.partition('\n')[0])
    parser.add_argument('--quick', action='store_true')
    parser.add_argument('--jobs', type=int, default=2)
    parser.add_argument('--library', action='store_true')
    parser.add_argument('path', nargs='?')
    asked = parser.parse_args()
    if shutil.which('cc') is None:
        print('faults: skipped, since there is no cc')
        return 0
    path = str(Path(asked.path or TOP / DEFAULTS[asked.library]).resolve())
    if not os.path.exists(path):
        print(f'faults: there is no {path}')
        return 1
    with tempfile.TemporaryDirectory(prefix='virage-faults-') as room:
        folder = Path(room) / 'folder'
        folder.mkdir()
        make_folder(folder)
        faults = try_library(path, folder, Path(room)) if asked.library else try_program(
            path, folder, Path(room), asked.quick, asked.jobs)
    return 1 if faults else 0


if __name__ == '__main__':
    sys.exit(main())
