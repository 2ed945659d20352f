"""Calls that want more than there is: a page whose module has little memory, and one whose stack is small.

    packaging/web/tests/at_the_limits.py SMALL_MEMORY.html SMALL_STACK.html

Little memory is 8 MiB, and a small stack 64 KiB. What wants more is answered by status 7, or stopped with a word on it;
and the next call is right.
"""
import sys

from opened import TOP, Workbench

RULE = (TOP / 'examples/rules/copeland.vir').read_bytes()
PROFILE = (TOP / 'examples/profiles/board.soc').read_bytes()
REPORT = (TOP / 'examples/expected/report.copeland.board').read_bytes()


def many_lines(count):
    lines = b''.join(b'%d: 1,2,3,4,5,6,7,8,9,10\n' % i for i in range(1, count + 1))
    return b'# NUMBER ALTERNATIVES: 10\n' + lines


def deep_rule():
    """A rule in as many levels as are allowed, twice."""
    return b'a = ' + b'rev(' * 62 + b'elect' + b')' * 62 + b';\nr = seq(a, a);\n'


def is_right(page):
    return page.call(['report', 'R', 'P'], {'R': RULE, 'P': PROFILE}) == (0, REPORT, b'')


def main():
    faults = []
    with Workbench(sys.argv[1]) as page:
        wanting = page.call(['count', 'R', 'P'], {'R': RULE, 'P': many_lines(200000)})
        if wanting[0] != 7:
            faults.append(f'with little memory many lines are answered by {wanting}')
        if not is_right(page):
            faults.append('after a call without memory the next one is wrong')
        status, _, why = page.call(['count', 'R', 'P'], {'R': RULE, 'P': bytes(9 << 20)})
        if status != -1 or b'no memory for what is handed in' not in why:
            faults.append(f'a file that does not fit is answered by {status} {why}')
        if not is_right(page):
            faults.append('after a file that does not fit the next call is wrong')
    with Workbench(sys.argv[2]) as page:
        status, _, why = page.call(['report', 'R', 'P'], {'R': deep_rule(), 'P': PROFILE})
        if status != -1 or b'stack' not in why:
            faults.append(f'with a small stack a deep rule is answered by {status} {why}')
        status, out, _ = page.call(['count', 'R', 'P'], {'R': b'r = elect;', 'P': PROFILE})
        if (status, out) != (0, b'elected: 1 2 3\nrejected:\ndeferred:\n'):
            faults.append(f'after a stack that ran out the next call is wrong: {status} {out}')
    for fault in faults:
        print(fault)
    print(f'limits of memory and of the stack: {len(faults)} faults')
    return 1 if faults else 0


if __name__ == '__main__':
    sys.exit(main())
