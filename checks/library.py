#!/usr/bin/env python3
"""Whether all code in docs/LIBRARY.md is part of a file that the gate builds: each indented block has to stand, blanks
and line ends aside, in a file of crates/*/src that the page names."""
import re
import sys
from pathlib import Path

TOP = Path(__file__).resolve().parent.parent


def blocks_of(page):
    """The indented blocks, which may hold empty lines."""
    return [flat(block) for block in re.findall(r'(?:^    .*\n(?:\s*\n(?=    ))*)+', page, re.M)]


def flat(text):
    return ' '.join(text.split())


def fault(named, sources):
    """What is wrong with a block that these files have, where the page names those; None where nothing is."""
    if sources & named:
        return None
    return f'is in {sorted(sources)[0]}, which the page does not name' if sources else 'is in no crate'


def main():
    page = (TOP / 'docs/LIBRARY.md').read_text()
    named = set(re.findall(r'`(crates/\w+/src/\w+\.rt)`', page))
    texts = {str(path.relative_to(TOP)): flat(path.read_text()) for path in TOP.glob('crates/*/src/*.rt')}
    blocks, faults = blocks_of(page), 0
    for block in blocks:
        wrong = fault(named, {name for name, text in texts.items() if block in text})
        if wrong:
            faults += 1
            print(f'library: {block[:60]} .. {wrong}')
    print(f'library: {len(blocks)} pieces of code, {faults} of them with a fault')
    return 1 if faults or not blocks else 0


if __name__ == '__main__':
    sys.exit(main())
