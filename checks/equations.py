#!/usr/bin/env python3
"""Compares the table of docs/EQUATIONS.md with crates/vir_simplify/specs: number, name and sides of each equation.

It prints a line; where they differ it names each equation that does, and the status is 1.
"""
import re
import sys
from pathlib import Path

TOP = Path(__file__).resolve().parent.parent
SPECS = TOP / 'crates/vir_simplify/specs'
PAGE = TOP / 'docs/EQUATIONS.md'

# the words of the definitions that the page writes otherwise
NOBODY = 'rev(defer)'
LOOPS = {'exactly': 'loop', 'at_most': 'until'}


def text_of(words):
    """The text of the term that stands first in a list of words of a definition, which are taken off."""
    word = words.pop(0)
    if word == '(':
        text = text_of(words)
        words.pop(0)
        return text
    if word == 'loop':
        words.pop(0)
        kind, number = words.pop(0), words.pop(0)
        words.pop(0)
        return f'{LOOPS[kind]}({number},{text_of(words)})'
    if word == 'rev':
        return f'rev({text_of(words)})'
    if word in ('seq', 'par'):
        return f'{word}({text_of(words)},{text_of(words)})'
    return NOBODY if word == 'nobody' else word


def term(text):
    return text_of(re.findall(r'[()]|\w+', text))


def found(name, line):
    """What a file of the definitions has in the groups of each such line."""
    return re.findall(f'^{line}$', (SPECS / name).read_text(), re.M)


def coded():
    """Of each equation, in the order of the definitions, its name and its two sides."""
    names = dict(found('Names.antt', r'equation_text equation\.(\w+) = codes "([^"]*)"'))
    sides = found('Equations.antt', r'sides (\w+) m n t k = (.*) ⇒ (.*)')
    return [(names[variant], term(left), term(right)) for variant, left, right in sides]


def shown():
    """The same of the page, where each equation has its number and its anchor."""
    row = r'^\| (\d+) \| <a id="(.*?)"></a>`(.*?)` \| `(.*?)` \| `(.*?)` \| .+ \|$'
    rows = re.findall(row, PAGE.read_text(), re.M)
    return [(name if (int(number), anchor) == (place, name) else f'{name}, number {number}, {anchor}', left, right)
            for place, (number, anchor, name, left, right) in enumerate(rows, 1)]


def main():
    of_crate, of_page = coded(), shown()
    differing = sorted(set(of_crate) ^ set(of_page))
    for equation in differing:
        where = 'not on the page' if equation in of_crate else 'on the page alone'
        print(f'equations: {" | ".join(equation)} is {where}')
    if differing or of_crate != of_page or not of_crate:
        print('equations: docs/EQUATIONS.md DIFFERS from the definitions')
        return 1
    print(f'equations: docs/EQUATIONS.md has the {len(of_crate)} of the definitions')
    return 0


if __name__ == '__main__':
    sys.exit(main())
