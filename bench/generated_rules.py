"""Draws so many rules into a folder, of all modules and compositions and within the limits of size and nesting.

Usage: generated_rules.py FOLDER COUNT SEED. A rule depends on the seed and on its number alone.
"""
import random
import sys
from typing import NamedTuple

GREATEST_SIZE, DEEPEST = 200, 64
SCORES = "plurality", "borda", "copeland", "minimax", "condorcet"
ELIMINATORS = "max", "min", "below", "upto"
FIXED = "elect", "elect", "defer", "plurality"
SIZES = 1, 2, 3, 4, 5, 6, 7, 8, 9, 11, 13, 16, 20, 30, 60, 120, GREATEST_SIZE
NUMBERS = 1, 1, 1, 1, 2, 2, 3, 7, 1000000


class Term(NamedTuple):
    text: str
    size: int = 1
    nesting: int = 1


def composed(word, *parts):
    text = f"{word}{','.join(part.text for part in parts)})"
    return Term(text, 1 + sum(part.size for part in parts), 1 + max(part.nesting for part in parts))


class Drawing:
    """Draws one rule."""

    def __init__(self, *seed):
        self.source = random.Random(" ".join(map(str, seed)))

    def one_of(self, choices):
        return self.source.choice(choices)

    def happens(self, chance):
        return self.source.random() < chance

    def order(self):
        """A fixed order as it stands behind a number, which mostly is none."""
        if self.happens(0.6):
            return ""
        return f",[{','.join(map(str, self.source.sample(range(1, 9), self.one_of([1, 2, 3]))))}]"

    def module(self):
        kind = self.source.randrange(8)
        if kind < 2:
            return Term(self.one_of(FIXED))
        if kind < 4:
            return Term(f"{self.one_of(['pass', 'drop'])}({self.one_of(NUMBERS)}{self.order()})")
        return Term(f"{self.one_of(ELIMINATORS)}({self.one_of(SCORES)})")

    def loop(self, part):
        return composed(f"{self.one_of(['loop', 'until'])}({self.one_of(NUMBERS)},", part)

    def round(self):
        """Two opposed parts side by side: one decides between the first two in an order, the other waits."""
        order = self.order()
        duel = composed("seq(", Term(f"pass(2{order})"), self.one_of([
            Term("pass(1)"), composed("seq(", composed("rev(", Term("plurality")), Term(f"pass(1{order})"))]))
        parts = [duel, Term(f"drop({self.one_of([2, 2, 2, 3])}{order})")]
        return composed("par(", *(parts if self.happens(0.5) else parts[::-1]))

    def small(self):
        """A part of which much is derivable."""
        kind = self.source.randrange(6)
        if kind == 0:
            return self.round()
        if kind == 1:
            return self.loop(self.round())
        if kind == 2:
            return self.loop(Term(f"{self.one_of(ELIMINATORS)}({self.one_of(SCORES)})"))
        if kind == 3:
            return composed("rev(", Term(self.one_of(["elect", "plurality"])))
        return composed("seq(", Term(f"max({self.one_of(SCORES)})"), self.module())

    def term(self, size, nesting):
        """A term of at most this size and nesting."""
        if size < 2 or nesting < 2:
            return self.module()
        if 10 <= size <= 30 and nesting >= 6 and self.happens(0.4):
            return self.small()
        if size == 2 or self.happens(0.3):
            part = self.term(size - 1, nesting - 1)
            return composed("rev(", part) if self.happens(0.3) else self.loop(part)
        first = self.one_of([1, size - 2, self.source.randint(1, size - 2)])
        parts = self.term(first, nesting - 1), self.term(size - 1 - first, nesting - 1)
        return composed(self.one_of(["seq(", "seq(", "seq(", "par("]), *parts)

    def rule(self):
        made = self.small() if self.happens(0.15) else self.term(self.one_of(SIZES), DEEPEST - 1)
        ends = made.size + 2 <= GREATEST_SIZE and self.happens(0.4)
        return composed("seq(", made, Term("elect")) if ends else made


def main(folder, count, seed):
    for number in range(1, int(count) + 1):
        rule = Drawing(seed, number).rule()
        assert rule.size <= GREATEST_SIZE and rule.nesting <= DEEPEST, rule.text
        with open(f"{folder}/{number:06}.vir", "w") as file:
            file.write(f"r = {rule.text};\n")


if __name__ == "__main__":
    if len(sys.argv) != 4:
        sys.exit(__doc__)
    main(*sys.argv[1:])
