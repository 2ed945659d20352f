"""Makes terms: random ones, ones of which much is derivable, and ones near the limits."""
import random

from terms import ELIMINATIONS, GREATEST_MEMBER, SCORES, term, within_limits

NUMBERS = (1, 1, 1, 2, 2, 3, 4, 5, 7, 10, 64, 128, 1000, 1_000_000)
FEW = (1, 1, 1, 2, 2, 3)
SIZES = (1, 2, 3, 4, 5, 6, 8, 10, 14, 20, 30)
WINNER = term('rev', term('plurality'))


class TermMaker:
    def __init__(self, seed):
        self.random = random.Random(seed)

    def happens(self, chance):
        return self.random.random() < chance

    def one_of(self, *choices):
        return self.random.choice(choices)

    def number(self):
        return self.one_of(*NUMBERS) if self.happens(0.4) else self.one_of(*FEW)

    def order(self):
        if self.happens(0.55):
            return ()
        length = self.random.randint(1, 5)
        greatest = self.one_of(4, 6, 12, GREATEST_MEMBER)
        return tuple(self.random.sample(range(1, greatest + 1), min(length, greatest)))

    def eliminator(self):
        return term(self.one_of(*ELIMINATIONS), self.one_of(*SCORES))

    def module(self):
        kind = self.random.randrange(10)
        if kind < 4:
            return term(('elect', 'defer', 'plurality', 'plurality')[kind])
        if kind < 6:
            return term(self.one_of('pass', 'drop'), self.number(), self.order())
        return self.eliminator()

    def shaped(self):
        """A term of which much is derivable."""
        order, number, eliminator = self.order(), self.number(), self.eliminator()
        first, two, others = term('pass', 1, order), term('pass', 2, order), term('drop', 2, order)
        shape = self.one_of(
            lambda: term('par', first, others),
            lambda: term('par', term('seq', two, term('seq', WINNER, term('pass', 1, ()))), others),
            lambda: term('par', others, term('seq', two, term('pass', 1, self.order()))),
            lambda: term('par', term('rev', term('drop', number, order)), term('rev', term('pass', number, order))),
            lambda: term('loop', self.one_of(1, 1, number), eliminator),
            lambda: term('seq', term('max', self.one_of(*SCORES)), term(self.one_of('elect', 'plurality', 'defer'))),
            lambda: term('seq', term('drop', 1, order), self.module()),
            lambda: term('rev', term(self.one_of('plurality', 'elect'))),
            lambda: term('seq', WINNER, first),
            lambda: term('loop', number, term('par', term('seq', two, first), others)),
            lambda: term('seq', term('defer'), eliminator))
        made = shape()
        if made.word == 'loop' and self.happens(0.5):
            made = term('until', *made.arguments)
        return made

    def term(self, size):
        """A random term of about this size."""
        if size <= 1:
            return self.module()
        if 3 <= size <= 9 and self.happens(0.25):
            return self.shaped()
        if self.happens(0.05):
            part = self.term(max(1, size // 2))
            return term(self.one_of('seq', 'par'), part, part)
        kind = self.random.random()
        if size == 2 or kind < 0.35:
            part = self.term(size - 1)
            word = self.one_of('rev', 'loop', 'loop', 'until', 'until')
            return term('rev', part) if word == 'rev' else term(word, self.number(), part)
        first = self.one_of(1, size - 2, self.random.randint(1, size - 2), self.random.randint(1, size - 2))
        return term(self.one_of('seq', 'seq', 'par'), self.term(first), self.term(size - 1 - first))

    def any_term(self):
        kind = self.random.random()
        if kind < 0.04:
            return self.near_limit()
        return self.shaped() if kind < 0.30 else self.term(self.one_of(*SIZES))

    def allowed_term(self):
        while True:
            made = self.any_term()
            if within_limits(made):
                return made

    def near_limit(self):
        """A term near the limit of nesting or of size, mostly at it or below, sometimes above."""
        return self.deep_term() if self.happens(0.5) else self.large_term()

    def deep_term(self):
        levels = self.one_of(62, 63, 63, 63, 64)
        made = self.module()
        for _ in range(levels):
            made = self.enclosed(made)
        return made

    def enclosed(self, part):
        words = ('rev', 'loop', 'seq behind', 'seq', 'par') if self.happens(0.5) else ('rev',)
        word = self.one_of(*words)
        if word == 'rev':
            return term('rev', part)
        if word == 'loop':
            return term('loop', self.number(), part)
        if word == 'seq behind':
            return term('seq', term('defer'), part)
        return term('seq', part, self.module()) if word == 'seq' else term('par', self.module(), part)

    def large_term(self):
        size = self.one_of(199, 200, 200, 201, 202)
        parts = [self.module() for _ in range((size + 1) // 2)]
        if size % 2 == 0:
            parts[0] = term('rev', parts[0])
        while len(parts) > 1:
            place = self.random.randrange(len(parts) - 1)
            if parts[place].nesting + parts[place + 1].nesting > 50:
                place = 0
            first, second = parts[place], parts.pop(place + 1)
            parts[place] = term(self.one_of('seq', 'par'), first, second)
            if place == 0 and len(parts) > 1:
                parts.append(parts.pop(0))
        return parts[0]
