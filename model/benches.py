"""Benches: lists of counters, each of which serves some kinds of modules and counts its calls."""
from meaning import meaning
from terms import ELIMINATIONS, SCORES, is_module, preorder

GREATEST_COUNT = 2 ** 64 - 1


def kind_of(module):
    """What decides who serves a module: its word, and its score if it has one."""
    return (module.word, module.arguments[0]) if module.word in ELIMINATIONS else (module.word,)


class Bench:
    def __init__(self, counters):
        self.counters = counters        # of each the kinds that it serves
        self.calls = [0] * len(counters)
        self.runs = 0

    def server(self, module):
        """The number of the first counter that serves a module, or None."""
        kind = kind_of(module)
        return next((number for number, kinds in enumerate(self.counters) if kind in kinds), None)

    def first_unserved(self, term):
        return next((node for node in preorder(term) if is_module(node) and self.server(node) is None), None)

    def run(self, term, members, tally):
        self.runs = min(GREATEST_COUNT, self.runs + 1)
        return meaning(term, members, tally, self._count)

    def _count(self, module):
        server = self.server(module)
        self.calls[server] = min(GREATEST_COUNT, self.calls[server] + 1)


def full_bench():
    """The bench that the program makes: eight counters, which serve all modules."""
    kinds = [{('elect',), ('defer',)}, {('pass',), ('drop',)}, {('plurality',)}]
    return Bench(kinds + [{(word, score) for word in ELIMINATIONS} for score in SCORES])
