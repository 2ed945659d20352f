"""Counting code: what a term is compiled to, and a machine that runs it."""
from typing import NamedTuple

from meaning import NOBODY, Split, module_split, one_after_the_other, revised, side_by_side
from terms import LOOPS, term_text


class Instruction(NamedTuple):
    name: str
    arguments: tuple = ()


def code_of(term, start=0):
    """The instructions of a term whose first one has this position."""
    if term.word == 'rev':
        return code_of(term.arguments[0], start) + [Instruction('revise')]
    if term.word == 'seq':
        first = code_of(term.arguments[0], start) + [Instruction('keep-domain'), Instruction('fetch-domain')]
        return first + code_of(term.arguments[1], start + len(first)) + [Instruction('join-seq')]
    if term.word == 'par':
        first = code_of(term.arguments[0], start)
        return first + code_of(term.arguments[1], start + len(first)) + [Instruction('join-max')]
    if term.word in LOOPS:
        number, part = term.arguments
        turn = code_of(part, start + 2)
        test = Instruction(term.word + '-test', (number, start + 3 + len(turn)))
        back = Instruction('loop-back', (start + 1,))
        return [Instruction('start-loop'), test] + turn + [back, Instruction('end-loop')]
    return [Instruction('call', (term,))]


def listing_text(term):
    lines = []
    for position, (name, arguments) in enumerate(code_of(term)):
        words = [term_text(word) if name == 'call' else str(word) for word in arguments]
        lines.append(' '.join([str(position), name] + words) + '\n')
    return ''.join(lines)


class Machine:
    """Runs code on the members of a set; `splits` and `domains` are its stacks."""

    def __init__(self, code, members, tally):
        self.code, self.tally = code, tally
        self.domain, self.splits, self.domains, self.position = members, [], [], 0

    def run(self):
        while self.position < len(self.code):
            name, arguments = self.code[self.position]
            self.position += 1
            getattr(self, name.replace('-', '_'))(*arguments)
        return self.splits[-1]

    def call(self, module):
        domain, tally = self.domain, self.tally
        self.splits.append(module_split(module, domain, lambda: tally.first_weights(domain), tally.pairs))

    def keep_domain(self):
        self.domains.append(self.domain)

    def fetch_domain(self):
        self.domain = self.splits[-1].deferred

    def join_seq(self):
        second, first = self.splits.pop(), self.splits.pop()
        self.splits.append(one_after_the_other(first, second))
        self.domain = self.domains.pop()

    def join_max(self):
        second, first = self.splits.pop(), self.splits.pop()
        self.splits.append(side_by_side(first, second))

    def revise(self):
        self.splits.append(revised(self.domain, self.splits.pop()))

    def start_loop(self):
        self.domains.append(self.domain)
        self.splits.append(Split(NOBODY, NOBODY, self.domain))

    def loop_test(self, number, end):
        if len(self.domain) == number:
            self.position = end

    def until_test(self, number, end):
        if len(self.domain) <= number:
            self.position = end

    def loop_back(self, start):
        turn = self.splits.pop()
        if turn.deferred != self.domain:
            self.splits.append(one_after_the_other(self.splits.pop(), turn))
            self.domain = turn.deferred
            self.position = start

    def end_loop(self):
        self.domain = self.domains.pop()
