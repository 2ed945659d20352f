"""Rule files: trees of tokens, what trees mean as terms, and definitions by name."""
from typing import NamedTuple

from terms import ELIMINATIONS, FIXED, GREATEST_MEMBER, GREATEST_NESTING, GREATEST_NUMBER, GREATEST_SIZE, LOOPS, SCORES
from terms import term as term_of
from tokens import Fault, number_of, tokens_of

LONGEST_RULE_FILE = 1_048_576
MOST_UNCLOSED = 80

# how many arguments the words of terms may have
ARGUMENTS = {
    'elect': (0,), 'defer': (0,), 'plurality': (0,), 'pass': (1, 2), 'drop': (1, 2), 'rev': (1,), 'seq': (2,),
    'par': (2,), 'loop': (2,), 'until': (2,)} | {word: (1,) for word in ELIMINATIONS}
BUILT_IN = set(ARGUMENTS) | set(SCORES)


class Tree(NamedTuple):
    """A word with trees in parentheses, a number, or a list of numbers in brackets."""
    kind: str
    start: int
    text: bytes
    parts: tuple


class Trees:
    """Reads trees of a text's tokens; `place` is the token that comes next."""

    def __init__(self, text, tokens, place=0):
        self.text, self.tokens, self.place = text, tokens, place

    def kind(self):
        return self.tokens[self.place].kind if self.place < len(self.tokens) else None

    def start(self):
        """Where the next token stands, or the end of the text where there is none."""
        return self.tokens[self.place].start if self.place < len(self.tokens) else len(self.text)

    def word(self):
        """The bytes of the next token; none at the end."""
        if self.place == len(self.tokens):
            return None
        _, start, end = self.tokens[self.place]
        return self.text[start:end]

    def take(self, kind):
        """The bytes of the next token, which has to be of this kind."""
        if self.kind() != kind:
            raise Fault('Unexpected', self.start())
        word = self.word()
        self.place += 1
        return word

    def open(self, sign, unclosed):
        if unclosed == MOST_UNCLOSED:
            raise Fault('TooDeep', self.start())
        self.take(sign)

    def tree(self, unclosed=0):
        start = self.start()
        if self.kind() == '[':
            return self.list(start, unclosed)
        if self.kind() == 'number':
            return self.number()
        word, parts = self.take('word'), ()
        if self.kind() == '(':
            self.open('(', unclosed)
            parts = self.separated(')', lambda: self.tree(unclosed + 1))
        return Tree('word', start, word, parts)

    def number(self):
        start = self.start()
        return Tree('number', start, self.take('number'), ())

    def list(self, start, unclosed):
        self.open('[', unclosed)
        if self.kind() == ']':
            self.take(']')
            return Tree('list', start, b'', ())
        return Tree('list', start, b'', self.separated(']', self.number))

    def separated(self, end, part):
        """One part or more with commas between them, up to the closing sign."""
        parts = [part()]
        while self.kind() == ',':
            self.take(',')
            parts.append(part())
        self.take(end)
        return tuple(parts)


def number_in(tree):
    if tree.kind != 'number':
        raise Fault('WrongSort', tree.start)
    number = number_of(tree.text)
    if not 1 <= number <= GREATEST_NUMBER:
        raise Fault('BadNumber', tree.start)
    return number


def order_in(tree):
    if tree.kind != 'list':
        raise Fault('WrongSort', tree.start)
    order = {}      # its keys, in order
    for member in tree.parts:
        number = number_of(member.text)
        if not 1 <= number <= GREATEST_MEMBER:
            raise Fault('BadNumber', member.start)
        if number in order:
            raise Fault('RepeatedInOrder', member.start)
        order[number] = None
    return tuple(order)


class Typing:
    """Judges trees as terms, with the names that were defined before."""

    def __init__(self, names):
        self.names = names

    def known_word(self, tree):
        if tree.kind != 'word':
            raise Fault('WrongSort', tree.start)
        word = tree.text.decode()
        if word not in BUILT_IN and word not in self.names:
            raise Fault('UnknownName', tree.start)
        return word

    def score(self, tree):
        word = self.known_word(tree)
        if word not in SCORES:
            raise Fault('WrongSort', tree.start)
        if tree.parts:
            raise Fault('WrongCountOfArguments', tree.start)
        return word

    def term(self, tree, level=1):
        word = self.known_word(tree)
        if word in SCORES and word != 'plurality':
            raise Fault('WrongSort', tree.start)
        if len(tree.parts) not in ARGUMENTS.get(word, (0,)):
            raise Fault('WrongCountOfArguments', tree.start)
        named = self.names.get(word)
        levels = named.nesting if named is not None else 1
        if level + levels - 1 > GREATEST_NESTING:
            raise Fault('TooDeep', tree.start)
        return named if named is not None else term_of(word, *self.arguments(word, tree.parts, level))

    def arguments(self, word, parts, level):
        if word in FIXED:
            number = number_in(parts[0])
            return number, order_in(parts[1]) if len(parts) == 2 else ()
        if word in ELIMINATIONS:
            return self.score(parts[0]),
        if word in LOOPS:
            return number_in(parts[0]), self.term(parts[1], level + 1)
        return [self.term(part, level + 1) for part in parts]


def sized_term(tree, names, place):
    """The term of a tree, of which it is told at this place where it is too large."""
    term = Typing(names).term(tree)
    if term.size > GREATEST_SIZE:
        raise Fault('TooLarge', place)
    return term


def read_rule_file(text):
    """The definitions, each a name and a term; the first fault is raised."""
    if len(text) > LONGEST_RULE_FILE:
        raise Fault('TextTooLong', LONGEST_RULE_FILE)
    trees, names = Trees(text, tokens_of(text)), {}
    while trees.kind() is not None:
        start, name = trees.start(), trees.take('word').decode()
        trees.take('=')
        tree = trees.tree()
        trees.take(';')
        if name in BUILT_IN or name in names:
            raise Fault('NameTwice', start)
        names[name] = sized_term(tree, names, start)
    if not names:
        raise Fault('EmptyBook', 0)
    return list(names.items())
