"""Terms, as the program prints them: electoral modules, composed."""

from __future__ import annotations

import re
from dataclasses import dataclass
from functools import cached_property
from typing import Dict, Iterator, List, Optional, Tuple, Union

_TOKENS = re.compile(r"[A-Za-z][A-Za-z0-9_-]*|[0-9]+|[(),]|\[[0-9]+(?:,[0-9]+)*\]")
_BLANKS = re.compile(r"[ \t\r\n]+")

# blanks that have to stand where they do
_BETWEEN_WORDS = re.compile(r"[A-Za-z0-9_-][ \t\r\n]+[A-Za-z0-9_-]")

# what each word takes, in order
_TAKES: Dict[str, Tuple[str, ...]] = {
    "elect": (),
    "defer": (),
    "plurality": (),
    "pass": ("number", "order"),
    "drop": ("number", "order"),
    "max": ("score",),
    "min": ("score",),
    "below": ("score",),
    "upto": ("score",),
    "rev": ("part",),
    "seq": ("part", "part"),
    "par": ("part", "part"),
    "loop": ("number", "part"),
    "until": ("number", "part"),
}

# the words of modules, and those of scores
MODULES = tuple(word for word, takes in _TAKES.items() if "part" not in takes)
SCORES = ("plurality", "borda", "copeland", "minimax", "condorcet")


@dataclass(frozen=True)
class Tree:
    """A word with arguments in parentheses: what terms, derivations and properties look like before they are judged."""

    word: str
    arguments: Tuple[Argument, ...] = ()


Argument = Union[Tree, int, Tuple[int, ...]]


@dataclass(frozen=True, repr=False)
class Term:
    """A module or a composition: a word, and the number, fixed order, score or parts that the word takes."""

    word: str
    number: Optional[int] = None
    order: Tuple[int, ...] = ()
    score: Optional[str] = None
    parts: Tuple[Term, ...] = ()

    @classmethod
    def read(cls, text: str) -> Term:
        """The term of a text, which may have blanks between its words and signs, as the term of a rule file may.

        Anything else is a ValueError; names of a rule file aren't known here.
        """
        if _BETWEEN_WORDS.search(text):
            raise ValueError(f"two words without a sign between them: {text!r}")
        return term_of(read_tree(_BLANKS.sub("", text)))

    @classmethod
    def printed(cls, text: str) -> Term:
        """The term of a text just as the program prints it, so without blanks. Anything else is a ValueError."""
        return term_of(read_tree(text))

    def __str__(self) -> str:
        return self._text

    @cached_property
    def _text(self) -> str:
        return self.head(*map(str, self.parts))

    def __repr__(self) -> str:
        return f"<Term {self}>"

    def head(self, *parts: str) -> str:
        """The text of the term with these texts in the place of its parts'."""
        given = [] if self.number is None else [str(self.number)]
        given += [f"[{','.join(map(str, self.order))}]"] if self.order else []
        given += [self.score] if self.score else []
        given += parts
        return f"{self.word}({','.join(given)})" if given else self.word

    def preorder(self) -> Iterator[Term]:
        """The term and all its parts, each before its own parts, from left to right."""
        left = [self]
        while left:
            term = left.pop()
            yield term
            left += reversed(term.parts)

    @property
    def size(self) -> int:
        """The number of its modules and compositions."""
        return sum(1 for _ in self.preorder())


def read_tree(text: str) -> Tree:
    """The tree of a text without blanks. Anything else is a ValueError. Equal trees in it are one object."""
    tokens = _TOKENS.findall(text)
    if "".join(tokens) != text:
        raise ValueError(f"not a printed text: {_shortened(text)!r}")
    reader = _Reader()
    for token in tokens:
        reader.read(token)
    return reader.tree(text)


def _shortened(text: str) -> str:
    return text if len(text) <= 200 else text[:200] + ".."


class _Reader:
    """What is read of a text, a token at a time. A text of megabytes has few trees that differ."""

    def __init__(self) -> None:
        # the words whose parentheses are open, each with the arguments before it
        self._open: List[Tuple[str, List[Argument]]] = []
        self._arguments: List[Argument] = []
        # a word that stands last, so that a parenthesis may follow
        self._word: Optional[str] = None
        self._wants = True
        self._trees: Dict[Tuple[object, ...], Tree] = {}

    def read(self, token: str) -> None:
        if token in "(),":
            self._sign(token)
        elif not self._wants:
            raise ValueError(f"{token!r} isn't expected")
        else:
            self._wants = False
            if token[0].isalpha():
                self._word = token
            elif token[0] == "[":
                self._arguments.append(tuple(map(int, token[1:-1].split(","))))
            else:
                self._arguments.append(int(token))

    def _sign(self, token: str) -> None:
        word, self._word = self._word, None
        if self._wants or (token == "(" and word is None):
            raise ValueError(f"{token!r} isn't expected")
        if token == "(" and word is not None:
            self._open.append((word, self._arguments))
            self._arguments = []
            self._wants = True
            return
        if word is not None:
            self._arguments.append(self._one(word, ()))
        if not self._open:
            raise ValueError(f"{token!r} isn't expected")
        if token == ",":
            self._wants = True
        else:
            word, before = self._open.pop()
            before.append(self._one(word, tuple(self._arguments)))
            self._arguments = before

    def tree(self, text: str) -> Tree:
        """The tree of all that was read."""
        if self._word is not None:
            self._arguments.append(self._one(self._word, ()))
        if self._wants or self._open or not isinstance(self._arguments[0], Tree):
            raise ValueError(f"not one tree: {_shortened(text)!r}")
        return self._arguments[0]

    def _one(self, word: str, arguments: Tuple[Argument, ...]) -> Tree:
        """The one tree of this word and these arguments, of which each tree is the one that it is."""
        key = (word, *[id(it) if isinstance(it, Tree) else (it,) for it in arguments])
        found = self._trees.get(key)
        if found is None:
            found = self._trees[key] = Tree(word, arguments)
        return found


def term_of(tree: Argument) -> Term:
    """The term of a tree. Anything else is a ValueError."""
    takes = _TAKES.get(tree.word) if isinstance(tree, Tree) else None
    if takes is None or not isinstance(tree, Tree):
        raise ValueError(f"not a term: {tree}")
    arguments = tree.arguments
    if takes == ("number", "order") and len(arguments) == 1:
        arguments += ((),)
    if len(arguments) != len(takes):
        raise ValueError(f"{tree.word} takes another number of arguments")
    number: Optional[int] = None
    order: Tuple[int, ...] = ()
    score: Optional[str] = None
    parts: List[Term] = []
    for kind, argument in zip(takes, arguments):
        if kind == "number" and isinstance(argument, int):
            number = argument
        elif kind == "order" and isinstance(argument, tuple):
            order = argument
        elif kind == "score" and isinstance(argument, Tree) and not argument.arguments:
            score = argument.word
        elif kind == "part":
            parts.append(term_of(argument))
        else:
            raise ValueError(f"{tree.word} takes no {argument}")
    return Term(tree.word, number, order, score, tuple(parts))
