"""Numbers and tokens of texts, and the fault of a text that isn't in its format."""
from typing import NamedTuple

DIGITS = frozenset(b'0123456789')
LETTERS = frozenset(b'abcdefghijklmnopqrstuvwxyzABCDEFGHIJKLMNOPQRSTUVWXYZ')
OF_A_WORD = LETTERS | DIGITS | frozenset(b'_-')
SIGNS = frozenset(b'()[],;=')
BETWEEN = frozenset(b' \t\r\n')

# numbers of more digits than this are past every limit
LONGEST_NUMBER = 4000


class Fault(Exception):
    """What is wrong first, and where: the byte of a text, or the line of a profile."""

    def __init__(self, kind, place):
        super().__init__(kind, place)
        self.kind, self.place = kind, place


def is_number(text):
    return len(text) > 0 and all(byte in DIGITS for byte in text)


def number_of(text):
    digits = text.lstrip(b'0')
    return int(digits or b'0') if len(digits) <= LONGEST_NUMBER else 10 ** LONGEST_NUMBER


class Token(NamedTuple):
    """A word, a number, or a sign (which is its own kind), and where it stands."""
    kind: str
    start: int
    end: int


def tokens_of(text):
    """The tokens of a text that is well-formed so far."""
    tokens, place = [], 0
    while place < len(text):
        byte = text[place]
        if byte in BETWEEN:
            place += 1
        elif byte == ord('#'):
            line_end = text.find(b'\n', place)
            place = len(text) if line_end < 0 else line_end
        else:
            tokens.append(token_at(text, place))
            place = tokens[-1].end
    return tokens


def token_at(text, place):
    byte = text[place]
    if byte in LETTERS:
        return Token('word', place, end_of_run(text, place, OF_A_WORD))
    if byte in DIGITS:
        return Token('number', place, end_of_run(text, place, DIGITS))
    if byte in SIGNS:
        return Token(chr(byte), place, place + 1)
    raise Fault('BadByte', place)


def end_of_run(text, place, allowed):
    while place < len(text) and text[place] in allowed:
        place += 1
    return place
