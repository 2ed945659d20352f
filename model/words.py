"""The words of a call, and the command that they are."""
from typing import NamedTuple

from profiles import GREATEST_VOTERS as GREATEST_SEED
from properties import NUMBERED, ON_LIFTS, WORDS, Property, property_text
from rule_files import Trees, Typing
from soc_files import MOST_ALTERNATIVES
from synthesis import all_modules
from terms import ELIMINATIONS, GREATEST_NUMBER, is_module, term_text
from tokens import Fault, is_number, number_of, tokens_of

COMMANDS = (
    'count', 'report', 'prove', 'check', 'synth', 'drill', 'listing', 'position', 'refute', 'simplify', 'batch',
    'explain', 'pairs', 'find', 'differ')

# how many words may stand behind these commands, which are all names of files
FILES = {
    'count': 2, 'report': 2, 'explain': 2, 'batch': 2, 'check': 1, 'listing': 1, 'simplify': 1, 'pairs': 1}

GREATEST_SEARCH = 15
MOST_MODULES = 64
MOST_PROPERTIES = 32
MOST_DRILLED_LINES = 100_000
MOST_DRILLED_ALTERNATIVES = 128
MOST_WEIGHTS = 1024
GREATEST_WEIGHT = 1_000_000
MOST_TRIED_ALTERNATIVES = 6
MOST_TRIED_VOTERS = 1000
MOST_PARTS = 10_000


class Command(NamedTuple):
    name: str
    arguments: list


def number_word(word, least, greatest):
    """The value of a word of digits within these limits, else None."""
    text = word.encode('utf-8', 'surrogateescape')
    return number_of(text) if is_number(text) and least <= number_of(text) <= greatest else None


def printed_number(word, least, greatest):
    """The same of a number as it is printed: without zeros ahead of it."""
    number = number_word(word, least, greatest)
    return number if str(number) == word else None


def property_word(word):
    """The property whose text a word is, else None."""
    name, opened, inside = word.partition('(')
    if name not in WORDS or (name in NUMBERED) != bool(opened):
        return None
    of = Property(name, printed_number(inside[:-1], 1, GREATEST_NUMBER) if opened else None)
    return of if property_text(of) == word else None


def module_word(word):
    """The module whose text a word is, else None."""
    text = word.encode('utf-8', 'surrogateescape')
    try:
        trees = Trees(text, tokens_of(text))
        module = Typing({}).term(trees.tree())
    except Fault:
        return None
    return module if is_module(module) and term_text(module) == word else None


def weights_word(word):
    """The weights that a word lists, which never rise, else None."""
    weights = [printed_number(part, 0, GREATEST_WEIGHT) for part in word.split(',')]
    if None in weights or len(weights) > MOST_WEIGHTS:
        return None
    return weights if weights == sorted(weights, reverse=True) else None


def unless_one_is_wanting(arguments):
    return None if None in arguments else arguments


def prove_arguments(words):
    if len(words) != 2:
        return None
    return unless_one_is_wanting([words[0], property_word(words[1])])


def synth_arguments(words):
    if len(words) not in (2, 3):
        return None
    wanted = [property_word(word) for word in words[1].split(',')]
    modules = [module_word(word) for word in words[2].split(';')] if len(words) == 3 else all_modules()
    if None in wanted + modules or len(wanted) > MOST_PROPERTIES or len(modules) > MOST_MODULES:
        return None
    return unless_one_is_wanting([number_word(words[0], 1, GREATEST_SEARCH), wanted, modules])


def drill_arguments(words):
    if len(words) != 3:
        return None
    return unless_one_is_wanting([
        number_word(words[0], 0, GREATEST_SEED), number_word(words[1], 1, MOST_DRILLED_LINES),
        number_word(words[2], 1, MOST_DRILLED_ALTERNATIVES)])


def position_arguments(words):
    if len(words) != 3 or words[1] not in ELIMINATIONS:
        return None
    return unless_one_is_wanting([weights_word(words[0]), words[1], words[2]])


def refute_arguments(words):
    property = property_word(words[1]) if len(words) in (3, 5) else None
    if property is None or property.word == 'neut' or (property.word in ON_LIFTS) != (len(words) == 5):
        return None
    alternatives = [number_word(word, 1, MOST_ALTERNATIVES) for word in words[4:]]
    return unless_one_is_wanting([words[0], property] + words[2:4] + alternatives)


def sizes(words):
    """How many alternatives and voters a search goes up to."""
    return [number_word(words[0], 1, MOST_TRIED_ALTERNATIVES), number_word(words[1], 0, MOST_TRIED_VOTERS)]


def find_arguments(words):
    if len(words) not in (4, 6):
        return None
    arguments = [words[0], property_word(words[1]), *sizes(words[2:4])]
    if len(words) == 6:
        parts = number_word(words[5], 1, MOST_PARTS)
        arguments += [number_word(words[4], 1, parts or 0), parts]
    return unless_one_is_wanting(arguments)


def differ_arguments(words):
    return unless_one_is_wanting(words[:2] + sizes(words[2:])) if len(words) == 4 else None


OTHERS = {
    'prove': prove_arguments, 'synth': synth_arguments, 'drill': drill_arguments, 'position': position_arguments,
    'refute': refute_arguments, 'find': find_arguments, 'differ': differ_arguments}


def command_of(words, commands=COMMANDS):
    """The command that words are, of those that there are; None where they are none."""
    if not words or words[0] not in commands:
        return None
    name, rest = words[0], words[1:]
    if name in FILES:
        return Command(name, rest) if len(rest) == FILES[name] else None
    arguments = OTHERS[name](rest)
    return None if arguments is None else Command(name, arguments)
