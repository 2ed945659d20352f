"""Manifests: the names of many profiles, one a line."""
from tokens import Fault

LONGEST_MANIFEST = 1_048_576
MOST_NAMES = 10_000


def read_manifest(data):
    if len(data) > LONGEST_MANIFEST:
        raise Fault('TextTooLong', LONGEST_MANIFEST)
    names, start = [], 0
    for line in data.split(b'\n'):
        name = line.removesuffix(b'\r')
        if name:
            names.append(read_name(name, start))
        if len(names) > MOST_NAMES:
            raise Fault('TooLarge', start)
        start += len(line) + 1
    return names


def read_name(name, start):
    try:
        return name.decode('utf-8')
    except UnicodeDecodeError:
        raise Fault('BadByte', start) from None
