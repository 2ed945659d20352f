"""Makes the files of a case smaller as long as program and model still differ on it in the same way."""
import re

MOST_TRIES = 400
LONGEST_BY_BYTES = 400
LONGEST_BY_TOKENS = 20_000
BETWEEN_TOKENS = re.compile(rb'(?<=\n)|(?<=[(),;=\s])')


def shape(difference):
    """What kind of difference it is: both statuses, both lines but for numbers, and whether the outputs are equal."""
    def of(answer):
        status, _, err = answer
        return status, re.sub(rb'\d+', b'N', err)
    return of(difference.wanted), of(difference.got), difference.wanted[1] == difference.got[1]


class Shrinking:
    """The files of a case, which go on to differ in one way; `difference_of` compares on files."""

    def __init__(self, difference_of, files, difference):
        self.difference_of, self.files, self.difference = difference_of, dict(files), difference
        self.shape = shape(difference)
        self.tries = 0

    def take(self, files):
        """Goes on with these files if they differ in the same way."""
        if self.tries == MOST_TRIES:
            return False
        self.tries += 1
        difference = self.difference_of(files)
        if difference is None or shape(difference) != self.shape:
            return False
        self.files, self.difference = files, difference
        return True

    def leave_out_file(self, name):
        self.take({other: content for other, content in self.files.items() if other != name})

    def leave_out_parts(self, name, parts, length):
        """Tries to leave out each run of so many parts of a file; answers the parts that stay."""
        place = 0
        while place < len(parts):
            fewer = parts[:place] + parts[place + length:]
            if self.take({**self.files, name: b''.join(fewer)}):
                parts = fewer
            else:
                place += length
        return parts

    def shrink_file(self, name):
        content = self.files[name]
        parts = content.splitlines(True) if len(content) > LONGEST_BY_TOKENS else BETWEEN_TOKENS.split(content)
        length = max(1, len(parts) // 2)
        while length > 1:
            parts = self.leave_out_parts(name, parts, length)
            length //= 2
        parts = self.leave_out_parts(name, parts, 1)
        if len(self.files[name]) <= LONGEST_BY_BYTES:
            self.leave_out_parts(name, [bytes([byte]) for byte in self.files[name]], 1)


def made_smaller(difference_of, files, difference):
    """The smaller files, and how program and model differ on them."""
    shrinking = Shrinking(difference_of, files, difference)
    for name in sorted(files):
        shrinking.leave_out_file(name)
    for name in sorted(shrinking.files):
        shrinking.shrink_file(name)
    return shrinking.files, shrinking.difference
