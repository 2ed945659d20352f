"""Profiles as files: PrefLib's layout of strict complete orders."""
from profiles import GREATEST_VOTERS, MOST_LINES, Profile
from tokens import Fault, is_number, number_of

LONGEST_FILE = 268_435_456
MOST_ALTERNATIVES = 1024
BLANKS = b' \t\r'
BYTE_ORDER_MARK = b'\xef\xbb\xbf'
NAME_KEY = b'ALTERNATIVE NAME '
VOTERS_KEY, ORDERS_KEY = b'NUMBER VOTERS', b'NUMBER UNIQUE ORDERS'


class SocFile:
    """What an accepted file says: the number of alternatives, its lines of votes, and names by ascending number."""

    def __init__(self, alternatives, lines, names):
        self.alternatives, self.lines, self.names = alternatives, lines, names

    def profile(self):
        return Profile(range(1, self.alternatives + 1), self.lines)

    def voters(self):
        return sum(weight for weight, _ in self.lines)

    def parts(self):
        return self.alternatives, self.lines, self.names


class SoFar:
    """What the lines so far have said."""

    def __init__(self):
        self.alternatives = None
        self.counts = {}        # of a key: its value, and the first line that has it
        self.names = {}
        self.lines = []
        self.voters = 0

    def judge(self, line, number):
        """One line without its line feed; a fault of it is raised."""
        line = line.strip(BLANKS)
        if line.startswith(b'#'):
            self.judge_metadata(line[1:], number)
        elif line:
            self.judge_votes(line, number)

    def judge_metadata(self, text, number):
        key, colon, value = text.partition(b':')
        if not colon:
            return
        key, value = key.strip(BLANKS), value.strip(BLANKS)
        if key == b'DATA TYPE':
            if value.lower() != b'soc':
                raise Fault('WrongType', number)
        elif key == b'NUMBER ALTERNATIVES':
            self.judge_alternatives(value, number)
        elif key in (VOTERS_KEY, ORDERS_KEY):
            self.judge_count(key, value, number)
        elif key.startswith(NAME_KEY):
            named = key[len(NAME_KEY):]
            if is_number(named) and number_of(named) >= 1:
                self.names[number_of(named)] = value

    def judge_alternatives(self, value, number):
        if not is_number(value) or number_of(value) == 0:
            raise Fault('BadNumber', number)
        alternatives = number_of(value)
        if alternatives > MOST_ALTERNATIVES:
            raise Fault('TooManyAlternatives', number)
        if self.alternatives not in (None, alternatives):
            raise Fault('CountDiffers', number)
        self.alternatives = alternatives

    def judge_count(self, key, value, number):
        if not is_number(value) or number_of(value) > GREATEST_VOTERS:
            raise Fault('BadNumber', number)
        first, _ = self.counts.setdefault(key, (number_of(value), number))
        if first != number_of(value):
            raise Fault('CountDiffers', number)

    def judge_votes(self, line, number):
        if self.alternatives is None:
            raise Fault('NoAlternativeCount', number)
        count, colon, order = line.partition(b':')
        count = count.strip(BLANKS)
        if not colon:
            raise Fault('NoColon', number)
        if not is_number(count):
            raise Fault('BadCount', number)
        if b'{' in order or b'}' in order:
            raise Fault('Tie', number)
        order = self.order_of(order, number)
        if len(self.lines) == MOST_LINES:
            raise Fault('TooManyOrders', number)
        if self.voters + number_of(count) > GREATEST_VOTERS:
            raise Fault('TooManyVoters', number)
        self.voters += number_of(count)
        self.lines.append((number_of(count), order))

    def order_of(self, text, number):
        order = {}      # its keys, in order
        for entry in text.split(b','):
            entry = entry.strip(BLANKS)
            if not is_number(entry):
                raise Fault('BadEntry', number)
            alternative = number_of(entry)
            if not 1 <= alternative <= self.alternatives:
                raise Fault('OutOfRange', number)
            if alternative in order:
                raise Fault('Repeated', number)
            order[alternative] = None
        if len(order) < self.alternatives:
            raise Fault('Short', number)
        return tuple(order)

    def end(self, last):
        """The file, when all lines have been judged, of which the last has this number."""
        if self.alternatives is None:
            raise Fault('NoAlternativeCount', last)
        for key, counted, kind in (
                (VOTERS_KEY, self.voters, 'VotersDiffer'), (ORDERS_KEY, len(self.lines), 'OrdersDiffer')):
            stated, line = self.counts.get(key, (counted, None))
            if stated != counted:
                raise Fault(kind, line)
        names = sorted((one, text) for one, text in self.names.items() if one <= self.alternatives and text)
        return SocFile(self.alternatives, self.lines, names)


def lines_of(data):
    """Lines without their line feeds, and without a byte order mark at the very front."""
    return data.removeprefix(BYTE_ORDER_MARK).split(b'\n')


def read_soc(data, longest=LONGEST_FILE):
    """What all bytes of a file say; its first fault is raised."""
    fault = settled_fault(data, longest)
    if fault is not None:
        raise fault
    so_far, lines = SoFar(), lines_of(data)
    for number, line in enumerate(lines, 1):
        so_far.judge(line, number)
    return so_far.end(len(lines))


def settled_fault(data, longest=LONGEST_FILE):
    """The fault that these bytes settle, whatever comes behind them, or None."""
    so_far, lines = SoFar(), lines_of(data[:longest])
    try:
        for number, line in enumerate(lines[:-1], 1):
            so_far.judge(line, number)
    except Fault as fault:
        return fault
    return Fault('FileTooLong', len(lines)) if len(data) > longest else None


class SocReader:
    """The same by pieces: a line is judged when its line feed comes."""

    def __init__(self, longest=LONGEST_FILE):
        self.so_far = SoFar()
        self.longest = longest
        self.open = []          # pieces of the line that isn't ended yet
        self.number = 1         # and its number
        self.size = 0
        self.fault = None

    def feed(self, piece):
        if self.fault is None:
            try:
                self._take(piece)
            except Fault as fault:
                self.fault = fault
        if self.fault is not None:
            raise self.fault

    def _take(self, piece):
        room = max(self.longest - self.size, 0)
        self.size += len(piece)
        *ended, rest = piece[:room].split(b'\n')
        for end in ended:
            self.open.append(end)
            self._line()
        self.open.append(rest)
        if self.size > self.longest:
            raise Fault('FileTooLong', self.number)

    def _line(self):
        line, self.open = b''.join(self.open), []
        self.so_far.judge(line.removeprefix(BYTE_ORDER_MARK) if self.number == 1 else line, self.number)
        self.number += 1

    def finish(self):
        if self.fault is not None:
            raise self.fault
        self._line()
        return self.so_far.end(self.number - 1)


def soc_text(file):
    """The canonical text of a file."""
    head = (
        f'# DATA TYPE: soc\n# NUMBER ALTERNATIVES: {file.alternatives}\n# NUMBER VOTERS: {file.voters()}\n'
        f'# NUMBER UNIQUE ORDERS: {len(file.lines)}\n')
    names = [b'# ALTERNATIVE NAME %d: %s\n' % name for name in file.names]
    votes = [f'{weight}: {",".join(map(str, order))}\n' for weight, order in file.lines]
    return head.encode() + b''.join(names) + ''.join(votes).encode()
