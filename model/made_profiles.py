"""Makes profiles and their files: canonical ones, ones in loose spelling, and ones with faults."""
from made_rule_files import RuleFileMaker
from profiles import GREATEST_VOTERS
from soc_files import MOST_ALTERNATIVES, SocFile, soc_text

ALTERNATIVES = (1, 2, 2, 3, 3, 3, 3, 4, 4, 4, 5, 5, 6, 7, 8, 10, 16)
LINES = (0, 1, 2, 3, 3, 4, 5, 6, 8, 12)
NAMES = (b'Ito, K.: list A', b'Muller', b'x', b'\xc3\xa9', b'a\tb', b'# y', b'{z}', b'\xff\xfe', b'1')
SKIPPED = (
    b'# TITLE: a: b, c', b'#', b'# number voters: 77', b'# NUMBER VOTERS', b'#NUMBER  VOTERS: 12',
    b'# ALTERNATIVE NAME 0: zero', b'# ALTERNATIVE NAME x: y', b'# ALTERNATIVE NAME: y',
    b'# ALTERNATIVE NAME 99999: far', b'# ALTERNATIVE NAME  1: two blanks', b'## NUMBER VOTERS: 5', b'# : x',
    b'# ALTERNATIVE NAME 1 2: q')


class SocMaker(RuleFileMaker):
    def weight(self):
        kind = self.random.random()
        if kind < 0.75:
            return self.random.randint(0, 6)
        if kind < 0.9:
            return self.random.randint(0, 1000)
        return self.one_of(2 ** 32, 2 ** 63, 2 ** 64 - 1, 2 ** 62, 10 ** 18)

    def votes(self, alternatives=None, lines=None):
        """A number of alternatives, and lines of weights and orders that a profile may have."""
        if alternatives is None:
            alternatives = self.one_of(*ALTERNATIVES)
        if lines is None:
            lines = self.one_of(*LINES)
        has_large_weights, made, voters = self.happens(0.12), [], 0
        for _ in range(lines):
            order = self.shuffled(range(1, alternatives + 1))
            weight = self.weight() if has_large_weights else self.one_of(0, 1, 1, 1, 2, 2, 3, 4, 5)
            if voters + weight > GREATEST_VOTERS:
                weight = self.random.randint(0, 3)
            if voters + weight > GREATEST_VOTERS:
                weight = 0
            voters += weight
            made.append((weight, tuple(order)))
        return alternatives, made

    def shuffled(self, some):
        some = list(some)
        self.random.shuffle(some)
        return some

    def blank(self, loose):
        """What may stand around a part of a line."""
        return self.one_of(b'', b'', b' ', b'\t', b'  ', b'\r') if loose else b''

    def space(self, loose):
        """What may stand where one space is usual."""
        return self.one_of(b'', b' ', b' ', b' ', b'\t') if loose else b' '

    def soc(self, votes=None):
        """A file that is accepted."""
        alternatives, lines = votes or self.votes()
        named = []
        if self.happens(0.4):
            named = sorted(self.random.sample(range(1, alternatives + 1), self.random.randint(0, alternatives)))
        file = SocFile(alternatives, lines, [(number, self.one_of(*NAMES)) for number in named])
        if self.happens(0.25):
            return soc_text(file)
        loose = self.happens(0.7)
        metadata = self.metadata(file, loose)
        return self.file_of(self.all_lines(file, metadata, loose), loose)

    def metadata(self, file, loose):
        blank, space, number = (lambda: self.blank(loose)), (lambda: self.space(loose)), self.number_text
        lines = []
        if self.happens(0.4):
            lines.append(b'#' + space() + b'DATA TYPE' + blank() + b':' + space() + self.one_of(b'soc', b'SOC', b'Soc'))
        if self.happens(0.5):
            lines.append(b'#' + space() + b'NUMBER VOTERS:' + space() + number(file.voters(), loose))
        if self.happens(0.5):
            lines.append(
                b'#' + space() + b'NUMBER UNIQUE ORDERS' + blank() + b':' + space() + number(len(file.lines), loose))
        for one, name in file.names:
            lines.append(b'#' + space() + b'ALTERNATIVE NAME ' + number(one, loose) + blank() + b':' + space() + name)
        if file.names and loose and self.happens(0.4):      # a second name, or an empty one
            one, _ = self.one_of(*file.names)
            lines.append(b'# ALTERNATIVE NAME %d:' % one + self.one_of(b'', b' ', b' other', b'\t\r'))
        return lines + [self.one_of(*SKIPPED) for _ in range(self.one_of(0, 0, 1, 2))]

    def all_lines(self, file, metadata, loose):
        votes = [self.line_of_votes(line, loose) for line in file.lines]
        count = b'#' + self.space(loose) + b'NUMBER ALTERNATIVES' + self.blank(loose) + b':'
        count += self.space(loose) + self.number_text(file.alternatives, loose)
        lines = [count] + metadata
        if not loose:
            return lines + votes
        self.random.shuffle(lines)
        lines = self.with_votes(lines, lines.index(count) + 1, votes)
        if self.happens(0.2):
            lines.insert(self.random.randrange(len(lines) + 1), self.one_of(b'', b' ', b'\t\r'))
        return lines + [count] if self.happens(0.15) else lines

    def line_of_votes(self, line, loose):
        weight, order = line
        head = self.number_text(weight, loose) + self.blank(loose) + b':' + self.space(loose)
        comma = self.blank(loose) + b',' + self.blank(loose)
        return head + comma.join(self.number_text(one, loose) for one in order)

    def with_votes(self, lines, counted, votes):
        """Metadata and votes, in some files between each other behind the number of alternatives."""
        if not (self.happens(0.3) and votes):
            return lines + votes
        mixed = list(votes)
        for line in lines[counted:]:
            mixed.insert(self.random.randrange(len(mixed) + 1), line)
        return lines[:counted] + mixed

    def file_of(self, lines, loose):
        line_end = self.one_of(b'\n', b'\n', b'\r\n') if loose else b'\n'
        text = b''
        for number, line in enumerate(lines, 1):
            text += self.blank(loose) + line + self.blank(loose)
            text += line_end if number < len(lines) or self.happens(0.7) else b''
        return b'\xef\xbb\xbf' + text if loose and self.happens(0.12) else text

    def bad_soc(self):
        """A file in which some lines were put in, replaced or taken out, or some bytes changed."""
        alternatives, votes = self.votes(self.one_of(1, 2, 3, 3, 4, 5))
        file = self.soc((alternatives, votes))
        if self.happens(0.2):
            return self.changed_bytes(file)
        lines = file.split(b'\n')
        order = self.shuffled(b'%d' % one for one in range(1, alternatives + 1))
        line = self.one_of(*faulty_lines(alternatives, order))
        times = self.one_of(1, 1, 1, 2)
        if self.happens(0.25):
            line = self.one_of(*common_faults(alternatives, order))
        if line.startswith(b'# NUMBER ') and self.happens(0.4):
            times = 2
        for _ in range(times):
            self.spoil(lines, line)
        return b'\n'.join(lines)

    def spoil(self, lines, line):
        place = self.random.randrange(len(lines) + 1)
        if line[:1] != b'#' and self.happens(0.7):
            place = len(lines)
        kind = self.random.random()
        if kind < 0.7:
            lines.insert(place, line)
        elif kind < 0.9 and place < len(lines):
            lines[place] = line
        elif place < len(lines):
            del lines[place]

    def some_soc(self):
        return self.soc() if self.happens(0.65) else self.bad_soc()


def faulty_lines(alternatives, order):
    """Lines most of which no file of so many alternatives may have, with an order of all of them."""
    full = b','.join(order)
    counts = [b'', b'0', b'x', b'000', b'-1', b'3.0'] + [b'%d' % number for number in (
        MOST_ALTERNATIVES + 1, MOST_ALTERNATIVES, 99999999999999999999999, alternatives + 1, max(1, alternatives - 1))]
    voters = [b' x', b'', b' 18446744073709551616', b' 18446744073709551615', b' 0', b' 1']
    orders = [b'18446744073709551616', b'7', b'-', b'0']
    heads = [b':', b' : ', b'x: ', b'1 2: ', b'-1: ', b'1.5: ', b'+1: ']
    weights = [b'18446744073709551615', b'18446744073709551616', b'99999999999999999999999999999']
    return (
        [b'# DATA TYPE: toc', b'# DATA TYPE:', b'# DATA TYPE: soc x']
        + [b'# NUMBER ALTERNATIVES: ' + count for count in counts] + [b'# NUMBER VOTERS:' + count for count in voters]
        + [b'# NUMBER UNIQUE ORDERS: ' + count for count in orders] + [b'4 1,2,3', full]
        + [head + full for head in heads]
        + [b'1: {' + full + b'}', b'1: ' + full.replace(b',', b',{', 1) + b'}', b'{1}: ' + full, b'1:', b'1: ',
           b'1: ' + full + b',', b'1: ,' + full, b'1: x,' + full, b'1: ' + full + b',1', b'1: 0,' + full,
           b'1: %d' % (alternatives + 1), b'1: 99999999999999999999999999', b'1: 1,1', b'1: 1',
           b'1: ' + full.rsplit(b',', 1)[0], b'1: 1 2', b'1: ' + full + b':', b'1: 1:2']
        + [weight + b': ' + full for weight in weights]
        + [b'1: x,{', b'x: {', b'1: 1,\xef\xbb\xbf2', b'\xef\xbb\xbf1: ' + full, b'\xff', b'hello', b'1: 01,' + full,
           b'9: ' + full])


def common_faults(alternatives, order):
    """Faults that come late among the checks of a line or of a file, which chance alone would seldom make."""
    full = b','.join(order)
    return (
        b'# NUMBER UNIQUE ORDERS: 7', b'# NUMBER VOTERS: 1000', b'1: ' + full.rsplit(b',', 1)[0],
        b'1: ' + full.replace(b',', b',{', 1) + b'}', b'1: 0,' + full, b'1: ' + full + b',' + order[0], b'1 ' + full,
        b'1: ' + full + b',%d' % (alternatives + 1))
