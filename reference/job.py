#!/usr/bin/env python3
"""Work a job text for a clock stability bench.

Reads the text (bytes) on standard input and prints one answer line for each
line of it.  All arithmetic is on exact integers.

A line is one of

    A sample              add a sample
    S                     strike the newest sample off
    P name factor part    one part of a statistic: its total and its divisor
    V name factor         the read-out of a statistic
    R                     release the run

and an answer is `A count`, `S count`, `R count`, `P total divisor`,
`V readout`, or `! cause layer place` for a refusal.
"""

import re
import sys

TEXT_LIMIT = 65536              # bytes in a text
RUN_LIMIT = 4096                # samples in a run
SAMPLE_LIMIT = 1048576          # size of a sample the bench takes
ROOT_LIMIT = 4294967295         # size of a root the bench squares
WORD_LIMIT = 2 ** 64 - 1        # largest number, total and read-out
SCALE = 4096                    # a read-out counts in 4096ths


class Refusal(Exception):
    def __init__(self, cause, layer, place):
        super().__init__(cause, layer, place)
        self.cause = cause
        self.layer = layer
        self.place = place


# ---------------------------------------------------------------------------
# The form of a line
# ---------------------------------------------------------------------------
#
# Each sort of field has two patterns: one for the whole field and one for
# every beginning of it (the empty one too).

SORTS = {
    'sample': (rb'-?[0-9]+', rb'-?[0-9]*'),
    'number': (rb'[0-9]+', rb'[0-9]*'),
    'name': (rb'[a-z0-9]+', rb'[a-z0-9]*'),
}

# The values a number of each sort may have.
VALUES = {
    'sample': (-2 ** 63, 2 ** 63 - 1),
    'number': (0, 2 ** 64 - 1),
}

# The sorts of the fields after each letter.
KINDS = {
    b'A': ('sample',),
    b'S': (),
    b'P': ('name', 'number', 'number'),
    b'V': ('name', 'number'),
    b'R': (),
}


def whole_pattern(letter, sorts):
    """The pattern of a whole line (sizes of numbers left aside)."""
    return b' '.join([letter] + [SORTS[sort][0] for sort in sorts])


def prefix_pattern(letter, sorts):
    """The pattern of every beginning of such a line.

    A beginning is some whole pieces and then a beginning of the next piece;
    the pieces are the letter, then a space and a field for each field.
    """
    pieces = [(letter, letter + b'?')]
    for sort in sorts:
        pieces.append((b' ', b' ?'))
        pieces.append(SORTS[sort])
    ways = []
    for i in range(len(pieces)):
        done = b''.join(whole for whole, _ in pieces[:i])
        ways.append(b'(?:' + done + pieces[i][1] + b')')
    return b'|'.join(ways)


WHOLE = re.compile(b'|'.join(
    b'(?:' + whole_pattern(letter, sorts) + b')'
    for letter, sorts in KINDS.items()))

PREFIX = re.compile(b'|'.join(
    b'(?:' + prefix_pattern(letter, sorts) + b')'
    for letter, sorts in KINDS.items()))


def can_be_continued(beginning):
    return PREFIX.fullmatch(beginning) is not None


def longest_good_beginning(line):
    """The length of the longest beginning of line that can be continued.

    A beginning of a good beginning is good, so the good lengths are
    0 .. k for some k, and halving finds k.  (check.py also tries every
    length in turn and compares.)
    """
    low, high = 0, len(line)            # low is good, nothing above high is
    while low < high:
        middle = (low + high + 1) // 2
        if can_be_continued(line[:middle]):
            low = middle
        else:
            high = middle - 1
    return low


def value_of(field):
    """The value of a field of digits, perhaps after one minus.

    More than 40 digits after the leading zeros are too large for any field;
    such a field is cut to 40, which leaves it too large.
    """
    minus = field.startswith(b'-')
    digits = field[1:] if minus else field
    digits = digits.lstrip(b'0')[:40] or b'0'
    return -int(digits) if minus else int(digits)


def numbers_in(beginning):
    """(first byte, value, sort) of each number in a good beginning."""
    found = []
    place = 0
    fields = beginning.split(b' ')
    sorts = ('letter',) + KINDS.get(fields[0], ())
    for field, sort in zip(fields, sorts):
        if sort in VALUES and re.fullmatch(SORTS[sort][0], field):
            found.append((place, value_of(field), sort))
        place += len(field) + 1
    return found


def fault_in(line):
    """The place at which a line is not formed, or None for a formed line."""
    places = []
    good = longest_good_beginning(line)
    if good < len(line):
        places.append(good)             # the byte here cannot continue
    elif WHOLE.fullmatch(line) is None:
        places.append(len(line))        # it ends too early
    for place, value, sort in numbers_in(line[:good]):
        least, most = VALUES[sort]
        if not least <= value <= most:
            places.append(place)        # a number too large
    return min(places) if places else None


def read_line(line):
    """The letter and the fields of a line, or refusal 15."""
    fault = fault_in(line)
    if fault is not None:
        raise Refusal(15, 3, fault)
    words = line.split(b' ')
    letter, words = words[0], words[1:]
    fields = [word.decode('ascii') if sort == 'name' else value_of(word)
              for word, sort in zip(words, KINDS[letter])]
    return letter.decode('ascii'), fields


# ---------------------------------------------------------------------------
# The statistics
# ---------------------------------------------------------------------------
#
# A statistic says which factors it takes, which counts are enough, how many
# parts it has, and for a part: how many terms, the root of each term (terms
# numbered from 1) and the divisor.  x(1) is the oldest sample.

class Avar:
    @staticmethod
    def takes(m):
        return m != 0

    @staticmethod
    def enough(count, m):
        return 2 * m < count

    @staticmethod
    def parts(count, m):
        return 1

    @staticmethod
    def terms(count, m, part):
        return count - 2 * m

    @staticmethod
    def root(x, m, part, n):
        return x(n) - 2 * x(n + m) + x(n + 2 * m)

    @staticmethod
    def divisor(count, m, part):
        return 2 * m * m * (count - 2 * m)


STATISTICS = {
    'avar': Avar,
}


def check_factor(statistic, samples, m):
    if len(samples) > RUN_LIMIT:
        raise Refusal(4, 2, 0)
    if not statistic.takes(m):
        raise Refusal(5, 2, 0)
    if not statistic.enough(len(samples), m):
        raise Refusal(6, 2, 0)


def total_of(statistic, samples, m, part):
    """The sum of the squared roots of one part, or refusal 8."""
    def x(n):
        if not 1 <= n <= len(samples):
            raise AssertionError('no such sample')
        return samples[n - 1]

    total = 0
    for term in range(statistic.terms(len(samples), m, part)):
        root = statistic.root(x, m, part, term + 1)
        if not -ROOT_LIMIT <= root <= ROOT_LIMIT:
            raise Refusal(8, 2, term)
        total += root * root
        if total > WORD_LIMIT:
            raise Refusal(8, 2, term)
    return total


def part_of(statistic, samples, m, j):
    """Total and divisor of part j."""
    check_factor(statistic, samples, m)
    if j == 0 or j > statistic.parts(len(samples), m):
        raise Refusal(7, 2, j)
    total = total_of(statistic, samples, m, j)
    return total, statistic.divisor(len(samples), m, j)


def readout_of(statistic, samples, m):
    """The sum of the floors of 4096 * total / divisor over the parts."""
    check_factor(statistic, samples, m)
    count = len(samples)
    readout = 0
    for j in range(1, statistic.parts(count, m) + 1):
        total = total_of(statistic, samples, m, j)
        readout += SCALE * total // statistic.divisor(count, m, j)
        if readout > WORD_LIMIT:
            raise Refusal(8, 2, statistic.terms(count, m, j))
    return readout


# ---------------------------------------------------------------------------
# The run
# ---------------------------------------------------------------------------

class Bench:
    def __init__(self):
        self.samples = []
        self.released = False

    def add(self, sample):
        held = len(self.samples)
        if held >= RUN_LIMIT:
            raise Refusal(2, 3, held)
        if not -SAMPLE_LIMIT <= sample <= SAMPLE_LIMIT:
            raise Refusal(1, 3, held)
        self.samples.append(sample)

    def strike(self):
        if not self.samples:
            raise Refusal(3, 3, 0)
        self.samples.pop()

    def work(self, line):
        """The answer to one line."""
        letter, fields = read_line(line)
        if letter in ('A', 'S', 'R') and self.released:
            raise Refusal(16, 3, 0)
        if letter in ('P', 'V') and fields[0] not in STATISTICS:
            raise Refusal(17, 3, 0)
        if letter == 'A':
            self.add(fields[0])
            return 'A %d' % len(self.samples)
        if letter == 'S':
            self.strike()
            return 'S %d' % len(self.samples)
        if letter == 'R':
            self.released = True
            return 'R %d' % len(self.samples)
        statistic = STATISTICS[fields[0]]
        if letter == 'P':
            return 'P %d %d' % part_of(statistic, self.samples, *fields[1:])
        return 'V %d' % readout_of(statistic, self.samples, fields[1])

    def answer(self, line):
        try:
            return self.work(line)
        except Refusal as refusal:
            return '! %d %d %d' % (refusal.cause, refusal.layer, refusal.place)


def lines_of(text):
    lines = text.split(b'\n')
    if lines[-1] == b'':
        lines.pop()             # nothing stands after the last line's end
    return lines


def answers_to(text):
    if len(text) > TEXT_LIMIT:
        return ['! 15 3 %d' % TEXT_LIMIT]
    bench = Bench()
    return [bench.answer(line) for line in lines_of(text)]


def main():
    text = sys.stdin.buffer.read(TEXT_LIMIT + 1)
    output = ''.join(answer + '\n' for answer in answers_to(text))
    sys.stdout.buffer.write(output.encode('ascii'))


if __name__ == '__main__':
    main()
