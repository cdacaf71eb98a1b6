"""What the program layer_cases must print: every layer over many series.

A series is a list of whole numbers and a reach.  A layer is refused, at
layer 1 and place 0, with 10 where its shape fails, and then with 9 where
its reach would pass 2**36; else it is again a series.  The lists are made
from the definitions, each in full: nothing is computed place by place.
"""

LONGEST = 12288
FARTHEST = 2 ** 36
RUN = 1048576

FIVE_DAYS = [108, 50, 220, 468, 329]
SIGNS = [-1048576, 7, 1048576, -3, 0, -1048576, 1048575, 12, -99, 5, 1048576]


class Refusal(Exception):
    def __init__(self, cause, place=0):
        self.cause = cause
        self.place = place


class Series:
    def __init__(self, samples, reach):
        assert all(abs(sample) <= reach for sample in samples)
        assert len(samples) <= LONGEST and reach <= FARTHEST
        self.samples = samples
        self.reach = reach

    def __len__(self):
        return len(self.samples)


def probe(length, reach):
    return Series([(5754853343 * k * k + 13) % (2 * reach + 1) - reach
                   for k in range(length)], reach)


def accept(shape, reach):
    if not shape:
        raise Refusal(10)
    if reach > FARTHEST:
        raise Refusal(9)


def window(s, first, count):
    accept(count >= 1 and first + count <= len(s), s.reach)
    return Series(s.samples[first:first + count], s.reach)


def differences(s):
    accept(len(s) >= 2, 2 * s.reach)
    return Series([b - a for a, b in zip(s.samples, s.samples[1:])],
                  2 * s.reach)


def odd_mirror(s):
    accept(len(s) >= 3 and 3 * len(s) - 4 <= LONGEST, 3 * s.reach)
    x = s.samples
    inner = x[1:-1]
    before = [2 * x[0] - z for z in reversed(inner)]
    after = [2 * x[-1] - z for z in reversed(inner)]
    return Series(before + x + after, 3 * s.reach)


def detrended(s):
    half = len(s) // 2
    scale = half * (len(s) - half)
    accept(len(s) >= 2, 5 * scale * s.reach)
    slope = sum(s.samples[-half:]) - sum(s.samples[:half])
    return Series([scale * z - slope * i for i, z in enumerate(s.samples)],
                  5 * scale * s.reach)


def even_mirror(s):
    accept(len(s) >= 1 and 3 * len(s) <= LONGEST, s.reach)
    back = s.samples[::-1]
    return Series(back + s.samples + back, s.reach)


def refused(refusal):
    return '! %d 1 %d' % (refusal.cause, refusal.place)


def checksum(samples):
    found = 0
    for sample in samples:
        found = (found * 1000003 + sample) % 2 ** 64
    return found


def sample(s, place):
    if place >= len(s):
        return refused(Refusal(10, place))
    return 'X %d' % s.samples[place]


def shown(make, *given):
    """A layer's length, reach and checksum, then its samples (of a long
    one, some), and what it answers past its end."""
    try:
        s = make(*given)
    except Refusal as refusal:
        return [refused(refusal)]
    found = ['N %d %d %d' % (len(s), s.reach, checksum(s.samples))]
    step = max(len(s) // 12, 1)
    for place in range(0, len(s), step):
        found.append(sample(s, place))
    for place in (len(s), len(s) + 1, 2 ** 63):
        found.append(sample(s, place))
    return found


def nest(s, first, count):
    return even_mirror(detrended(window(s, first, count)))


def nested_sample(s, first, count, place):
    try:
        return [sample(nest(s, first, count), place)]
    except Refusal as refusal:
        return [refused(refusal)]


def windows():
    most = 2 ** 64 - 1
    cases = [(length, 100, first, count)
             for length in (0, 1, 10)
             for first in (0, 1, 3, 9, 10, 11)
             for count in (0, 1, 4, 9, 10, 11)]
    cases += [(12288, FARTHEST, first, count)
              for first in (0, 1, 12287, 12288)
              for count in (1, 12287, 12288, 12289)]
    cases += [(10, FARTHEST, first, count)
              for first in (0, 1, 2 ** 63, most)
              for count in (1, 2 ** 63, most)]
    for length, reach, first, count in cases:
        yield ('window %d %d %d %d' % (length, reach, first, count),
               window, probe(length, reach), first, count)


def over_lengths(name, make, lengths, reaches):
    for length in lengths:
        for reach in reaches:
            yield ('%s %d %d' % (name, length, reach),
                   make, probe(length, reach))


def every():
    yield from windows()
    yield from over_lengths('differences', differences,
                             (0, 1, 2, 3, 4, 12287, 12288),
                             (0, 1, RUN, 2 ** 35, 2 ** 35 + 1, FARTHEST))
    yield from over_lengths('odd', odd_mirror,
                             (0, 2, 3, 4, 5, 8, 4096, 4097, 4098, 12288),
                             (0, RUN, FARTHEST // 3, FARTHEST // 3 + 1))
    yield from over_lengths('detrended', detrended,
                             (0, 1, 2, 3, 4, 5, 6, 7, 227, 228, 229, 12287,
                              12288),
                             (0, 1, 364, 365, RUN, FARTHEST // 10,
                              FARTHEST // 5, FARTHEST // 5 + 1))
    yield from over_lengths('even', even_mirror,
                             (0, 1, 2, 3, 4, 4095, 4096, 4097, 12288),
                             (0, RUN, FARTHEST))
    for length in (20, 300):
        for first in (0, 1, 7, 17, 204):
            for count in (0, 1, 2, 3, 6, 9, 13, 96, 161, 162, 228, 229):
                s = probe(length, RUN)
                given = '%d %d %d' % (length, first, count)
                yield 'nest %s' % given, nest, s, first, count
                yield ('nest of differences %s' % given,
                       lambda s, *g: nest(differences(s), *g),
                       s, first, count)
                for place in (0, count, 3 * count):
                    yield ('sample %s %d' % (given, place),
                           nested_sample, s, first, count, place)
    for name, samples in (('five', FIVE_DAYS), ('signs', SIGNS)):
        for store in ('packed', 'run'):
            s = Series(samples, RUN)
            where = '%s %s' % (store, name)
            yield '%s window' % where, window, s, 1, 3
            yield '%s differences' % where, differences, s
            yield '%s odd' % where, odd_mirror, s
            yield '%s detrended' % where, detrended, s
            yield '%s even' % where, even_mirror, s
            yield '%s nest' % where, nest, s, 2, 3
            yield ('%s nest of differences' % where,
                   lambda s: nest(differences(s), 1, 3), s)
            yield ('%s odd of even' % where,
                   lambda s: odd_mirror(even_mirror(s)), s)


def lines():
    for name, make, *given in every():
        yield '== ' + name
        if make is nested_sample:
            yield from nested_sample(*given)
        else:
            yield from shown(make, *given)


def printed():
    return ''.join(line + '\n' for line in lines()).encode('ascii')


def plus(s, change):
    """Each sample and its place put through a function."""
    return Series([change(z, i) for i, z in enumerate(s.samples)], 10 ** 6)


def backwards(s):
    return Series(s.samples[::-1], s.reach)


def check_at(length):
    """The laws of the layers, on the lists of one length."""
    s = probe(length, 1000)
    back = backwards(s)
    ramp = plus(s, lambda z, i: 3 * z + 7 - 2 * i)
    drift = plus(s, lambda z, i: 3 * z + 7 - 2 * i + 5 * (i * (i - 1) // 2))
    part = window(s, 1, 2)
    assert (window(ramp, 1, 2).samples
            == plus(part, lambda z, i: 3 * z + 7 - 2 - 2 * i).samples)
    assert (window(back, length - 3, 2).samples == part.samples[::-1])
    steps = differences(s)
    assert (differences(drift).samples
            == plus(steps, lambda z, i: 3 * z - 2 + 5 * i).samples)
    assert differences(back).samples == [-z for z in steps.samples[::-1]]
    half = length // 2
    scale = half * (length - half)
    rise = sum(s.samples[length - half:]) - sum(s.samples[:half])
    flat = detrended(s).samples
    assert detrended(ramp).samples == [3 * z + 7 * scale for z in flat]
    assert (detrended(back).samples
            == [z + rise * (length - 1) for z in flat[::-1]])
    odd = odd_mirror(s)
    assert (odd_mirror(ramp).samples
            == plus(odd, lambda z, i: 3 * z + 7 - 2 * (i - length + 2)).samples)
    assert odd_mirror(back).samples == odd.samples[::-1]
    even = even_mirror(s).samples
    moved = even_mirror(plus(back, lambda z, i: z + 9)).samples
    assert even[:length] == even[2 * length:]
    assert moved[:2 * length] == [z + 9 for z in even[length:]]
    assert moved[length:] == [z + 9 for z in even[:2 * length]]


def check():
    for length in (3, 4, 11, 12, 227):
        check_at(length)
    # by hand
    s = Series([1, 5, 2], 5)
    assert differences(s).samples == [4, -3]
    assert detrended(s).samples == [2, 9, 2]
    assert odd_mirror(s).samples == [-3, 1, 5, 2, -1]
    assert even_mirror(s).samples == [2, 5, 1, 1, 5, 2, 2, 5, 1]
