#!/usr/bin/env python3
"""Check job.py: known places, and the slow way against the quick way; and the
laws of the layers in layers.py."""

import random

import job
import layers
import make_cases

# A line and the place of its refusal 15 (None: formed).
KNOWN = [
    (b'', 0), (b'Q', 0), (b' A 1', 0), (b'A', 1), (b'A ', 2), (b'A -', 3),
    (b'A  1', 2), (b'A 1 ', 3), (b'A 1x', 3), (b'A 99999999999999999999x', 2),
    (b'S ', 1), (b'P avar 1', 8), (b'A --1', 3), (b'A - 1', 3), (b'A +1', 2),
    (b'A -0', None), (b'A 007', None), (b'S', None), (b'R', None),
    (b'A 9223372036854775807', None), (b'A 9223372036854775808', 2),
    (b'A -9223372036854775808', None), (b'A -9223372036854775809', 2),
    (b'V a 18446744073709551615', None), (b'V a 18446744073709551616', 4),
    (b'V a 18446744073709551616 ', 4), (b'V a -1', 4), (b'V A 1', 2),
    (b'P a 18446744073709551616', 4), (b'P a 1 18446744073709551616 ', 6),
    (b'P a x 18446744073709551616', 4), (b'P 18446744073709551616 1 1', None),
]


def slow_beginning(line):
    good = 0
    while good < len(line) and job.can_be_continued(line[:good + 1]):
        good += 1
    return good


def really_continues(beginning):
    """Some of a few endings makes a formed line of it (sizes aside)."""
    endings = [b'', b'S', b' 1', b'1', b' a 1 1', b'a 1 1', b' 1 1', b'1 1',
               b' a 1', b'a 1']
    return any(job.WHOLE.fullmatch(beginning + ending) for ending in endings)


def refusal(work, *given):
    try:
        work(*given)
    except job.Refusal as r:
        return r.cause, r.layer, r.place
    return None


def check_bench():
    """What samples of a job cannot reach, and totals by another way."""
    avar = job.STATISTICS['avar']
    part, readout = job.part_of, job.readout_of
    top = 4294967295
    assert refusal(part, avar, [0] * 4097, 0, 0) == (4, 2, 0)
    assert refusal(part, avar, [0, 0], 0, 0) == (5, 2, 0)
    assert refusal(part, avar, [0, 0], 1, 0) == (6, 2, 0)
    assert part(avar, [top, 0, 0], 1, 1) == (top * top, 2)
    assert part(avar, [-top, 0, 0], 1, 1) == (top * top, 2)
    assert refusal(part, avar, [top + 1, 0, 0], 1, 1) == (8, 2, 0)
    assert refusal(part, avar, [top + 1, 0, 0], 1, 2) == (7, 2, 2)
    assert refusal(part, avar, [0, 0, 0, -top - 1], 1, 1) == (8, 2, 1)
    assert refusal(part, avar, [top, 0, 0, top], 1, 1) == (8, 2, 1)
    assert refusal(readout, avar, [top, 0, 0], 1) == (8, 2, 1)
    assert refusal(readout, avar, [2 ** 27 - 1, 0, 0, 0], 1) is None
    assert refusal(readout, avar, [2 ** 27, 0, 0, 0], 1) == (8, 2, 2)
    dice = random.Random(3)
    for _ in range(2000):
        x = [dice.randint(-1048576, 1048576)
             for _ in range(dice.randint(3, 60))]
        m = dice.randint(1, (len(x) - 1) // 2)
        step = [b - a for a, b in zip(x, x[m:])]
        root = [b - a for a, b in zip(step, step[m:])]
        total, divisor = part(avar, x, m, 1)
        assert total == sum(r * r for r in root)
        assert divisor == 2 * m ** 2 * len(root)
        shown = readout(avar, x, m)
        assert shown * divisor <= 4096 * total < (shown + 1) * divisor


def main():
    for line, place in KNOWN:
        assert job.fault_in(line) == place, (line, job.fault_in(line), place)
    check_bench()
    layers.check()
    lines = set(line for line, _ in KNOWN)
    for text in make_cases.jobs().values():
        lines.update(job.lines_of(text))
    dice = random.Random(7)
    for _ in range(200000):
        lines.add(bytes(dice.choice(b'AASPVR   a1109-x')
                        for _ in range(dice.randrange(12))))
    tried = 0
    for line in lines:
        if len(line) > 300:
            continue
        good = slow_beginning(line)
        assert good == job.longest_good_beginning(line), line
        for k in range(len(line) + 1):
            assert job.can_be_continued(line[:k]) == (k <= good), line
            assert really_continues(line[:k]) == (k <= good), line
        tried += 1
    print('%d known places, %d lines the slow way: all agree' % (len(KNOWN), tried))


if __name__ == '__main__':
    main()
