#!/usr/bin/env python3
"""Write the stored cases and what they must print.

The sample job; the input and output of the job program (crates/job); the
inputs of the conformance program and what it must print
(crates/conformance); what the program of the layers must print
(crates/layer_cases).  Every choice is fixed (the random ones by the number
that the dice start from), so a second run writes the same files.
"""

import os
import random

import job
import layers
import packed

ROOT = os.path.dirname(os.path.dirname(os.path.abspath(__file__)))

FIVE_DAYS = [b'A 108', b'A 50', b'A 220', b'A 468', b'A 329',
             b'P avar 1 1', b'V avar 2', b'P avar 3 1',
             b'S', b'R', b'V avar 1', b'A 5']

EDGES = [b'9223372036854775807', b'9223372036854775808',
         b'-9223372036854775808', b'-9223372036854775809',
         b'18446744073709551615', b'18446744073709551616',
         b'123456789012345678901234567890',
         b'-123456789012345678901234567890',
         b'000000000000000000000000000001',
         b'0000000000018446744073709551616']


def text_of(lines, last=b'\n'):
    return b'\n'.join(lines) + last


def cuts(line):
    """Every true beginning of a line, the empty one too."""
    return [line[:i] for i in range(len(line))]


def spoils(line, bytes_):
    """The line with one byte put in place of each byte in turn."""
    return [line[:i] + b + line[i + 1:]
            for i in range(len(line)) for b in bytes_]


def growths(line, bytes_):
    """The line with one byte put in at each place in turn."""
    return [line[:i] + b + line[i:]
            for i in range(len(line) + 1) for b in bytes_]


def stdin_lines():
    lines = list(FIVE_DAYS)
    # letters and fields cut short
    for line in (b'A -12', b'S', b'P avar 1 1', b'V avar 1', b'R'):
        lines += cuts(line)
    # spoiled and lengthened
    for line in (b'A -1', b'A 7'):
        lines += spoils(line, [b' ', b'x', b'-', b'\xff'])
        lines += growths(line, [b' ', b'-', b'0', b'\x00'])
    for line in (b'S', b'R'):
        lines += spoils(line, [b' ', b'\t', b'\x00', b'\r', b'\xff', b'-',
                               b'0', line.lower()])
        lines += growths(line, [b' ', b'\t', b'\x00', b'\r', b'\xff', b'-',
                                b'0', line])
    lines += spoils(b'P avar 1 1', [b' ', b'-', b'2'])
    lines += spoils(b'V avar 1', [b'Q', b'\x00', b'z'])
    lines += growths(b'P avar 1 1', [b' ', b'\xff'])
    lines += growths(b'V avar 1', [b' ', b'\t', b'1'])
    lines += [line + b'\r' for line in (b'A 5', b'S', b'P avar 1 1',
                                        b'V avar 1', b'R', b'')]
    # every odd way of a number in every field
    odd = [b'-', b'--1', b'- 1', b'+1', b'-0', b'007', b'-007', b'1-', b'1.5',
           b'0x1', b'1e3', b'1_0', b'\xd9\xa1', b'\xb2']
    for number in odd:
        lines += [b'A ' + number, b'P avar ' + number + b' 1',
                  b'P avar 1 ' + number, b'V avar ' + number]
    for number in EDGES:
        lines += [b'A ' + number, b'P avar ' + number + b' 1',
                  b'P avar 1 ' + number, b'V avar ' + number,
                  b'V ' + number + b' 1']
    # a number too large and another fault with it
    big = b'18446744073709551616'
    lines += [b'A ' + big + b'x', b'A ' + big + b' ', b'A x' + big,
              b'A -' + big + b'-', b'A 9223372036854775808\xff',
              b'P avar ' + big, b'P avar ' + big + b' ',
              b'P avar ' + big + b' x', b'P avar ' + big + b' ' + big,
              b'P avar 1 ' + big + b' ', b'P avar x ' + big,
              b'P avar 1 1 ' + big, b'P ' + big + b' ' + big + b' 1',
              b'V nosuch ' + big, b'V avar 1' + b' ' + big]
    # names
    for name in (b'AVAR', b'Avar', b'avaR', b'avar1', b'1avar', b'ava',
                 b'avarr', b'1', b'a', b'adev2', b'a-var', b'a_var',
                 b'av\xe4r', b'av{r', b'av`r', b'a/r', b'a:r', b'a@r'):
        lines += [b'P ' + name + b' 1 1', b'V ' + name + b' 1']
    lines += [b'P nosuch 0 0', b'V nosuch 0', b'P 0 0 0']
    # what a job after the release still answers
    lines += [b'A 1', b'A 1048577', b'A -1048577', b'S', b'R', b'R', b'S',
              b'P avar 1 1', b'P avar 1 0', b'P avar 1 2', b'P avar 0 1',
              b'P avar 0 0', b'P avar 2 1', b'P avar 2 2', b'P avar 2 0',
              b'V avar 0', b'V avar 1', b'V avar 2', b'V avar 3',
              b'P avar 0001 01', b'V avar 00000000000000000000001',
              b'P avar 1 18446744073709551615', b'A', b'', b'V avar 1']
    return lines


def stdin_open_lines():
    dice = random.Random(2)
    lines = [b'V avar 1', b'P avar 1 1', b'P avar 0 0', b'S', b'S',
             b'A 7', b'P avar 1 1', b'V avar 0', b'S', b'S', b'',
             b'A 1048576', b'A 1048577', b'A -1048576', b'A -1048577',
             b'A 9223372036854775807', b'A -9223372036854775808',
             b'A 9223372036854775808', b'A -9223372036854775809',
             b'A 18446744073709551615', b'A -0', b'A 0', b'A 007',
             b'A -0001048576', b'A 000000000000000000000001048576',
             b'A 000000000000000000000001048577', b'A  1', b'A 1 ', b' A 1',
             b'A\t1', b'A 1\r', b'A 1\x00', b'A 1\xff', b'A --1', b'A +1',
             b'A -', b'A', b'A ', b'a 1', b'S ', b'SS', b's', b'R ', b'RR',
             b'R 1', b'S 1', b'r']
    for m in (b'0', b'1', b'2', b'3', b'4', b'5', b'0002',
              b'2147483648', b'4294967296', b'9223372036854775807',
              b'9223372036854775808', b'9223372036854775809',
              b'18446744073709551615', b'18446744073709551616'):
        lines += [b'V avar ' + m]
        for j in (b'0', b'1', b'2', b'18446744073709551615'):
            lines += [b'P avar ' + m + b' ' + j]
    lines += [b'P avar 1 18446744073709551616', b'P avar 1 -1',
              b'V avar -1', b'P avar -1 1', b'V mvar 1', b'P hvar 1 1',
              b'V avar2 1', b'V AVAR 1', b'P avar 1', b'P avar  1 1',
              b'V avar 1 1', b'V  1', b'V ', b'P ', b'V']
    # a longer run in odd orders, with faults between
    held = 7
    bad = [b'A x', b'', b'A 1 2', b'S S', b'P avar 1 ', b'V avar', b'B',
           b'A 5-', b'\x00', b'\xff', b'\t', b'\r', b' ', b'V avar 1\r',
           b'A 1048577', b'A -1048577', b'V nosuch 1', b'P avar 1 2']
    for step in range(90):
        choice = dice.randrange(10)
        if choice < 6:
            size = dice.choice([3, 100, 5000, 1048576])
            lines.append(b'A %d' % dice.randint(-size, size))
            held += 1
        elif choice == 6:
            lines.append(b'S')
            held -= 1
        elif choice == 7:
            lines.append(dice.choice(bad))
        elif choice == 8:
            lines.append(b'P avar %d %d' % (dice.randint(1, held // 2 + 1),
                                            dice.choice([1, 1, 1, 0, 2])))
        else:
            lines.append(b'V avar %d' % dice.randint(1, held // 2 + 1))
    for m in range(0, held // 2 + 2):
        lines += [b'P avar %d 1' % m, b'V avar %d' % m]
    # down to empty and below
    while held:
        lines.append(b'S')
        held -= 1
        if held in (3, 2, 1, 0):
            lines += [b'P avar 1 1', b'V avar 1', b'V avar 2']
    lines += [b'S', b'S', b'S ', b'A 3', b'S', b'S']
    # a last small run, the release, and what is left after it
    lines += [b'A 4', b'A -4', b'A 4', b'A 5', b'V avar 1', b'P avar 1 1',
              b'A 6', b'V avar 2', b'A 1048577', b'R', b'A 1', b'A 1048577',
              b'S', b'R', b'A x', b'S ', b'V avar 2', b'P avar 2 1',
              b'P nosuch 0 0', b'P avar 2 1']
    return lines


def of_size(size):
    """A text of many short lines and exactly this many bytes."""
    dice = random.Random(65536)
    lines = []
    room = size
    while room > 40:
        roll = dice.randrange(100)
        if roll < 45:
            line = b'A %d' % dice.randint(-99, 999)
        elif roll < 75:
            line = b'S'
        elif roll < 80:
            line = b'V avar %d' % dice.randrange(0, 12)
        elif roll < 85:
            line = b'P avar %d %d' % (dice.randrange(0, 12),
                                      dice.randrange(0, 3))
        elif roll < 90:
            line = b''
        else:
            line = dice.choice([b'A', b'A ', b'S ', b'P', b'V a', b'V a 1',
                                b'Q', b'A -', b'A 1x', b'V avar', b'A 1 2'])
        lines.append(line)
        room -= len(line) + 1
    # the last line takes what is left, its own end left off
    lines.append(b'A ' + b'0' * (room - 3) + b'7')
    text = text_of(lines, b'')
    assert len(text) == size
    return text


def filled():
    lines = [b'A %d' % (n * n % 10) for n in range(4096)]
    lines += [b'A 1', b'A 1048577', b'A -1048577', b'A 9223372036854775807',
              b'A 9223372036854775808', b'A x',
              b'P avar 1 1', b'V avar 1', b'P avar 1000 1', b'V avar 1000',
              b'P avar 2047 1', b'V avar 2047', b'P avar 2048 1',
              b'V avar 2048', b'P avar 2047 2',
              b'S', b'A 1048577', b'V avar 2047', b'A 1048576', b'A 1048577',
              b'A 0', b'V avar 2047', b'P avar 1 1', b'R', b'A 0',
              b'V avar 1']
    return text_of(lines)


def filled_far():
    """A full run of samples of +-1048576."""
    lines = [b'A %d' % (1048576 if n % 2 else -1048576) for n in range(4096)]
    lines += [b'A 1', b'R']
    for m in (1, 2, 3, 1023, 2047, 2048):
        lines += [b'P avar %d 1' % m, b'V avar %d' % m]
    return text_of(lines)


def alternating():
    lines = []
    for n in range(1, 41):
        lines.append(b'A %d' % (1048576 if n % 2 else -1048576))
        for m in (1, 2, 3):
            lines += [b'P avar %d 1' % m, b'V avar %d' % m]
    # the widest root at factors 2 and 3: the signs change every m samples
    for m in (2, 3):
        lines += [b'S'] * 40
        for n in range(40):
            lines.append(b'A %d' % (1048576 if n // m % 2 else -1048576))
        for k in (1, 2, 3):
            lines += [b'P avar %d 1' % k, b'V avar %d' % k]
    return text_of(lines)


def random_runs(start, runs):
    dice = random.Random(start)
    lines = []
    for _ in range(runs):
        count = dice.randint(1, 60)
        size = dice.choice([1, 10, 1000, 1048576])
        lines += [b'A %d' % dice.randint(-size, size) for _ in range(count)]
        for m in range(0, 36):
            lines.append(b'P avar %d %d' % (m, dice.choice([0, 1, 1, 1, 2])))
            lines.append(b'V avar %d' % m)
        for j in (0, 1, 2):
            for m in (0, 1, count // 2, count // 2 + 1):
                lines.append(b'P avar %d %d' % (m, j))
        lines += [b'S'] * count
    lines += [b'S', b'R', b'V avar 1']
    return text_of(lines)


def random_bytes():
    """Lines drawn from few bytes, so that many are nearly formed."""
    dice = random.Random(15)
    lines = []
    for _ in range(2500):
        line = dice.choice([b'A ', b'A ', b'A 1', b'S', b'P avar 1 1',
                            b'P avar ', b'V avar ', b'V avar 1', b'P ', b'V ',
                            b'', b'A -', b'A 922337203685477580',
                            b'V avar 1844674407370955161'])
        for _ in range(dice.randrange(4)):
            line += dice.choice([b'0', b'1', b'5', b'6', b'7', b'8', b'9',
                                 b' ', b'-', b'a', b'z', b'A', b'S', b'\t',
                                 b'\x00', b'\x0b', b'\x0c', b'\r', b'\x7f',
                                 b'\x80', b'\xff', b'/', b':', b'`', b'{'])
        lines.append(line)
    lines += [b'R', b'A 1', b'V avar 1']
    return text_of(lines)


def every_byte():
    """Every byte but the line end at each sort of place."""
    lines = [b'A 1', b'A 5', b'A 2']
    for b in range(256):
        if b == 10:
            continue
        c = bytes([b])
        lines += [c, b'A' + c, b'A ' + c, b'A -' + c, b'A 1' + c, b'S' + c,
                  b'V' + c, b'V ' + c, b'V avar' + c, b'V avar ' + c,
                  b'V avar 1' + c, b'P avar 1' + c, b'P avar 1 ' + c,
                  b'P avar 1 1' + c, b'V a' + c + b'r 1']
        lines.append(b'R' + c)
    # the one bare R goes to the end
    lines = [line for line in lines if line != b'R'] + [b'R', b'A 1', b'S']
    return text_of(lines)


def long_lines():
    """Few lines, each very long."""
    lines = [b'A ' + b'0' * 7000 + b'12', b'A -' + b'0' * 7000 + b'12',
             b'A ' + b'0' * 7000, b'A 1' + b'0' * 4500,
             b'A -1' + b'0' * 4500 + b'x', b'V ' + b'a1' * 3000 + b' 1',
             b'V ' + b'a' * 3000 + b'B 1', b'V ' + b'a' * 3000,
             b'V avar ' + b'0' * 5000 + b'1', b'V avar ' + b'9' * 5000,
             b'P avar ' + b'0' * 3000 + b'1 ' + b'0' * 3000 + b'1',
             b'P avar 1 ' + b'0' * 3000 + b'7', b' ' * 1000, b'x' * 1000,
             b'V avar 1']
    return text_of(lines)


def write(path, content):
    path = os.path.join(ROOT, path)
    os.makedirs(os.path.dirname(path), exist_ok=True)
    with open(path, 'wb') as file:
        file.write(content)


def printed(text):
    return ''.join(answer + '\n' for answer in job.answers_to(text)).encode('ascii')


def jobs():
    """The jobs of the conformance program, by name."""
    return {
        'open': text_of(stdin_open_lines(), b''),
        'empty': b'',
        'one_newline': b'\n',
        'three_newlines': b'\n\n\n',
        'no_last_newline': b'A 1\nA 2\nA 4\nV avar 1\nP avar 1 1',
        'cut_last_line': b'A 1\nA 2\nA 4\n\nP avar 1 ',
        'size_65535': of_size(65535),
        'size_65536': of_size(65536),
        'size_65537': of_size(65537),
        'size_65537_newline': of_size(65536) + b'\n',
        'filled': filled(),
        'filled_far': filled_far(),
        'alternating': alternating(),
        'random_runs_1': random_runs(1, 8),
        'random_runs_2': random_runs(2, 30),
        'random_bytes': random_bytes(),
        'every_byte': every_byte(),
        'long_lines': long_lines(),
    }


def main():
    write('samples/five_days.job', text_of(FIVE_DAYS))
    write('crates/job/stdin', text_of(stdin_lines()))
    write('crates/job/stdout', printed(text_of(stdin_lines())))
    output = b''
    for name, text in jobs().items():
        write('crates/conformance/data/%s.job' % name, text)
        output += b'== %s.job\n' % name.encode('ascii') + printed(text)
    for name, content in packed.cases().items():
        write('crates/conformance/data/%s.bin' % name, content)
        output += b'== %s.bin\n' % name.encode('ascii') + packed.printed(content)
    write('crates/conformance/data/jobs.txt', ''.join('%s.job\n' % name for name in jobs()).encode('ascii'))
    write('crates/conformance/data/packed.txt', ''.join('%s.bin\n' % name for name in packed.cases()).encode('ascii'))
    write('crates/conformance/stdout', output)
    write('crates/layer_cases/stdout', layers.printed())


if __name__ == '__main__':
    main()
