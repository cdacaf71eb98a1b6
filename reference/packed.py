"""What the conformance program prints of packed samples.

Samples of four bytes, least byte first, two's complement.  Bytes are
refused, at layer 1: 13 unless their number is a multiple of four; then 2
above 4,096 samples; then 1 at the first sample beyond 1,048,576, with its
place.  Accepted bytes print their count and reach, their first samples and
two places past the last, and avar at the factors 0 to 4.
"""

import random
import struct

import job


def samples_of(content):
    if len(content) % 4 != 0:
        raise job.Refusal(13, 1, 0)
    if len(content) // 4 > job.RUN_LIMIT:
        raise job.Refusal(2, 1, 0)
    samples = [sample for (sample,) in struct.iter_unpack('<i', content)]
    for place, sample in enumerate(samples):
        if not -job.SAMPLE_LIMIT <= sample <= job.SAMPLE_LIMIT:
            raise job.Refusal(1, 1, place)
    return samples


def sample_at(samples, place):
    if place >= len(samples):
        raise job.Refusal(10, 1, place)
    return samples[place]


def line(letter, call, *arguments):
    """A line of what a call answers, or of its refusal."""
    try:
        answer = call(*arguments)
    except job.Refusal as refusal:
        return '! %d %d %d' % (refusal.cause, refusal.layer, refusal.place)
    numbers = answer if isinstance(answer, tuple) else (answer,)
    return ' '.join([letter] + ['%d' % number for number in numbers])


def lines(content):
    try:
        samples = samples_of(content)
    except job.Refusal as refusal:
        return ['! %d %d %d' % (refusal.cause, refusal.layer, refusal.place)]
    found = ['N %d %d' % (len(samples), job.SAMPLE_LIMIT)]
    places = list(range(min(len(samples), 6))) + [len(samples), 2 ** 62]
    found += [line('X', sample_at, samples, place) for place in places]
    for m in range(5):
        found.append(line('P', job.part_of, job.Avar, samples, m, 1))
        found.append(line('V', job.readout_of, job.Avar, samples, m))
    return found


def printed(content):
    return ''.join(text + '\n' for text in lines(content)).encode('ascii')


def pack(samples):
    return b''.join(struct.pack('<i', sample) for sample in samples)


def cases():
    dice = random.Random(11)
    small = [dice.randint(-1000, 1000) for _ in range(9)]
    far = [dice.choice([-1048576, 1048576]) for _ in range(4096)]
    found = {'none': b'', 'five': pack([108, 50, 220, 468, 329]), 'negative': pack([-1, -256, -65536, 255, 256, 65535, 65536])}
    for count in (1, 2, 3):
        found['cut_%d' % count] = pack(small)[:-count]
    found['full'] = pack(far)
    found['above_full'] = pack(far + [0])
    found['above_full_and_beyond'] = pack([2 ** 31 - 1] + far)
    found['above_full_and_cut'] = pack(far) + b'\x00'
    found['edges'] = pack([1048576, -1048576, 1048575, -1048575, 0])
    for place, sample in ((0, 1048577), (4, -1048577), (8, 2 ** 31 - 1), (3, -2 ** 31)):
        found['beyond_%d' % place] = pack(small[:place] + [sample] + small[place + 1:])
    found['beyond_twice'] = pack(small[:2] + [2000000] + small[2:5] + [-2000000])
    found['random'] = pack([dice.randint(-1048576, 1048576) for _ in range(200)])
    return found
