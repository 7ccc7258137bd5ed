#!/usr/bin/env python3
"""Measures what a delivered packet costs where the group is quiet: of 64, 1,000 and 2,000 members, or of so many as the
words say. Members join, 64 for each close, and then epochs are closed in which nothing changes: nearly all that happens
is that pieces come and are passed on. Two runs differ by some such closes alone, and what one takes longer is parted
by the packets that it sent more. Of three runs of each the least counts. Run by hand, on the program that
`bash .ci/run` built. Compare only figures of one machine."""
import random
import re
import sys

from measured import measured

SIZES = {64: (10, 210), 1000: (2, 22), 2000: (2, 12)}
RUNS = 3
BATCH = 64
ROUNDS = 40
FARTHEST, SPREAD = 900_000, 20_000


def schedule(members, closes):
    """The lines: a leader and members, each batch of which stands close together, and then the closes."""
    numbers = random.Random(members)
    lines = []
    centre = [0, 0, 0]
    for node in range(1, members + 1):
        if node % BATCH == 2:
            centre = [numbers.randint(-FARTHEST, FARTHEST) for _ in centre]
        at = ' '.join(str(c + numbers.randint(-SPREAD, SPREAD)) for c in centre)
        word, mode = ('lead', '') if node == 1 else ('boot', ' partial')
        lines.append(f'{word} {node} 127.0.0.1:{10_000 + node} {at}{mode}')
    for first in range(2, members + 1, BATCH):
        lines += [f'join {node}' for node in range(first, min(first + BATCH, members + 1))]
        lines += [f'settle {ROUNDS}', 'close', f'settle {ROUNDS}']
    for _ in range(closes):
        lines += ['close', f'settle {ROUNDS}']
    return '\n'.join(lines).encode() + b'\n'


def last_number(transcript):
    return max(int(number) for number in re.findall(rb'^#(\d+) ', transcript, re.MULTILINE))


def main():
    sizes = [int(word) for word in sys.argv[1:]] or list(SIZES)
    for members in sizes:
        few, many = (schedule(members, closes) for closes in SIZES.get(members, (2, 12)))
        runs = [(measured(['replay'], few), measured(['replay'], many)) for _ in range(RUNS)]
        packets = last_number(runs[0][1].output) - last_number(runs[0][0].output)
        least = min(b.processor for _, b in runs) - min(a.processor for a, _ in runs)
        print(f'{members:6,} members {packets:8,} packets {least / packets * 1e6:7.2f} microseconds each')


if __name__ == '__main__':
    main()
