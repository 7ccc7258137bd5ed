#!/usr/bin/env python3
"""Runs `./census` on schedules in which a write to a log is torn behind each of its bytes, and further behind.

Every kind of entry is torn but the one by which a node starts, before which nothing can be armed. An entry counts
exactly where its whole frame was written, so a node comes back as it was before up to a number of bytes, and as it was
to be from there on. How long the frames are follows from docs/FORMATS.md. The tests tear one close at two
places; a test for every byte of every kind of entry would be proved again at each change.
"""
import sys

from limits import answers, report

START = ['lead 1 127.0.0.1:9001 0 0 0', 'boot 2 127.0.0.1:9002 10 0 0 partial', 'join 2', 'deliver 1']
MEMBER = [*START, 'close', 'deliver 2']

# What is written, the bytes of its frame, the lines before, who is torn at which line, and what a restart says with
# less than the frame and with all of it.
WRITES = [
    ('an item', 33, START, 1, 'close', 'leader 0', 'leader 1'),
    ('a view', 162, [*START, 'close'], 2, 'deliver 2', 'joining', 'member 1'),
    ('a move', 21, MEMBER, 2, 'move 2 15 0 0', 'member 1', 'member 1'),
    ('a step', 23, [*MEMBER, 'close', 'deliver 3', 'deliver 4'], 2, 'deliver 6', 'member 1', 'member 2'),
    ('a departure', 9, [*MEMBER, 'leave 2', 'deliver 3', 'close', 'deliver 4', 'deliver 5'], 2, 'deliver 7',
     'member 1', 'departed'),
]


def writes():
    """Each kind of entry, torn behind each of its bytes."""
    for name, frame, lines, node, event, before, after in WRITES:
        for b in range(frame + 8):
            status, told = answers([*lines, f'tear {node} {b}', event, f'restart {node}'])
            wanted = [[f'armed {b}'], ['stopped log'], [after if b >= frame else before]]
            yield f'{name}, torn behind {b} bytes', (0, wanted), (status, told[-3:])


def moves():
    """The number of a move goes on exactly from what the log has."""
    for b in (20, 21):
        status, told = answers([*MEMBER, f'tear 2 {b}', 'move 2 15 0 0', 'restart 2', 'move 2 15 0 0'])
        wanted = ['moved 2' if b == 21 else 'moved 1', '#3 2>1 report 1']
        yield f'a move behind one that was torn behind {b} bytes', (0, wanted), (status, told[-1])


def settling():
    """Where a delivery is torn the rounds go on: its node gets no more, and the others get what is for them."""
    lines = [*START, 'boot 3 127.0.0.1:9003 20 0 0 partial', 'join 3', 'deliver 2', 'close', 'settle 9', 'close']
    status, told = answers([*lines, 'tear 3 0', 'settle 9', 'restart 3', 'print 2', 'print 3'])
    yield 'the run with a torn settling', 0, status
    yield 'the deliveries from the torn one on', [
        '- deliver 10', 'stopped log', '- deliver 11', 'stale 2 2', '- deliver 12', 'down', '- deliver 13',
        'stale 2 2', '- deliver 14', 'already', 'settled 10',
    ], told[-4][-11:]
    yield 'what the torn node comes back as', ['member 1'], told[-3]
    yield 'the epochs that the nodes print', ['epoch 2', 'epoch 1'], [told[-2][0], told[-1][0]]


if __name__ == '__main__':
    sys.exit(report('tears', writes(), moves(), settling()))
