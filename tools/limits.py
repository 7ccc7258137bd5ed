#!/usr/bin/env python3
"""Runs `./census` on schedules at the limits of the group, of what is pending and of lines, and looks at the answers
there.

Want of memory may stand in for any answer that a contract promises, so only a run with ample memory shows that the
last answer within a limit comes, and the first one beyond it. What is wanted follows from the rules.
"""
import itertools
import pathlib
import subprocess
import sys

TOP = pathlib.Path(__file__).resolve().parent.parent


def boots(ids, place=lambda number: (number, 0, 0)):
    """The lines that start the leader and these nodes."""
    yield 'lead 1 127.0.0.1:9000 0 0 0'
    for number in ids:
        x, y, z = place(number)
        yield f'boot {number} 127.{number >> 16}.{number >> 8 & 255}.{number & 255}:9001 {x} {y} {z} partial'


def joins(ids):
    """The lines by which these nodes ask to join, before any other packet is sent."""
    return [f'join {number}' for number in ids]


def reports(first, count):
    """The lines by which so many of these reports come, from a number on."""
    return [f'deliver {number}' for number in range(first, first + count)]


def answers(lines, form='replay'):
    """The status, and the answer lines of each event."""
    text = ''.join(line + '\n' for line in lines)
    ran = subprocess.run([TOP / 'census', form], input=text, stdout=subprocess.PIPE, text=True)
    told = []
    for line in ran.stdout.splitlines():
        if line.startswith('> '):
            told.append([])
        else:
            told[-1].append(line)
    return ran.returncode, told


def accepted(told):
    return sum(line.startswith('accepted ') for line in told)


def pending():
    """257 joins wait for a close, of which each takes 64."""
    ids = range(2, 259)
    status, told = answers([*boots(ids), *joins(ids), *reports(1, len(ids)), *['close'] * 5])
    noted, closes = told[-5 - len(ids):-5], told[-5:]
    yield 'the run with 257 joins', 0, status
    yield 'the 256th pending change', ['noted 1 0 0 0'], noted[255]
    yield 'the 257th', ['noted 0 0 0 1'], noted[256]
    yield 'members let in by five closes', [64, 64, 64, 64, 0], [accepted(close) for close in closes]


def close_of_65():
    """65 joins wait: one close takes 64, and the next the last one."""
    ids = range(2, 67)
    status, told = answers([*boots(ids), *joins(ids), *reports(1, len(ids)), 'close', 'close'])
    yield 'the run with 65 joins', 0, status
    yield 'the last of the first 64', 'accepted 65 join', told[-2][63]
    yield 'the close behind them', ['accepted 66 join', 'closed 2'], told[-1][:2]


def members():
    """The group fills up to 2,000 members, in at most 64 regions."""
    ids = range(2, 2002)
    lines = [*boots(ids, lambda n: (n * 7919 % 999_983, n * 104_729 % 999_979, n * 31 % 997)), *joins(ids)]
    for first in range(1, 2001, 64):
        lines += [*reports(first, min(64, 2001 - first)), 'close']
    status, told = answers([*lines, 'print 1'])
    yield 'the run with 2,000 joins', 0, status
    yield 'the 2,000th member', True, 'accepted 2000 join' in told[-2]
    yield 'the one behind it', True, 'refused 2001 join full' in told[-2]
    regions = [line.split() for line in told[-1] if line.startswith('region ')]
    yield 'members of all regions', 2_000, sum(int(words[2]) for words in regions)
    yield 'no more than 64 regions', True, len(regions) <= 64
    trees = sum(line.startswith('local ') for line in told[-1])
    yield 'a tree for each colour of each region', 4 * len(regions), trees


def lines_of_a_node():
    """One node alone is told 100,000 lines. The last of them closes nothing, and the one behind them isn't told."""
    lines = ['home 1 127.0.0.1:9000', 'boot 2 127.0.0.1:9001 0 0 0 partial', *['join 2'] * 99_997, 'close']
    status, told = answers(lines, 'node')
    yield 'the run with 100,000 lines', 0, status
    yield 'its last packet', '#99997 127.0.0.1:9000', told[-2][1].rpartition(' ')[0]
    yield 'its last line', ['no leader'], told[-1]
    yield 'the run with a line more', (9, told), answers([*lines, 'close'], 'node')


def report(title, *cases):
    """Looks at the cases, each a name, what is wanted and what came, and gives the exit status."""
    if answers([])[0]:
        print(f'{title}: the program does not run')
        return 1
    passed = failed = 0
    for name, wanted, came in itertools.chain(*cases):
        if came != wanted:
            print(f'{name}: wanted {wanted}, and {came} came')
        passed, failed = passed + (came == wanted), failed + (came != wanted)
    print(f'{title}: {passed} passed, {failed} failed')
    return 1 if failed else 0


if __name__ == '__main__':
    sys.exit(report('limits', pending(), close_of_65(), members(), lines_of_a_node()))
