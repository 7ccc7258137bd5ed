#!/usr/bin/env python3
"""Times what a node of a world takes to receive a datagram and to name it, where 1,000, 10,000 and 100,000 packets
were sent, or as many as the words say.

    python3 bench/poll.py [--program PROGRAM] [SENT ..]
    python3 bench/poll.py --write FOLDER

Member 2 reports its moves to the leader, each a packet of its own, until so many were sent. Then the leader is
polled, and none of what comes is carried out. At each poll 1,000 datagrams wait: packets that lie spread over all of
the moves, other ones at each poll or the same ones, or such packets with another last byte, which are noise. Last,
node 2 reports its join again and again instead, and 10 of these equal packets wait. Of ten polls the least counts.

No form of `./census` receives without carrying out, so there is a small program of its own for that, in
bench/polling.py. It is run by `rt try`, unproved and with each access to memory checked, which takes a few minutes for
each figure. `--write` lays it out as one more crate in a copy of the others, and `--program` takes one that was built.
Run by hand. Compare only figures of one machine and of one way to build.
"""
import argparse
import pathlib
import subprocess
import sys
from typing import NamedTuple

import polling
from schedule import TOP

sys.path.append(str(TOP / 'tools'))
import fields  # noqa: E402

SENT = 1_000, 10_000, 100_000
POLLS, AT_ONCE, AT_ONCE_EQUAL = 10, 1_000, 10
LEADER, NODE = 1, 2
HOST, PORT = 0x7F000001, 9002
JOIN = fields.packet(1, NODE, LEADER, [(1, (NODE, (HOST, PORT), (10, 0, 0)))])
BOTH = ['lead 1 127.0.0.1:9001 0 0 0', 'boot 2 127.0.0.1:9002 10 0 0 partial', 'join 2']
# The join is delivered, and so is the snapshot of the close.
MEMBER = [*BOTH, 'deliver 1', 'close', 'deliver 2']
BEFORE = 2


class Case(NamedTuple):
    """What waits at the leader, the lines that send, how much comes at a poll, and the numbers of what is a packet."""
    waiting: list[bytes]
    lines: list[str]
    at_once: int
    numbers: list[int]


def move(number, last=0):
    """The report of the move with the number."""
    return fields.packet(1, NODE, LEADER, [(2, NODE, number, (number, 0, last))])


def moves(sent):
    """The lines by which so many packets are sent, and the moves that come at the polls, spread over all."""
    count = sent - BEFORE
    lines = MEMBER + [f'move {NODE} {number} 0 0' for number in range(1, count + 1)]
    return lines, [1 + place * count // (POLLS * AT_ONCE) for turn in range(POLLS)
                   for place in range(turn, POLLS * AT_ONCE, POLLS)]


def cases(sent):
    """Other packets at each poll, the same packets, noise, and equal packets."""
    lines, chosen = moves(sent)
    for numbers in chosen, chosen[:AT_ONCE] * POLLS:
        yield Case([move(number) for number in numbers], lines, AT_ONCE, [BEFORE + number for number in numbers])
    yield Case([move(number, 1) for number in chosen], lines, AT_ONCE, [])
    came = POLLS * AT_ONCE_EQUAL
    yield Case([JOIN] * came, BOTH + [f'join {NODE}'] * (sent - 1), AT_ONCE_EQUAL, [1] * came)


def ran(program, text):
    """What the program writes."""
    if not program:
        return polling.tried(text)
    return subprocess.run([program], input=text, capture_output=True, text=True, check=True).stdout


def nanoseconds(program, case):
    """What a datagram takes at the quickest poll."""
    lines = [f'wait {data.hex()}' for data in case.waiting] + case.lines + [f'poll {case.at_once}'] * POLLS
    said = ran(program, ''.join(f'{line}\n' for line in lines))
    words = [int(word) for word in said.split() if word.isdigit()]
    packets, numbers, nanos = words[::3], words[1::3], words[2::3]
    if len(nanos) != POLLS or (sum(packets), sum(numbers)) != (len(case.numbers), sum(case.numbers)):
        sys.exit(f'the program said {said[-200:]!r} at last')
    return min(nanos) / case.at_once


def main():
    parser = argparse.ArgumentParser(usage='poll.py [--program PROGRAM] [SENT ..] | --write FOLDER')
    parser.add_argument('--program', type=pathlib.Path)
    parser.add_argument('--write', type=pathlib.Path)
    parser.add_argument('sent', type=int, nargs='*')
    options = parser.parse_args()
    if options.write:
        polling.write(options.write)
        return
    print('| packets sent | others at each poll | the same at each poll | noise | equal packets |')
    print('|---|---|---|---|---|')
    for sent in options.sent or SENT:
        figures = [f'{nanoseconds(options.program, case):,.0f} ns' for case in cases(sent)]
        print(f'| {sent:,} | {" | ".join(figures)} |', flush=True)


if __name__ == '__main__':
    main()
