#!/usr/bin/env python3
"""Measures what a packet costs the node that it comes to: the costliest that a stranger can make of each kind.

    python3 bench/packet.py [MEMBERS [PACKETS]]

A member has a view of 64 regions and 2,000 members, and a leader a group of so many, or as many as the first word
says. For each kind up to 500 packets come in one run, or as many as the second word says. The time of one is that
which the processor took for the run, less that of a run in which the same lines are for a node that isn't there, by
their number. So the reading of a line and its echo don't count, but what the node sends does. The memory is the peak
of the one run less that of the other. Of five runs the least time counts, and the most memory. Run by hand, on the
program that `bash .ci/run` built. Compare only figures of one machine.
"""
import itertools
import sys
from typing import NamedTuple

from measured import measured
from schedule import TOP

sys.path.append(str(TOP / 'tools'))
import fields  # noqa: E402
import mutations  # noqa: E402

RUNS = 5
LEADER, NODE, ABSENT = 1, 2, 9
REGIONS, FULL, PARTIAL = 64, 1, 0
MOST_TEXT = 4_100_000
MOST = int(sys.argv[2]) if len(sys.argv) > 2 else 500
AT_ONCE = 64
ADDRESS = 0x7F000001, 9000


class Case(NamedTuple):
    """The lines that come first, and the packets that are measured."""
    name: str
    setup: list[str]
    packets: list[bytes]


class Cost(NamedTuple):
    seconds: float
    megabytes: float
    answer: str


def member(number, turn=0):
    """A member at a place of its own, which is another one at another turn."""
    return number, ADDRESS, (number * 700_001 % 1_999_999 - 999_999, turn, -turn)


def packet(kind, *values, sender=LEADER, receiver=NODE):
    return fields.packet(kind, sender, receiver, *values)


def line(data, node=NODE):
    return f'packet {node} {data.hex()}'


class Large:
    """A view with the most that a snapshot may have: each region and all of its members."""

    def __init__(self, members, turn=0):
        each = members // REGIONS
        self.rolls = {region: [member(NODE + region * each + place, turn) for place in range(each)]
                      for region in range(REGIONS)}
        last = NODE + REGIONS * each
        self.rolls[REGIONS - 1] += [member(number, turn) for number in range(last, NODE + members)]

    def summaries(self):
        return [(region, mutations.summary(roll)) for region, roll in self.rolls.items()]

    def snapshot(self, epoch):
        return packet(6, (epoch, self.summaries(), list(self.rolls.items())))


def slice_value(epoch, region, dropped, told, touched, part):
    return epoch, region, range(4_000_000, 4_000_000 + AT_ONCE), dropped, told, touched, part


def waiting(view, epoch, members):
    """The largest slices of the next epoch, each of which waits for that of the last region."""
    roll = [member(number, epoch) for number in range(NODE, NODE + members)]
    gone = range(3_000_000, 3_000_000 + AT_ONCE)
    part = 1, gone, roll, (1, 0, 0, 1, 70)
    every, told = range(REGIONS), view.summaries()
    return [slice_value(epoch, region, every, told, every, part) for region in range(REGIONS - 1)]


class Stepping:
    """A view of 64 regions of which the node knows the first one, and slices by which all its members change."""

    def __init__(self, members):
        self.count, self.epoch = members, 1
        globals_only = mutations.summary([member(number) for number in range(NODE, NODE + mutations.GLOBALS)])
        self.others = [(region, globals_only) for region in range(1, REGIONS)]
        self.roll = [member(number) for number in range(NODE, NODE + members)]

    def snapshot(self):
        told = [(0, mutations.summary(self.roll)), *self.others]
        return packet(6, (self.epoch, told, [(0, self.roll)]))

    def step(self):
        """The slice of the next epoch: 64 go, as many come, and all others change."""
        self.epoch += 1
        gone = [number for number, *_ in self.roll[1:1 + AT_ONCE]]
        last = self.roll[-1][0]
        stay = [NODE, *(number for number, *_ in self.roll[1 + AT_ONCE:])]
        self.roll = [member(number, self.epoch % 1000) for number in [*stay, *range(last + 1, last + 1 + len(gone))]]
        told = [(0, mutations.summary(self.roll)), *self.others]
        return packet(4, slice_value(self.epoch, 0, [], told, [0], (1, gone, self.roll, (0,))))


def boot(mode):
    return ['home 1 127.0.0.1:9001', f'boot {NODE} 127.0.0.1:9002 0 0 0 {mode}']


def some(made, room=0):
    """As many of the packets as there is room for, where the lines before have so many characters."""
    found, size = [], room
    for data in made:
        size += 2 * len(data)
        if size > MOST_TEXT or len(found) == MOST:
            break
        found.append(data)
    return found


def joins(first, receiver):
    changes = [(1, member(number)) for number in range(first, first + AT_ONCE)]
    return packet(1, changes, sender=7, receiver=receiver)


def ask(sender, receiver, least=0):
    return packet(5, ADDRESS, FULL, least, sender=sender, receiver=receiver)


def repeated(data, room=0, most=MOST):
    """The packet, as often as there is room for it."""
    return some(itertools.repeat(data, most), room)


def cases_of_a_member(members):
    view = Large(members)
    first = view.snapshot(1)
    start = [*boot('full'), line(first)]
    room = 2 * len(first)
    later = (Large(members, epoch % 1000).snapshot(epoch) for epoch in itertools.count(1))
    yield Case('a snapshot without its last byte', start, repeated(first[:-1], room))
    yield Case('a snapshot again', start, repeated(first, room))
    yield Case('a snapshot of a later epoch, all moved', boot('full'), some(later))
    slices = waiting(view, 2, members)
    yield Case('a slice that waits for another', start, some((packet(4, value) for value in slices), room))
    total, blocks = fields.cut(fields.built('slice', slices[0]).spelled() + b'\0')
    pieces = [packet(2, 2, 0, colour, total, blocks[colour]) for colour in range(3)]
    yield Case('a piece that makes no slice', [*start, *map(line, pieces[:2])], repeated(pieces[2], 2 * room))
    full = [line(joins(10_000 + AT_ONCE * number, NODE)) for number in range(4)]
    yield Case('a report of 64 changes', [*start, *full], repeated(joins(20_000, NODE), room))
    holding = [*start, *(line(packet(4, value)) for value in slices[:25])]
    yield Case('a report, where slices are held', holding, repeated(joins(20_000, NODE), 25 * room, 100))
    yield Case('an ask', start, repeated(ask(NODE + 1, NODE), room, 100))
    stepping = Stepping(members)
    known = [*boot('partial'), line(stepping.snapshot())]
    steps = some((stepping.step() for _ in itertools.count()), 2 * room)
    yield Case('a slice that makes a step', known, steps)
    need = packet(3, ADDRESS, PARTIAL, 2, 0, sender=stepping.roll[-1][0])
    yield Case('a need', [*known, line(steps[0])], repeated(need, room, 100))


def cases_of_a_leader(members):
    start = [f'lead {LEADER} 127.0.0.1:9001 0 0 0']
    for first in range(NODE, members, AT_ONCE):
        start += [line(joins(first, LEADER), LEADER), 'close']
    full = [line(joins(10_000 + AT_ONCE * number, LEADER), LEADER) for number in range(4)]
    yield Case('a report of 64 changes to a leader', [*start, *full], repeated(joins(20_000, LEADER), most=200))
    yield Case('an ask of a leader', start, repeated(ask(NODE, LEADER), most=50))


def run(lines):
    return measured(['node'], ''.join(f'{one}\n' for one in lines).encode())


def cost(case, node):
    """What one of the packets of the case costs."""
    def lines(receiver):
        return case.setup + [line(data, receiver) for data in case.packets]
    without, with_packets = ([run(lines(receiver)) for _ in range(RUNS)] for receiver in (ABSENT, node))
    seconds = min(ran.processor for ran in with_packets) - min(ran.processor for ran in without)
    memory = max(ran.megabytes for ran in with_packets) - max(ran.megabytes for ran in without)
    told = with_packets[0].output.split(b'\n> ')[-1].split(b'\n')
    return Cost(seconds / len(case.packets), memory, told[1].decode())


def main():
    members = int(sys.argv[1]) if len(sys.argv) > 1 else 2_000
    print('| packet | bytes | packets | answer to the last | milliseconds for each | MiB for all |')
    print('|---|---|---|---|---|---|')
    for node, cases in (NODE, cases_of_a_member(members)), (LEADER, cases_of_a_leader(members)):
        for case in cases:
            found = cost(case, node)
            print(f'| {case.name} | {max(map(len, case.packets))} | {len(case.packets)} | `{found.answer}` '
                  f'| {found.seconds * 1000:.2f} | {found.megabytes:.1f} |', flush=True)


if __name__ == '__main__':
    main()
