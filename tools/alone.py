#!/usr/bin/env python3
"""Makes a script of the form `node` for one node out of a schedule of the form `replay`.

    python3 tools/alone.py ID < SCHEDULE

prints the lines that node ID gets when it runs alone: who leads, its start, the lines on it, and a line `packet` for
each packet that the schedule delivers to it. A transcript of `./census replay` doesn't show the bytes of a packet. So
the node that sent them is run alone too, over what came to it before, and what it sends is in its own transcript.

Without a word it does so for each node of each schedule in examples/, and looks at what each node answers alone: it
must be what it answers in the schedule, with as many packets, to the same addresses.
"""
import itertools
import pathlib
import subprocess
import sys
from typing import NamedTuple

TOP = pathlib.Path(__file__).resolve().parent.parent
USAGE = 'usage: alone.py [ID < SCHEDULE]'


class Sent(NamedTuple):
    """The line of a packet: `#1 2>1 report 1` among others, and `#1 127.0.0.1:9001 0101..` of a node alone."""
    number: int
    way: str
    what: str


class Event(NamedTuple):
    """A line, its answer, and the packets that it sent."""
    line: str
    answer: list[str]
    packets: list[Sent]


class Run(NamedTuple):
    events: list[Event]
    status: int


class Start(NamedTuple):
    """A node as a line started it."""
    node: int
    address: str


class Ends(NamedTuple):
    """Who sent a packet, and to whom."""
    sender: int
    receiver: int


class Turn(NamedTuple):
    """What a node gets and answers, and the addresses to which it sends."""
    line: str
    answer: list[str]
    addresses: list[str]


def sent_from(line):
    number, way, what = line.removeprefix('#').split(' ', 2)
    return Sent(int(number), way, what)


def run(form, text):
    """What the program writes for a text, and the status."""
    ran = subprocess.run([TOP / 'census', form], input=text.encode(), stdout=subprocess.PIPE)
    events, event = [], None
    for line in ran.stdout.decode(errors='replace').splitlines():
        # The deliveries of `settle` are told as lines of their own, and its last line says nothing of a node.
        if line.startswith(('> ', '- ')):
            event = Event(line[2:], [], [])
            events.append(event)
        elif line.startswith('#'):
            event.packets.append(sent_from(line))
        elif not line.startswith(('settled ', 'fault ')):
            event.answer.append(line)
    return Run(events, ran.returncode)


class Group:
    """The nodes of a schedule, and what each of them gets and answers, line by line."""

    def __init__(self, schedule):
        self.leader, self.starts, self.turns, self.packets, self.bytes = None, {}, {}, {}, {}
        for event in run('replay', schedule).events:
            node = self.node_at(event)
            if node is not None:
                self.turns[node].append(self.turn_of(node, event))

    def node_at(self, event):
        """Which node the line is for, if it is there. A line that starts one begins its turns."""
        word, first, address, *_ = [*event.line.split(' '), '', '']
        if word in ('lead', 'boot') and event.answer == [f'up {first}']:
            start = Start(int(first), address)
            self.leader = self.leader or start
            self.starts[start.node], self.turns[start.node] = start, []
        elif word in ('lead', 'boot', 'home', 'packet', 'noise', 'lose', 'settle'):
            return None
        if word == 'close':
            return self.leader and self.leader.node
        if word == 'deliver':
            ends = self.packets.get(int(first))
            return ends and ends.receiver
        return int(first) if int(first) in self.turns else None

    def turn_of(self, node, event):
        """What the node gets alone for a line, and what it answers."""
        word, _, rest = event.line.partition(' ')
        line = f'packet {node} {self.bytes_of(int(rest))}' if word == 'deliver' else event.line
        addresses = []
        for packet in event.packets:
            ends = Ends(*map(int, packet.way.split('>')))
            self.packets[packet.number] = ends
            addresses.append(self.starts[ends.receiver].address)
        return Turn(line, event.answer, addresses)

    def bytes_of(self, number):
        """The bytes of a packet: the sender is run alone, up to here."""
        if number not in self.bytes:
            sender = self.packets[number].sender
            own = [other for other, ends in self.packets.items() if ends.sender == sender]
            events = run('node', self.script(sender)).events
            sent = [packet.what for event in events for packet in event.packets]
            self.bytes.update(zip(own, sent, strict=True))
        return self.bytes[number]

    def script(self, node):
        """The lines that the node gets, so far."""
        is_leader = self.starts[node] == self.leader
        home = [] if is_leader else [f'home {self.leader.node} {self.leader.address}']
        return ''.join(line + '\n' for line in [*home, *(turn.line for turn in self.turns[node])])

    def difference(self, node):
        """The first turn that is another one alone, or None."""
        alone = run('node', self.script(node))
        came = [Turn(event.line, event.answer, [packet.way for packet in event.packets])
                for event in alone.events if not event.line.startswith('home ')]
        for turn, other in itertools.zip_longest(self.turns[node], came):
            # A leader that is down is no leader alone.
            if turn and turn.line == 'close' and turn.answer == ['down']:
                turn = turn._replace(answer=['no leader'])
            if turn != other:
                return f'node {node}: wanted {turn}, and {other} came'
        return f'node {node}: the run ended with status {alone.status}' if alone.status else None


def print_script(word):
    """The lines of one node of the schedule on standard input."""
    group = Group(sys.stdin.read())
    if not word.isdecimal() or int(word) not in group.turns:
        print('alone: the schedule starts no such node', file=sys.stderr)
        return 2
    print(group.script(int(word)), end='')
    return 0


def check_examples():
    passed = failed = 0
    for path in sorted(TOP.glob('examples/*.census')):
        group = Group(path.read_text())
        for node in group.turns:
            found = group.difference(node)
            if found:
                print(f'{path.relative_to(TOP)}: {found}')
            passed, failed = passed + (not found), failed + bool(found)
    print(f'alone: {passed} passed, {failed} failed')
    return 1 if failed else 0


def main():
    _, *words = sys.argv
    if len(words) > 1:
        print(USAGE, file=sys.stderr)
        return 2
    if run('replay', '').status or run('node', '').status:
        print('alone: the program does not run', file=sys.stderr)
        return 1
    return print_script(*words) if words else check_examples()


if __name__ == '__main__':
    sys.exit(main())
