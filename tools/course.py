"""The course of a run: what becomes of each node and of each packet, step by step.

    course = Course(transcript)

`rows` has one row for each line of the schedule that changes something, and for each delivery within a `settle` that
does. A row has a cell for each node that it changes: a word of WORDS, and the epoch where the word has one. `nodes`
has the nodes as they are at the end, and `fates` what became of each packet.
"""
from dataclasses import dataclass, field
from typing import NamedTuple

import packet_bytes
from transcript import Fault, Packet


class Word(NamedTuple):
    short: str  # where there are many columns
    has_epoch: bool
    meaning: str


WORDS = {
    'up': Word('up', False, 'it was started'),
    'reported': Word('rep', False, 'it sends its join, its move or its leave in a report'),
    'noted': Word('note', False, 'a report changes what is pending at it'),
    'flushed': Word('flush', False, 'it hands pending changes on to the leader'),
    'asked': Word('ask', False, 'it asks another node for a snapshot or a slice'),
    'answered': Word('answ', False, 'it sends what it was asked for, or a bye'),
    'armed': Word('arm', False, 'its next write to its log will be torn'),
    'closed': Word('close', True, 'it closes an epoch, and is at epoch E'),
    'joined': Word('join', True, 'the group has it from epoch E on'),
    'moved': Word('move', True, 'the group has it at its new point from epoch E on'),
    'left': Word('left', True, 'the group is without it from epoch E on'),
    'refused': Word('ref', False, 'the close refuses a change of it'),
    'held': Word('held', False, 'it holds a piece or a slice of the next epoch, and needs more'),
    'passed': Word('pass', False, 'it passes on a late piece of its own epoch'),
    'advanced': Word('adv', True, 'it is at epoch E, by slices'),
    'jumped': Word('jump', True, 'it is at epoch E, by a snapshot'),
    'down': Word('down', False, 'it crashed, or its write was torn'),
    'back': Word('back', True, 'it is back from its log, at epoch E, or joining where no epoch stands'),
    'departed': Word('gone', False, 'it has learned that it is no member'),
    'lost': Word('lost', False, 'a packet for it is lost: `settle` does not deliver it'),
}

# Answers with which nothing was done, and the one of a block.
NOTHING = ('', 'no node', 'no packet', 'no leader', 'not here', 'taken', 'second leader')

CHANGED = {'join': 'joined', 'move': 'moved', 'leave': 'left'}


class Cell(NamedTuple):
    node: int
    word: str
    epoch: int | None
    mark: str  # how the node stands from then on


class Row(NamedTuple):
    order: int  # which line of the schedule it is
    event: str
    short: str  # where there are many columns
    cells: list[Cell]


@dataclass
class Node:
    number: int
    is_leader: bool
    epoch: int | None = None
    is_down: bool = False
    has_departed: bool = False

    @property
    def mark(self):
        """How the node stands: its epoch, `-` where it has none, `x` where it is down, nothing where it departed."""
        if self.is_down:
            return 'x'
        return '' if self.has_departed else '-' if self.epoch is None else str(self.epoch)

    def cell(self, word, epoch=None):
        """What the word makes of the node, and its cell."""
        if word in ('closed', 'advanced', 'jumped', 'back'):
            self.epoch = epoch
        self.is_down = word == 'down' or self.is_down and word not in ('back', 'departed')
        self.has_departed = self.has_departed or word == 'departed'
        return Cell(self.number, word, epoch, self.mark)


@dataclass
class Fate:
    """A packet, whether a line `lose` named it, and the answer to each of its deliveries."""
    packet: Packet
    is_lost: bool = False
    answers: list[str] = field(default_factory=list)


class Course:
    def __init__(self, transcript):
        self.nodes, self.fates, self.rows, self.leader = {}, {}, [], None
        for step in transcript.steps:
            for delivery in step.deliveries:
                self.take(delivery, '- ')
            self.take(step)

    def take(self, step, mark=''):
        cells = list(self.cells(step))
        if cells:
            self.rows.append(Row(step.order, *self.event(step, mark), cells))
        self.fates.update((packet.number, Fate(packet)) for packet in step.packets)

    def event(self, step, mark):
        """How the row is called, at length and short."""
        word, *words = step.words
        if word in ('deliver', 'lose'):
            packet = self.fates[int(words[0])].packet
            event = f'{mark}{word} {packet.number}, {packet.sender}>{packet.receiver} {packet.what}'
            return event, f'#{packet.number} {packet.what}'
        if word == 'packet':
            packet = packet_bytes.named(words[1])
            event = f'packet, {packet.sender}>{packet.receiver} {packet.what}' if packet else word
            return event, packet.what if packet else word
        shown = words[:1] if word in ('lead', 'boot', 'move') else words
        return ' '.join([word, *shown]), ' '.join([word, *shown])

    def cells(self, step):
        """The cells of the nodes for which the step changes something."""
        word, *words = step.words
        if step.answer in NOTHING or word in ('home', 'settle', 'noise'):
            return []
        if word in ('lead', 'boot'):
            return [self.start(int(words[0]), word == 'lead')]
        if word == 'close':
            return self.close(step) if self.leader else []
        if word in ('deliver', 'lose'):
            return self.delivery(word, step)
        node = self.node(int(words[0]), step)
        return came(node, step.answer) if word == 'packet' else called(node, word, step.answer)

    def node(self, number, step):
        if number not in self.nodes:
            raise Fault(step.line.number, f'no node {number} was started')
        return self.nodes[number]

    def start(self, number, is_leader):
        node = self.nodes[number] = Node(number, is_leader, 0 if is_leader else None)
        self.leader = node if is_leader else self.leader
        return node.cell('up')

    def close(self, step):
        """The leader's cell, and those of the nodes whose changes were judged."""
        if not step.answer.startswith('closed '):
            return [self.leader.cell('down')] if step.answer == 'stopped log' else []
        epoch = int(step.answer.split(' ')[1])
        cells = [self.leader.cell('closed', epoch)]
        for line in step.answers[:-1]:
            verdict, number, change, *_ = line.text.split(' ')
            # Bytes that came from elsewhere can be about nodes that don't run here.
            if int(number) in self.nodes:
                word = [CHANGED[change], epoch] if verdict == 'accepted' else ['refused']
                cells.append(self.nodes[int(number)].cell(*word))
        return cells

    def delivery(self, word, step):
        fate = self.fates[int(step.words[1])]
        node = self.node(fate.packet.receiver, step)
        if word == 'lose':
            is_new = not fate.is_lost and not fate.answers
            fate.is_lost = True
            return [node.cell('lost')] if is_new else []
        fate.answers.append(step.answer)
        return came(node, step.answer)


def came(node, answer):
    """What a packet that comes changes at its node."""
    word, *numbers = answer.split(' ')
    if word in ('jumped', 'advanced'):
        return [node.cell(word, int(numbers[0]))]
    if word in ('held', 'passed', 'answered') or word == 'departed' and not node.has_departed:
        return [node.cell(word)]
    if word == 'noted' and numbers[:2] != ['0', '0']:
        return [node.cell(word)]
    return [node.cell('down')] if word == 'stopped' else []


def called(node, word, answer):
    """What one of the lines on a single node changes there."""
    first, *numbers = answer.split(' ')
    if word == 'restart' and answer != 'up':
        return [node.cell('departed' if answer == 'departed' else 'back', *map(int, numbers))]
    if word == 'crash' and answer != 'down' or first == 'stopped':
        return [node.cell('down')]
    if first in ('armed', 'flushed'):
        return [node.cell(first)]
    if first in ('told', 'moved'):
        return [node.cell('asked' if word in ('ask', 'need') else 'reported')]
    return came(node, answer) if first == 'noted' else []
