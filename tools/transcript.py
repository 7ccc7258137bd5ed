"""Reads a transcript of `./census`, of either form, into steps. It has no command of its own.

    transcript = read_transcript(path)

A step is a line of the schedule with its answer, its packets and, where it printed a view, the lines of the block.
The deliveries of a `settle` are steps within its step. Every line keeps its number in the text. The path may be that
of a page of docs/stories/, or of any other page: its fenced blocks, put together, are the transcript then.

What is no transcript is refused by a Fault, which says which line is the first wrong one, and what is wrong there. How
lines are spelled stands in spellings.py. A file is held in memory as a whole.
"""
from dataclasses import dataclass, field
from typing import NamedTuple

import packet_bytes
import spellings


class Fault(Exception):
    """What makes the text no transcript, and the number of its line, where there is one."""

    def __init__(self, line, what):
        super().__init__(what)
        self.line = line

    def at(self, path):
        return f'{path}: {self}' if self.line is None else f'{path}:{self.line}: {self}'


class Line(NamedTuple):
    number: int
    text: str


class Packet(NamedTuple):
    """A packet that was sent. In the form `node` its line has an address, and its bytes say the rest."""
    line: int
    number: int
    sender: int
    receiver: int
    address: str | None
    what: str


@dataclass
class Step:
    order: int  # which line of the schedule it is, from 1 on
    line: Line  # without the mark in front
    answers: list[Line] = field(default_factory=list)
    packets: list[Packet] = field(default_factory=list)
    block: list[Line] = field(default_factory=list)
    deliveries: list['Step'] = field(default_factory=list)

    @property
    def words(self):
        return self.line.text.split(' ')

    @property
    def answer(self):
        """The last line of the answer, or nothing: a block and `noise` have none."""
        return self.answers[-1].text if self.answers else ''


class Transcript(NamedTuple):
    form: str
    steps: list[Step]
    fault: Line | None  # the line `fault N KIND` at the end of a run that had one


class Printed(NamedTuple):
    """The lines of a view that was printed, from `epoch` to `end`. What they say is read in block.py."""
    node: int
    epoch: int
    lines: list[Line]


def read_transcript(path):
    if path.suffix != '.md':
        return transcript_from(path.read_bytes().decode(errors='replace'))
    lines = transcript_of(path)
    if not lines:
        raise Fault(None, 'the page has no fenced block')
    return Reader(lines).transcript()


def transcript_from(text):
    *texts, rest = text.split('\n')
    if rest:
        raise Fault(len(texts) + 1, f'the last line has no end: {rest!r}')
    return Reader([Line(number, text) for number, text in enumerate(texts, 1)]).transcript()


def transcript_of(page):
    """The lines of the page's fenced blocks."""
    lines, is_inside = [], False
    for number, text in enumerate(page.read_text(errors='replace').splitlines(), 1):
        if text.startswith('```'):
            is_inside = not is_inside
        elif is_inside:
            lines.append(Line(number, text))
    return lines


def blocks(steps):
    """Each block that was printed, in order."""
    for step in steps:
        if step.block:
            yield Printed(int(step.words[1]), int(step.block[0].text.split(' ')[1]), step.block)


class Reader:
    """Takes lines from the front."""

    def __init__(self, lines):
        self.lines, self.place = lines, 0
        self.sent, self.is_node = 0, None

    def begins(self, *marks):
        """Whether there is a next line that begins so."""
        return self.place < len(self.lines) and self.lines[self.place].text.startswith(marks)

    def taken(self, mark=''):
        line = self.lines[self.place]
        self.place += 1
        return Line(line.number, line.text.removeprefix(mark))

    def transcript(self):
        steps, fault = [], None
        while self.begins('> '):
            steps.append(self.step(len(steps) + 1))
        if self.begins('fault '):
            fault = self.taken()
            if not spellings.END.fullmatch(fault.text) or int(fault.text.split(' ')[1]) != len(steps) + 1:
                raise Fault(fault.number, f'no fault of line {len(steps) + 1} of the schedule: {fault.text!r}')
        if self.place < len(self.lines):
            raise self.stray(is_first=not steps, is_behind=fault)
        return Transcript(form_of(steps, self.is_node), steps, fault)

    def stray(self, is_first, is_behind):
        """What is wrong with a line where a line of the schedule should stand."""
        line = self.lines[self.place]
        if is_behind:
            return Fault(line.number, f'a line behind the end of the run: {line.text!r}')
        if is_first:
            return Fault(line.number, f'no line of a schedule comes first, but {line.text!r}')
        if line.text.startswith('- '):
            return Fault(line.number, f'no `settle` stands before this delivery: {line.text!r}')
        if spellings.is_known(line.text):
            return Fault(line.number, f'the line of the schedule was answered before, and this comes: {line.text!r}')
        return Fault(line.number, f'an answer that nobody knows: {line.text!r}')

    def step(self, order):
        step = Step(order, self.taken('> '))
        word = step.words[0]
        if word not in spellings.LINES or not spellings.LINES[word].fullmatch(step.line.text):
            raise Fault(step.line.number, f'no line of a schedule: {step.line.text!r}')
        while word == 'settle' and self.begins('- '):
            step.deliveries.append(self.delivery(order))
        if word == 'print' and self.begins('epoch '):
            step.block = self.block()
        else:
            self.answer(step)
        self.packets(step)
        return step

    def delivery(self, order):
        step = Step(order, self.taken('- '))
        if not spellings.LINES['deliver'].fullmatch(step.line.text):
            raise Fault(step.line.number, f'no delivery of a `settle`: {step.line.text!r}')
        self.answer(step)
        self.packets(step)
        return step

    def answer(self, step):
        word = step.words[0]
        known = spellings.ANSWERS[word]
        while word != 'noise' or self.begins('no'):
            if self.place == len(self.lines) or self.begins('> ', '- ', '#'):
                raise Fault(step.line.number, 'the close has no end' if step.answers else 'the line has no answer')
            line = self.taken()
            if not known.fullmatch(line.text):
                is_known = spellings.is_known(line.text)
                says = f'no answer to `{word}`' if is_known else 'an answer that nobody knows'
                raise Fault(line.number, f'{says}: {line.text!r}')
            step.answers.append(line)
            if not line.text.startswith(('accepted ', 'refused ')):
                break
        if word in ('move', 'leave') and step.answer.startswith(('moved ', 'told')) and self.begins('noted '):
            step.answers.append(self.taken())
        if step.answers:
            self.check(step.words, step.answers[-1], step)

    def check(self, words, last, step):
        """Whether the last line of the answer goes with what came before."""
        if words[0] == 'settle' and last.text not in (f'settled {len(step.deliveries)}', 'not here'):
            raise Fault(last.number, f'{len(step.deliveries)} deliveries are told, and another number: {last.text!r}')
        if words[0] == 'close' and len(step.answers) > 1 and not last.text.startswith('closed '):
            raise Fault(last.number, f'no end of a close with verdicts: {last.text!r}')
        if words[0] in ('move', 'leave') and len(step.answers) > 1 and not spellings.KEPT.fullmatch(last.text):
            raise Fault(last.number, f'an answer that nobody knows: {last.text!r}')
        if words[0] in ('deliver', 'lose') and last.text != 'not here':
            is_sent = int(words[1]) <= self.sent
            if is_sent == (last.text == 'no packet'):
                raise Fault(last.number, f'packet {words[1]} was {"" if is_sent else "not "}sent: {last.text!r}')

    def block(self):
        lines = []
        while not lines or lines[-1].text != 'end':
            if self.place == len(self.lines) or self.begins('> '):
                raise Fault(lines[0].number, f'the block from line {lines[0].number} has no end')
            line = self.taken()
            if not spellings.BLOCK.fullmatch(line.text) or (lines and line.text.startswith('epoch ')):
                raise Fault(line.number, f'no line of a block: {line.text!r}')
            lines.append(line)
        return lines

    def packets(self, step):
        while self.begins('#'):
            step.packets.append(self.packet(self.taken()))
            self.sent += 1

    def packet(self, line):
        is_node = bool(spellings.PACKET_OF_NODE.fullmatch(line.text))
        if not is_node and not spellings.PACKET.fullmatch(line.text):
            raise Fault(line.number, f'no packet is told so: {line.text!r}')
        if self.is_node not in (None, is_node):
            raise Fault(line.number, f'a packet of the other form: {line.text!r}')
        self.is_node = is_node
        number, ends, what = line.text.split(' ', 2)
        if int(number[1:]) != self.sent + 1:
            raise Fault(line.number, f'packet {number[1:]} comes where {self.sent + 1} is the next one')
        if not is_node:
            sender, receiver = ends.split('>')
            return Packet(line.number, self.sent + 1, int(sender), int(receiver), None, what)
        named = packet_bytes.named(what)
        if not named:
            raise Fault(line.number, f'no node sends these bytes: {what!r}')
        return Packet(line.number, self.sent + 1, named.sender, named.receiver, ends, named.what)


def form_of(steps, is_node):
    """The form is told by packets, and else by which lines are answered `not here`."""
    for step in steps:
        if is_node is None and step.words[0] in ('home', 'packet', 'deliver', 'lose', 'settle', 'noise'):
            is_node = (step.words[0] in ('home', 'packet')) != (step.answer == 'not here')
    return 'node' if is_node else 'replay'
