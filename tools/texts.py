"""Makes the lines of a run that nobody meant, out of a random source: for one node, or for a group.

One node gets packets that came to a node in an example, or that a stranger makes up, and changed ones between them.
The lines of a group are those of an example, changed.
"""
import functools
import re
from typing import NamedTuple

import alone
import fields
import mutations
from rows import TOP
from stranger import Stranger, some_pieces

EXAMPLES = sorted(TOP.glob('examples/*.census'))
# Those with dozens of nodes, whose packets are long: they are taken less often.
LARGE = 'cut', 'merge', 'away'
# The kinds of packets by which a member may write to its log: pieces, slices, snapshots and byes.
WRITING = b'\2', b'\4', b'\6', b'\7'
WHOLE = b'\4', b'\6'
NODE, HOME = 2, 1
PACKETS = 400
NUMBER = re.compile(r'-?\d+')


class Text(NamedTuple):
    """The lines of a run, and how many of its packets were changed."""
    form: str
    lines: list[str]
    packets: int
    mutated: int


class Script:
    """The lines for one node, as they grow."""

    def __init__(self, rng, lines, is_leader=False, has_tears=False):
        self.rng, self.lines, self.node = rng, list(lines), HOME if is_leader else NODE
        self.is_leader, self.has_tears = is_leader, has_tears
        self.recent, self.packets, self.mutated = [], 0, 0

    def add(self, data, is_mutated):
        """A packet, mostly for the node."""
        number = self.node if self.rng.random() < 0.995 else 9
        if len(data) < 65_536:
            self.lines.append(f'packet {number} {data.hex() or "-"}')
            self.packets, self.mutated = self.packets + 1, self.mutated + is_mutated

    def packet(self, data, is_mutated=False):
        """A packet among changed ones, and now and then a line of another kind."""
        rng = self.rng
        self.recent = [*self.recent[-19:], data]
        clones = [mutations.mutated(rng, rng.choice(self.recent[-4:]), rng.choice(self.recent))
                  for _ in range(rng.choice((0, 1, 2, 4)))]
        first = rng.randint(0, len(clones)) if rng.random() < 0.5 else 0
        for clone in clones[:first]:
            self.add(clone, True)
        if self.has_tears and rng.random() < (0.6 if data[1:2] in WRITING else 0.02):
            self.tear(data)
        elif rng.random() < 0.95:
            self.add(data, is_mutated)
        for clone in clones[first:]:
            self.add(clone, True)
        if rng.random() < (0.4 if self.has_tears else 0.12):
            self.call()

    def tear(self, data):
        """The packet, whose write is torn; mostly once, else behind each byte from one on."""
        size = len(data) + 4
        first, count = self.rng.randrange(size), 1
        if data[1:2] in WHOLE and self.rng.random() < 0.3:
            count = 30
        for place in range(first, min(size, first + count)):
            self.lines.append(f'tear {self.node} {place}')
            self.add(data, False)
            self.lines += [f'restart {self.node}', f'print {self.node}']

    def call(self):
        """Lines of another kind: the node's own calls, a crash, and for the leader mostly a close."""
        rng, node = self.rng, self.node
        other = rng.randint(1, 30)
        axes = ' '.join(str(rng.choice((0, 1, -1, 1_000_000, rng.randint(-9, 9)))) for _ in range(3))
        down = [f'print {node}', f'crash {node}', f'restart {node}', f'print {node}']
        calls = [[f'ask {node} {other}'], [f'need {node} {other} {rng.randint(0, 9)}'], [f'move {node} {axes}'],
                 [f'flush {node}'], [f'print {node}'], [f'join {node}'], [f'restart {node}'], down, down,
                 [f'crash {node}', f'packet {node} 01', f'restart {node}'], ['deliver 1'], ['settle 2']]
        if not self.is_leader or rng.random() < 0.4:
            self.lines += rng.choice(calls)
            return
        tear = [f'tear {node} {rng.randrange(200)}'] if self.has_tears else []
        self.lines += [*tear, 'close', *([f'restart {node}', f'print {node}'] if tear else [])]

    def text(self):
        return Text('node', self.lines, self.packets, self.mutated)


def made(rng, has_tears):
    """What a stranger makes up, for a member or for the leader."""
    is_leader = rng.random() < 0.2
    mode = rng.choice(('partial', 'full', 'full'))
    start = [f'lead {HOME} 127.0.0.1:9001 0 0 0'] if is_leader else [
        f'home {HOME} 127.0.0.1:9001', f'boot {NODE} 127.0.0.1:9002 {rng.randint(-9, 9)} 0 0 {mode}']
    script = Script(rng, start, is_leader, has_tears)
    epoch = 0 if is_leader else rng.choice((0, 0, 7, 4_294_967_000))
    stranger = Stranger(rng, script.node, epoch)
    while script.packets < PACKETS:
        packets = [stranger.other() for _ in range(rng.randint(0, 4))]
        if not is_leader or rng.random() < 0.2:
            packets = [stranger.view(), *packets]
            for _ in range(rng.choice((0, 1, 1, 2))):
                packets += stranger.step()
        for packet in packets:
            script.packet(packet.data, packet.is_mutated)
    script.packet(stranger.bye().data)
    script.lines.append(f'print {script.node}')
    return script.text()


class Taken(NamedTuple):
    """What a schedule leads to: the lines of each node alone, all packets, and the slices that pieces give."""
    scripts: list[list[str]]
    packets: list[bytes]
    slices: list[tuple[int, int, fields.Parts]]


@functools.cache
def taken_from(path):
    """What the nodes of an example get, each run alone."""
    group = alone.Group(path.read_text())
    scripts = [group.script(node).splitlines() for node in sorted(group.turns)]
    packets = sorted({data_of(line) for script in scripts for line in script if line.startswith('packet ')})
    return Taken(scripts, packets, list(slices_of(packets)))


def data_of(line):
    return bytes.fromhex(line.split(' ')[2].removeprefix('-'))


def slices_of(packets):
    """The epoch, the region and the tree of each slice of which three pieces are there."""
    found = {}
    for tree in filter(None, map(mutations.tree_of, packets)):
        kind, _, _, *rest = tree.parts[1].parts
        if kind.value == 2:
            epoch, region, colour, total, block = rest
            found.setdefault((epoch.value, region.value, total.value), {})[colour.value] = block.data
    for (epoch, region, total), blocks in sorted(found.items()):
        data = fields.joined(total, blocks)
        tree = data and fields.read('slice', data)
        if tree:
            yield epoch, region, tree


def taken(rng, has_tears):
    """What came to a node in a run of an example, with changed packets between."""
    path = rng.choice(EXAMPLES)
    if path.stem in LARGE and rng.random() < 0.8:
        path = EXAMPLES[0]
    run = taken_from(path)
    if not run.packets:
        return made(rng, has_tears)
    lines = rng.choice(run.scripts)
    is_leader = lines[0].startswith('lead ')
    script = Script(rng, [], is_leader, has_tears)
    script.node = int(next(line for line in lines if line.startswith(('lead ', 'boot '))).split(' ')[1])
    script.recent = rng.sample(run.packets, min(len(run.packets), 16))
    turns = PACKETS // (2 * len(lines))
    for line in lines:
        if not line.startswith('packet '):
            script.lines.append(line)
            continue
        for _ in range(rng.randint(0, turns)):
            script.packet(rng.choice(run.packets))
            if run.slices and rng.random() < 0.1:
                changed_pieces(rng, script, rng.choice(run.slices))
        script.packet(data_of(line))
    return script.text()


def changed_pieces(rng, script, found):
    """The pieces of a slice that was changed, for the node to join."""
    epoch, region, tree = found
    for piece in some_pieces(rng, mutations.changed_tree(rng, tree, None).spelled()):
        script.add(fields.packet(2, rng.randint(1, 9), script.node, epoch, region, *piece), True)


def packets_text(rng):
    """Packets for one node."""
    return (made if rng.random() < 0.8 else taken)(rng, False)


def logs_text(rng):
    """Packets for one node, whose writes are torn."""
    return (made if rng.random() < 0.8 else taken)(rng, True)


def schedule_text(rng):
    """The lines of an example, changed, with lines of others between."""
    first, second = rng.choice(EXAMPLES), rng.choice(EXAMPLES)
    if first.stem in LARGE and rng.random() < 0.8:
        first = EXAMPLES[0]
    lines = first.read_text().splitlines()
    others = second.read_text().splitlines()
    for _ in range(rng.choice((1, 2, 4, 8, 16))):
        change_lines(rng, lines, others)
    return Text('replay', lines, len(lines), len(lines))


def change_lines(rng, lines, others):
    """One line is dropped, doubled, moved, added or changed."""
    place, kind = rng.randrange(len(lines) + 1), rng.randrange(12)
    if kind < 2 and lines:
        lines.pop(rng.randrange(len(lines)))
    elif kind < 4 and lines:
        lines.insert(place, rng.choice(lines))
    elif kind < 5 and lines:
        lines.insert(rng.randrange(len(lines)), lines.pop(rng.randrange(len(lines))))
    elif kind < 6:
        lines.insert(place, rng.choice(others))
    elif kind < 9:
        lines.insert(place, any_line(rng))
    elif lines:
        at = rng.randrange(len(lines))
        lines[at] = changed_line(rng, lines[at])


def any_line(rng):
    """A line that may do something in a small group."""
    node, other = rng.randint(1, 6), rng.randint(1, 6)
    number = rng.randint(1, 40)
    return rng.choice([
        f'deliver {number}', f'deliver {number}', f'lose {number}', f'settle {rng.randint(1, 9)}', 'close',
        f'crash {node}', f'restart {node}', f'crash {node}\nrestart {node}', f'tear {node} {rng.randint(0, 300)}',
        f'ask {node} {other}', f'need {node} {other} {rng.randint(0, 2)}', f'move {node} {number} 0 0',
        f'leave {node}', f'flush {node}', f'join {node}', f'print {node}', f'noise {node} {number}',
        f'packet {node} 0{node}',
    ])


def changed_line(rng, line):
    """The line with another number in it, or now and then another byte, with which it mostly has a fault."""
    found = list(NUMBER.finditer(line))
    if found and rng.random() < 0.97:
        at = rng.choice(found)
        number = int(at[0])
        edges = [0, 1, number + 1, number - 1, rng.randint(1, 9), rng.randint(1, 9), 2 ** 32 - 1, 2 ** 32, -1_000_001]
        return line[:at.start()] + str(rng.choice(edges)) + line[at.end():]
    place = rng.randrange(len(line) + 1)
    return line[:place] + rng.choice((' ', '0', 'x', '-', '\r', '\0', '\x7f')) + line[place + 1:]


TEXTS = {'packets': packets_text, 'logs': logs_text, 'schedules': schedule_text}
