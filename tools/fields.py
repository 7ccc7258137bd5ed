"""The fields of a packet or of an entry of a log as a tree, by docs/FORMATS.md: read from its bytes, built out of
values, and spelled again.

A number of the tree has its name, so that it can get a value at the edge of what is allowed. A list says how many
elements it has by the number of its parts, unless it is told to lie.
"""
from dataclasses import dataclass

NUMBERS = {
    'version': 1, 'kind': 1, 'tag': 1, 'flag': 1, 'mode': 1, 'colour': 1, 'dimension': 1, 'port': 2, 'id': 4,
    'region': 4, 'epoch': 4, 'least': 4, 'ip': 4, 'axis': 4, 'seq': 4, 'moves': 4, 'size': 4, 'total': 4, 'sum': 8,
}
RECORDS = {
    'address': 'ip port', 'point': 'axis axis axis', 'member': 'id address point',
    'summary': 'size sum sum sum point point globals', 'listed': 'region summary', 'known': 'region roll',
    'picture': 'epoch regions rolls', 'slice': 'epoch region ids places regions places part',
    'packet': 'version body', 'row': 'region member moves',
}
# The bytes of the count, and what is counted.
LISTS = {
    'ids': (1, 'id'), 'places': (1, 'region'), 'globals': (1, 'member'), 'regions': (1, 'listed'),
    'rolls': (1, 'known'), 'changes': (1, 'change'), 'roll': (2, 'member'), 'steps': (1, 'step'), 'many': (2, 'id'),
    'rows': (2, 'row'),
}
# What has its bytes, a number of 4, in front.
SIZED = {'step': 'slice'}
# The number that comes first, and what comes behind each of its values.
CHOICES = {
    'change': ('tag', {1: 'member', 2: 'id seq point', 3: 'id'}),
    'part': ('tag', {0: '', 1: 'ids roll cut', 2: 'region roll cut'}),
    'cut': ('tag', {0: '', 1: 'dimension axis id region'}),
    'body': ('kind', {
        1: 'id id changes', 2: 'id id epoch region colour total block', 3: 'id id address mode epoch region',
        4: 'id id slice', 5: 'id id address mode least', 6: 'id id picture', 7: 'id id epoch',
    }),
    'entry': ('kind', {
        1: 'flag id address point mode id address', 2: 'seq point', 3: 'picture', 4: 'steps', 5: 'epoch',
        6: 'epoch changes', 7: 'epoch region many rows changes',
    }),
}


class Unread(Exception):
    """The bytes are no such field."""


@dataclass(slots=True)
class Number:
    name: str
    value: int

    def fresh(self):
        """An equal field that shares nothing with this one."""
        return Number(self.name, self.value)

    def spelled(self):
        size = NUMBERS[self.name]
        return (self.value % 256 ** size).to_bytes(size, 'big')


@dataclass(slots=True)
class Block:
    """Bytes up to the end."""
    name: str
    data: bytes

    def fresh(self):
        return Block(self.name, self.data)

    def spelled(self):
        return self.data


@dataclass(slots=True)
class Parts:
    """One field behind the other."""
    name: str
    parts: list

    def fresh(self):
        return Parts(self.name, [part.fresh() for part in self.parts])

    def spelled(self):
        return b''.join(part.spelled() for part in self.parts)


class Sized(Parts):
    """One field, with its size in front."""

    def fresh(self):
        return Sized(self.name, [part.fresh() for part in self.parts])

    def spelled(self):
        data = b''.join(part.spelled() for part in self.parts)
        return len(data).to_bytes(4, 'big') + data


@dataclass(slots=True)
class Many:
    """A list, whose count is told wrong by the lie."""
    name: str
    parts: list
    lie: int = 0

    def fresh(self):
        return Many(self.name, [part.fresh() for part in self.parts], self.lie)

    def spelled(self):
        size, _ = LISTS[self.name]
        count = (len(self.parts) + self.lie) % 256 ** size
        return count.to_bytes(size, 'big') + b''.join(part.spelled() for part in self.parts)


class Bytes:
    """Takes fields from the front."""

    def __init__(self, data):
        self.data, self.place = data, 0

    def number(self, size):
        end = self.place + size
        if end > len(self.data):
            raise Unread
        self.place, start = end, self.place
        return int.from_bytes(self.data[start:end], 'big')

    def field(self, name):
        if name in NUMBERS:
            return Number(name, self.number(NUMBERS[name]))
        if name in RECORDS:
            return Parts(name, self.fields(RECORDS[name]))
        if name in LISTS:
            size, element = LISTS[name]
            return Many(name, [self.field(element) for _ in range(self.number(size))])
        if name in CHOICES:
            return self.choice(name)
        if name in SIZED:
            return self.sized(name)
        start, self.place = self.place, len(self.data)
        return Block(name, self.data[start:])

    def fields(self, names):
        return [self.field(name) for name in names.split()]

    def choice(self, name):
        first, behind = CHOICES[name]
        number = self.field(first)
        if number.value not in behind:
            raise Unread
        return Parts(name, [number, *self.fields(behind[number.value])])

    def sized(self, name):
        end = self.number(4) + self.place
        field = self.field(SIZED[name])
        if self.place != end:
            raise Unread
        return Sized(name, [field])


def read(name, data):
    """The tree of the bytes, or None where they don't have these fields."""
    source = Bytes(data)
    try:
        tree = source.field(name)
    except Unread:
        return None
    return tree if source.place == len(data) else None


def built(name, value):
    """The tree of a value: a number, or a list or tuple of the values of its parts. Bytes stand for any field."""
    if isinstance(value, bytes):
        return Block(name, value)
    if name in NUMBERS:
        return Number(name, value)
    if name in LISTS:
        _, element = LISTS[name]
        return Many(name, [built(element, one) for one in value])
    if name in CHOICES:
        first, behind = CHOICES[name]
        tag, *rest = value
        return Parts(name, [Number(first, tag), *built_parts(behind[tag], rest)])
    if name in SIZED:
        return Sized(name, [built(SIZED[name], value)])
    return Parts(name, built_parts(RECORDS[name], value))


def built_parts(names, values):
    return [built(name, value) for name, value in zip(names.split(), values, strict=True)]


def packet(kind, sender, receiver, *values):
    """The bytes of a packet."""
    return built('packet', (1, (kind, sender, receiver, *values))).spelled()


def nodes(tree):
    """The tree and all that is in it."""
    found = [tree]
    for node in found:
        if isinstance(node, (Parts, Many)):
            found += node.parts
    return found


def cut(data):
    """The total and the four blocks of some bytes."""
    third = -(-len(data) // 3)
    padded = data.ljust(3 * third, b'\0')
    blocks = [padded[place:place + third] for place in range(0, 3 * third, third)]
    return len(data), [*blocks, mixed(*blocks)]


def mixed(*blocks):
    """The XOR of blocks of one length."""
    found = 0
    for block in blocks:
        found ^= int.from_bytes(block, 'big')
    return found.to_bytes(len(blocks[0]), 'big')


def joined(total, blocks):
    """The bytes of which these are three blocks, by colour, or None where they don't fit."""
    lost = [colour for colour in range(4) if colour not in blocks]
    if len({len(block) for block in blocks.values()}) != 1 or len(lost) > 1:
        return None
    if lost:
        blocks = {**blocks, lost[0]: mixed(*blocks.values())}
    return (blocks[0] + blocks[1] + blocks[2])[:total]
