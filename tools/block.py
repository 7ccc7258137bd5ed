"""Reads what a printed block of a transcript says, the lines from `epoch` to `end`, or raises its first Fault.

transcript.py has found the lines and how each is spelled. A block is as docs/FORMATS.md has it: the ranges of its
numbers, and in which order lines stand. The digest is that of its lines, the summary of a region is that of its
members, and a tree leads from its root to each of its keys by one way.
"""
import hashlib
import re
from dataclasses import dataclass, field
from typing import NamedTuple

from transcript import Fault, Line, Printed

COLOURS = 4
LAST = 4_294_967_294
MEMBERS = 2_000
AXIS = 1_000_000
ADDRESS = re.compile(r'{0}\.{0}\.{0}\.{0}:{0}'.format('(0|[1-9][0-9]{0,4})'))


class Point(NamedTuple):
    x: int
    y: int
    z: int


class Edge(NamedTuple):
    parent: int
    child: int


class BlockLine(Line):
    """A line of a block, of which words are read by their places, counted from 0."""

    @property
    def words(self) -> list[str]:
        return self.text.split(' ')

    def fault(self, what: str) -> Fault:
        return Fault(self.number, what)

    def whole(self, place: int, low: int, high: int) -> int:
        """The number that is the word at a place."""
        word = self.words[place]
        if not low <= int(word) <= high:
            raise self.fault(f'word {place + 1} must be a number from {low} to {high}, and it is {word!r}')
        return int(word)

    def point(self, place: int, most: int = AXIS) -> Point:
        return Point(*(self.whole(place + axis, -most, most) for axis in range(3)))

    def address(self, place: int) -> str:
        word = self.words[place]
        found = ADDRESS.fullmatch(word)
        *numbers, port = [int(number) for number in found.groups()] if found else [0]
        if max(numbers, default=0) > 255 or not 1 <= port <= 65_535:
            raise self.fault(f'word {place + 1} must be an address, and it is {word!r}')
        return word

    def edges(self, place: int) -> list[Edge]:
        """The edges that are the words from a place on."""
        edges = [Edge(*map(int, word.split('>'))) for word in self.words[place:]]
        if edges != sorted(set(edges)):
            raise self.fault('the edges of a tree ascend')
        return edges


@dataclass(frozen=True)
class Member:
    id: int
    address: str
    point: Point


@dataclass(frozen=True)
class Tree:
    colour: int
    root: int
    edges: list[Edge]

    @property
    def children(self) -> dict[int, list[int]]:
        """The children of each key that has some."""
        found = {}
        for edge in self.edges:
            found.setdefault(edge.parent, []).append(edge.child)
        return found


@dataclass
class Region:
    number: int
    size: int
    sums: Point
    lowest: Point
    highest: Point
    globals: list[Member] = field(default_factory=list)
    # Without members the roll of the region isn't known, and neither are its trees.
    members: list[Member] = field(default_factory=list)
    trees: list[Tree] = field(default_factory=list)


@dataclass
class Block:
    line: int
    node: int
    epoch: int
    regions: list[Region]
    trees: list[Tree]
    digest: str


class Reader:
    """Takes the lines of a block one by one."""

    def __init__(self, lines: list[Line]):
        self.lines, self.taken = [BlockLine(*line) for line in lines], 0

    @property
    def next(self) -> BlockLine:
        return self.lines[self.taken]

    def is_at(self, name: str) -> bool:
        return self.next.words[0] == name

    def take(self, name: str) -> BlockLine:
        """The next line, which must have this first word."""
        line = self.next
        if line.words[0] != name:
            raise line.fault(f'a line `{name}` must stand here, and it is {line.text[:40]!r}')
        self.taken += 1
        return line


def member_of(line: BlockLine) -> Member:
    return Member(line.whole(2, 1, LAST + 1), line.address(3), line.point(4))


def tree_of(line: BlockLine, place: int, colour: int, keys: set[int], most: int) -> Tree:
    """The tree whose colour is the word at a place. It leads to each of these keys, with so many children at most."""
    if line.whole(place, 0, COLOURS - 1) != colour:
        raise line.fault(f'the tree of colour {colour} must stand here')
    tree = Tree(colour, line.whole(place + 1, 0, LAST + 1), line.edges(place + 2))
    children, reached = tree.children, [tree.root]
    for parent, found in children.items():
        if len(found) > most:
            raise line.fault(f'{parent} has {len(found)} children, and {most} are allowed')
    for key in reached:
        reached += children.pop(key, [])
    if children or sorted(reached) != sorted(keys):
        raise line.fault('a tree leads from its root to each of its keys by one way, and this one does not')
    return tree


def take_region(reader: Reader, after: int) -> Region:
    """The line of a region, and those of its globals."""
    line = reader.take('region')
    size = line.whole(2, 1, MEMBERS)
    region = Region(line.whole(1, after + 1, LAST), size, line.point(3, size * AXIS), line.point(6), line.point(9))
    take_members(reader, 'global', region, region.globals, min(size, 8))
    return region


def take_members(reader: Reader, name: str, region: Region, members: list[Member], count: int):
    """The lines of so many members of a region, ascending by id."""
    while len(members) < count:
        line = reader.take(name)
        if line.whole(1, 0, LAST) != region.number:
            raise line.fault(f'line {len(members) + 1} of {count} `{name}` of region {region.number} must stand here')
        member = member_of(line)
        if members and member.id <= members[-1].id:
            raise line.fault('members ascend by id')
        members.append(member)


def take_rolls(reader: Reader, regions: list[Region]) -> list[Region]:
    """The members of each region whose roll is known. Gives these regions."""
    named, known = {region.number: region for region in regions}, []
    while reader.is_at('member'):
        line = reader.next
        region = named.pop(int(line.words[1]), None)
        if region is None or known and region.number < known[-1].number:
            raise line.fault('members stand in the order of the regions, of each region all together')
        take_members(reader, 'member', region, region.members, region.size)
        if not is_summary(region):
            raise line.fault(f'the members of region {region.number} have another summary than its line `region` says')
        known.append(region)
    return known


def is_summary(region: Region) -> bool:
    """Whether the sums, the bounds and the globals of a region are those of its members."""
    axes = list(zip(*(member.point for member in region.members)))
    told = [[sum(axis), min(axis), max(axis)] for axis in axes]
    return told == [list(axis) for axis in zip(region.sums, region.lowest, region.highest)] and \
        region.globals == region.members[:8]


def take_trees(reader: Reader, region: Region):
    """The local trees of a region: one of each colour that a member has."""
    keys, parents = {member.id for member in region.members}, set()
    for colour in range(min(COLOURS, region.size)):
        line = reader.take('local')
        if line.whole(1, 0, LAST) != region.number:
            raise line.fault(f'the local trees of region {region.number} must stand here')
        tree = tree_of(line, 2, colour, keys, 8)
        for key in parents & tree.children.keys():
            raise line.fault(f'{key} has children in a tree before this one too')
        parents |= tree.children.keys()
        region.trees.append(tree)


def take_digest(reader: Reader) -> str:
    line = reader.take('digest')
    shared = [other.text for other in reader.lines if other.words[0] in ('epoch', 'region', 'global', 'inter')]
    if line.words[1] != hashlib.sha256(''.join(text + '\n' for text in shared).encode()).hexdigest():
        raise line.fault('the digest is another one than that of the lines before')
    return line.words[1]


def read_block(printed: Printed) -> Block:
    reader, regions = Reader(printed.lines), []
    epoch = reader.take('epoch').whole(1, 0, LAST)
    while not regions or reader.is_at('region'):
        regions.append(take_region(reader, regions[-1].number if regions else -1))
    known = take_rolls(reader, regions)
    keys = {region.number for region in regions}
    trees = [tree_of(reader.take('inter'), 1, colour, keys, 2) for colour in range(COLOURS)]
    for region in known:
        take_trees(reader, region)
    digest = take_digest(reader)
    reader.take('end')
    return Block(printed.lines[0].number, printed.node, epoch, regions, trees, digest)
