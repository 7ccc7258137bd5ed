"""Changes valid packets, and entries of logs, as bytes or field by field.

A change of bytes mostly makes them no packet. A change of fields mostly leaves a packet that a node looks at: a number
gets a value at an edge, an element of a list is dropped, doubled, moved or taken from another packet. Then the packet
may be mended, so that its lists ascend and its summaries are those of its rolls.
"""
import functools

import fields

AXIS = 1_000_000
LAST_REGION = 2 ** 32 - 2
EDGES = {
    'axis': (-AXIS - 1, -AXIS, AXIS, AXIS + 1), 'size': (2_000, 2_001), 'total': (65_000, 65_001),
    'kind': range(10), 'tag': range(5), 'mode': (2,), 'colour': range(5), 'dimension': range(4),
    'sum': (-2_000 * AXIS, 2_000 * AXIS), 'region': (LAST_REGION,), 'id': range(1, 10),
}
FAR = ('epoch', 'least')
GLOBALS = 8
# Lists that don't ascend by the first number of their elements.
UNORDERED = 'changes', 'steps', 'rows'


def edge(rng, number):
    """A value at an edge. Epochs mostly stay near, since a node never goes back from a far one."""
    size = fields.NUMBERS[number.name]
    near = [number.value - 1, number.value + 1]
    if number.name in FAR and rng.random() < 0.97:
        return max(0, rng.choice(near))
    top = 256 ** size
    return rng.choice([0, 1, top - 1, top - 2, top // 2, *near, *near, *EDGES.get(number.name, ())])


def changed_bytes(rng, data, other):
    """The bytes with one change, which may take some of another packet."""
    place = rng.randrange(len(data) + 1)
    end = min(len(data), place + rng.randint(1, 12))
    kind = rng.randrange(9)
    if kind < 2 and data:
        at = rng.randrange(len(data))
        byte = data[at] ^ 1 << rng.randrange(8) if kind else rng.choice((0, 1, 2, 127, 128, 255, rng.randrange(256)))
        return data[:at] + bytes([byte]) + data[at + 1:]
    if kind == 2:
        return data[:place]
    if kind == 3:
        return data + rng.randbytes(rng.randint(1, 5))
    if kind == 4:
        return data[:place] + data[end:]
    if kind == 5:
        return data[:end] + data[place:]
    if kind == 6:
        return data[:place] + other[rng.randrange(len(other) + 1):]
    if kind == 7:
        return data[:place] + other[place:]
    size = rng.choice((1, 2, 4, 8))
    value = rng.choice((0, 1, 256 ** size - 1, 256 ** size - 2, 128 * 256 ** (size - 1)))
    return data[:place] + value.to_bytes(size, 'big') + data[place + size:]


def changed_list(rng, many, others):
    """One element dropped, doubled, moved or taken from a list of another packet, or a count that is wrong."""
    parts, kind = many.parts, rng.randrange(5)
    alike = [part for other in others if other.name == many.name for part in other.parts]
    if kind == 0 and parts:
        parts.pop(rng.randrange(len(parts)))
    elif kind == 1 and parts:
        parts.insert(rng.randrange(len(parts) + 1), rng.choice(parts).fresh())
    elif kind == 2 and len(parts) > 1:
        parts.insert(rng.randrange(len(parts)), parts.pop(rng.randrange(len(parts))))
    elif kind == 3 and alike:
        parts.insert(rng.randrange(len(parts) + 1), rng.choice(alike).fresh())
    else:
        many.lie = rng.choice((-1, 1, 63, 64, 255))


def exchanged(rng, tree, others):
    """A part of the tree gives way to one of the same name of another packet."""
    holders = [node for node in fields.nodes(tree) if isinstance(node, (fields.Parts, fields.Many)) and node.parts]
    holder = rng.choice(holders)
    place = rng.randrange(len(holder.parts))
    alike = [other for other in others if other.name == holder.parts[place].name]
    if alike:
        holder.parts[place] = rng.choice(alike).fresh()


def changed_tree(rng, tree, other):
    """The tree with one to three changes, which may take parts of another one."""
    tree = tree.fresh()
    others = fields.nodes(other) if other else []
    for _ in range(rng.choice((1, 1, 1, 2, 3))):
        found = fields.nodes(tree)
        lists = [node for node in found if isinstance(node, fields.Many)]
        numbers = [node for node in found if isinstance(node, fields.Number)]
        kind = rng.randrange(10)
        if kind < 4 and numbers:
            number = rng.choice(numbers)
            number.value = edge(rng, number)
        elif kind < 8 and lists:
            changed_list(rng, rng.choice(lists), others)
        else:
            exchanged(rng, tree, others)
    if rng.random() < 0.6:
        mend(tree)
    return tree


def key(part):
    """The first number of a part, by which lists ascend."""
    return part.value if isinstance(part, fields.Number) else key(part.parts[0])


def mend(tree):
    """Lists ascend without repeats, and each summary of a region with a roll here is that of the roll."""
    for node in fields.nodes(tree):
        if isinstance(node, fields.Many):
            node.lie = 0
            if node.name not in UNORDERED:
                node.parts = [part for _, part in sorted({key(part): part for part in node.parts}.items())]
    rolls = {key(node): node.parts[1] for node in fields.nodes(tree) if node.name == 'known'}
    for node in fields.nodes(tree):
        if node.name == 'part' and [part.name for part in node.parts[1:3]] == ['region', 'roll']:
            rolls[node.parts[1].value] = node.parts[2]
    for node in fields.nodes(tree):
        roll = rolls.get(key(node)) if node.name == 'listed' else None
        if roll and roll.name == 'roll' and roll.parts:
            node.parts[1] = fields.built('summary', summary([values(member) for member in roll.parts]))


def values(member):
    """A member as values."""
    number, address, point = member.parts
    axes = [signed(axis.value) for axis in point.parts]
    return number.value, tuple(part.value for part in address.parts), tuple(axes)


def signed(value):
    return (value + 2 ** 31) % 2 ** 32 - 2 ** 31


def summary(members):
    """The values of the summary of some members, which ascend by id."""
    axes = list(zip(*(point for _, _, point in members)))
    return (len(members), *map(sum, axes), tuple(map(min, axes)), tuple(map(max, axes)), members[:GLOBALS])


@functools.lru_cache(4096)
def tree_of(data):
    """The tree of a packet, which nobody may change."""
    return fields.read('packet', data)


def mutated(rng, data, other):
    """A packet with changes: of its fields, where it has a tree, else of its bytes."""
    tree = tree_of(data) if rng.random() < 0.75 else None
    if not tree:
        return changed_bytes(rng, data, other)
    return changed_tree(rng, tree, tree_of(other) if rng.random() < 0.4 else None).spelled()
