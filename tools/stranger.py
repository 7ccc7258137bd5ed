"""Packets that a stranger makes up for a node: a view, slices that lead on from it, reports and requests.

What a real run sends to one node is few packets, of views that are alike. A stranger hands the node any view that fits
together, by a snapshot of a later epoch, and so knows where the node stands, whatever came before. The slices of the
next epoch follow from that view by the rules on steps of a view in docs/RULES.md. Some are then changed.
"""
import fields
import mutations

FAR_OUT = 9
REGIONS = 9
# How many members a roll has at most. Most are small, since what a run costs is bytes.
SIZES = 1, 1, 2, 2, 3, 3, 12
LAST_EPOCH = 2 ** 32 - 2


class Made:
    """A packet, and whether it is a changed one."""
    __slots__ = 'data', 'is_mutated'

    def __init__(self, data, is_mutated=False):
        self.data, self.is_mutated = data, is_mutated


class Stranger:
    def __init__(self, rng, node, epoch=0):
        self.rng, self.node, self.epoch = rng, node, epoch
        self.rolls, self.known = {}, set()

    def chance(self, share):
        return self.rng.random() < share

    def packet(self, kind, *values):
        receiver = self.node if self.chance(0.98) else self.rng.randint(1, 9)
        return Made(fields.packet(kind, self.rng.randint(1, 30), receiver, *values))

    # A member, as values. Rolls are kept by id.

    def address(self):
        """One of few addresses."""
        return 0x7F000001, self.rng.randint(9001, 9005)

    def point(self):
        return tuple(self.rng.randint(-FAR_OUT, FAR_OUT) for _ in range(3))

    def member(self, number):
        return number, self.address(), self.point()

    def roll(self, most):
        return {number: self.member(number) for number in self.rng.sample(range(1, 30), self.rng.randint(1, most))}

    def view(self):
        """A snapshot of a later epoch, of a few regions with a few members."""
        rng = self.rng
        self.epoch = min(LAST_EPOCH, self.epoch + rng.choice((1, 1, 1, 2)))
        is_wide = self.chance(0.002)
        regions = sorted(rng.sample(range(66), 64) if is_wide else
                         rng.sample(range(REGIONS), rng.choice((1, 1, 1, 2, 2, 3, 5))))
        self.rolls = {region: self.roll(1 if is_wide else rng.choice(SIZES)) for region in regions}
        own = rng.choice(regions)
        self.rolls[own][self.node] = self.member(self.node)
        self.known = {own} | {region for region in regions if self.chance(0.4)}
        rolls = [(region, ascending(self.rolls[region])) for region in sorted(self.known)]
        return self.packet(6, (self.epoch, summaries(self.rolls), rolls))

    # The next epoch.

    def changed(self, roll):
        """The roll, of which some leave and some come or move."""
        stay = {number: member for number, member in roll.items() if number == self.node or self.chance(0.8)}
        found = stay | (self.roll(2) if self.chance(0.6) else {})
        return found or roll

    def cut(self, rolls):
        """Which region is cut, and the value of the cut."""
        large = [region for region, roll in rolls.items() if len(roll) > 1]
        if not large or self.chance(0.6):
            return None, (0,)
        region, axis = self.rng.choice(large), self.rng.randrange(3)
        number, _, point = self.rng.choice(ascending(rolls[region]))
        return region, (1, axis, point[axis], number, self.rng.randrange(max(rolls) + 3))

    def slices(self):
        """The slices of the next epoch, of the regions that the node may know."""
        rng = self.rng
        before = self.rolls
        after = {region: self.changed(roll) if self.chance(0.6) else dict(roll) for region, roll in before.items()}
        gone = into = None
        if len(before) > 1 and self.chance(0.3):
            gone, into = rng.sample(sorted(before), 2)
            after[into] = after[into] | after.pop(gone)
        region, cut = self.cut(after)
        parts = {}
        for old in before:
            told = cut if region == (into if old == gone else old) else (0,)
            if old == gone:
                parts[old] = 2, into, ascending(after[into]), told
            else:
                parts[old] = difference(before[old], after[old], told)
        if region is not None:
            after |= halves(region, cut, after[region])
        self.epoch, self.rolls = self.epoch + 1, after
        left = sorted(number for number in rng.sample(range(3, 40), rng.randint(0, 2)) if number != self.node)
        told = [(new, value) for new, value in summaries(after) if (new, value) not in summaries(before)]
        head = left, [] if gone is None else [gone], told, [old for old in sorted(parts) if parts[old][0]]
        due = [old for old in sorted(self.known & parts.keys()) if parts[old][0]] or sorted(parts)[:1]
        self.known = set(after) if self.chance(0.5) else {new for new in after if self.node in after[new]}
        return [(old, fields.built('slice', (self.epoch, old, *head, parts[old]))) for old in due]

    def step(self):
        """The packets by which the node comes to the next epoch, in any order."""
        if not self.rolls or self.epoch >= LAST_EPOCH:
            return [self.view()]
        found = []
        for region, tree in self.slices():
            is_mutated = self.chance(0.2)
            if is_mutated:
                tree = mutations.changed_tree(self.rng, tree, None)
            for packet in self.told(region, tree.spelled()):
                packet.is_mutated |= is_mutated
                found.append(packet)
        if self.chance(0.6):
            self.rng.shuffle(found)
        return found

    def told(self, region, data):
        """A slice as a whole, or as most of its pieces."""
        if self.chance(0.35):
            return [self.packet(4, data)]
        return [self.packet(2, self.epoch, region, colour, total, block) for colour, total, block in
                some_pieces(self.rng, data)]

    # What else comes.

    def other(self):
        """A report, a request, or a piece of an epoch nearby."""
        rng, mode = self.rng, self.rng.randrange(2)
        kind = rng.randrange(8)
        near = max(1, self.epoch + rng.choice((-1, 0, 0, 0, 1, 2)))
        if kind < 3:
            ids = rng.sample(range(1, 50), rng.choice((1, 1, 1, 1, 2, 9)))
            return self.packet(1, [self.change(number) for number in ids])
        if kind < 5:
            return self.packet(5, self.address(), mode, rng.choice((0, near)))
        if kind < 7:
            return self.packet(3, self.address(), mode, near, rng.randrange(REGIONS))
        _, blocks = fields.cut(rng.randbytes(rng.randint(1, 30)))
        total = 3 * len(blocks[0]) - rng.randrange(4)
        return self.packet(2, near, rng.choice([*self.rolls, 4]), rng.randrange(4), max(1, total), blocks[0])

    def change(self, number):
        """A change of a report about this id."""
        kind = self.rng.randint(1, 3)
        if kind == 1:
            return 1, self.member(number)
        return (2, number, self.rng.randint(1, 9), self.point()) if kind == 2 else (3, number)

    def bye(self):
        """What ends a node."""
        return self.packet(7, self.epoch)


def some_pieces(rng, data):
    """Two, three or all of the four pieces of some bytes."""
    total, blocks = fields.cut(data)
    return [(colour, total, blocks[colour]) for colour in rng.sample(range(4), rng.choice((2, 3, 3, 3, 4)))]


def ascending(roll):
    return [roll[number] for number in sorted(roll)]


def summaries(rolls):
    return [(region, mutations.summary(ascending(rolls[region]))) for region in sorted(rolls)]


def difference(before, after, cut):
    """The part that tells a region what became of it."""
    gone = sorted(before.keys() - after.keys())
    here = [member for member in ascending(after) if before.get(member[0]) != member]
    return (1, gone, here, cut) if gone or here or cut[0] else (0,)


def halves(region, cut, roll):
    """The lower and the upper members of a region that is cut. Where one of them is empty the step has a fault."""
    _, axis, place, number, upper = cut
    low = {key: member for key, member in roll.items() if (member[2][axis], key) < (place, number)}
    high = {key: member for key, member in roll.items() if key not in low}
    return {new: part for new, part in ((region, low), (upper, high)) if part}
