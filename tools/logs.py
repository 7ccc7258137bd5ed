"""Makes up logs of a leader and of members, by the rules and the formats of docs, and damages them.

The log of a leader has changes that are all accepted. Behind each 16 epochs it has a base: as long as all members are
in one region that of its own group, else one that is the first entry behind the start. The log of a member has views
and steps of a stranger. Some of these steps have a fault, so not each of these logs gives a node.
"""
import functools
from typing import NamedTuple

import fields
import mutations
from stranger import Stranger, ascending, summaries

LEADER = 1
# Above the ids of a stranger's members.
MEMBER = 40
BETWEEN = 16
LENGTH = 4
WORD = 2 ** 32


class Log(NamedTuple):
    """The payloads of the frames, who the node is, its epoch, and what must come back where that is known."""
    payloads: list[bytes]
    node: int
    epoch: int
    state: str | None


def entry(*value):
    return fields.built('entry', value).spelled()


def address(node):
    return 0x7F000001, 9000 + node


def frame(payload, lie=0):
    """A frame, whose length is told wrong by the lie."""
    return ((len(payload) + lie) % WORD).to_bytes(LENGTH, 'big') + payload


def spelled(payloads):
    return b''.join(map(frame, payloads))


def frames_of(data):
    """The places and the payloads of the whole frames, and their length together."""
    found, place = [], 0
    while place + LENGTH <= len(data):
        end = place + LENGTH + int.from_bytes(data[place:place + LENGTH], 'big')
        if end > len(data):
            break
        found.append((place, data[place + LENGTH:end]))
        place = end
    return found, place


def some_point(rng):
    return tuple(rng.choice((rng.randint(-9, 9), rng.randint(-10 ** 6, 10 ** 6))) for _ in range(3))


class Leader:
    """The rows of a group as it grows, by id: region, member and number of the last move."""

    def __init__(self, rng):
        self.rng, self.left, self.fresh = rng, [], 2
        me = LEADER, address(LEADER), some_point(rng)
        self.rows = {LEADER: (0, me, 0)}
        self.payloads = [entry(1, 1, *me, 1, LEADER, me[1])]
        self.epoch, self.regions = 0, 1

    def join(self):
        number, self.fresh = self.fresh, self.fresh + self.rng.randint(1, 3)
        member = number, address(number), some_point(self.rng)
        self.rows[number] = 0, member, 0
        return 1, member

    def change(self, number):
        """A leave or a move of a member that isn't the leader."""
        if self.rng.random() < 0.3:
            del self.rows[number]
            self.left.append(number)
            return 3, number
        region, (_, place, _), moves = self.rows[number]
        moves, point = moves + self.rng.randint(1, 3), some_point(self.rng)
        self.rows[number] = region, (number, place, point), moves
        return 2, number, moves, point

    def changes(self):
        others = [number for number in self.rows if number != LEADER]
        known = self.rng.sample(others, min(len(others), self.rng.choice((0, 0, 1, 3))))
        joins = self.rng.choice((0, 1, 1, 4)) if len(self.rows) < 40 else 0
        made = [self.change(number) for number in known] + [self.join() for _ in range(joins)]
        self.rng.shuffle(made)
        return made

    def base(self):
        """The fields of a base behind its epoch, without the changes."""
        rows = sorted(self.rows.values(), key=lambda row: (row[0], row[1][0]))
        return self.regions, sorted(self.left), rows

    def spread(self):
        """The members are in some regions now, and the log goes on with a base."""
        rng = self.rng
        self.epoch, self.regions = rng.choice((16, 32, 1600, WORD - 11)), rng.randint(4, 9)
        for _ in range(rng.randint(3, 30)):
            self.join()
        self.left = sorted(rng.sample(range(1000, 2000), rng.randint(0, 9)))
        self.rows = {number: (rng.randrange(3), *row[1:]) for number, row in self.rows.items()}

    def close(self, is_base):
        base = self.base()
        changes = self.changes()
        self.epoch += 1
        told = (7, self.epoch, *base, changes) if is_base else (6, self.epoch, changes)
        self.payloads.append(entry(*told))


def leader_log(rng):
    leader = Leader(rng)
    is_spread = rng.random() < 0.3
    if is_spread:
        leader.spread()
        leader.close(True)
    for _ in range(rng.choice((0, 1, 2, 4, 4, 8 if is_spread else 20))):
        leader.close(not is_spread and leader.epoch > 0 and leader.epoch % BETWEEN == 0)
    return Log(leader.payloads, LEADER, leader.epoch, f'leader {leader.epoch}')


class Member:
    def __init__(self, rng):
        self.rng, self.is_full, self.moves = rng, rng.random() < 0.5, 0
        self.stranger = Stranger(rng, MEMBER, rng.choice((0, 0, 7, WORD - 300)))
        who = MEMBER, address(MEMBER), some_point(rng), int(self.is_full), LEADER, address(LEADER)
        self.payloads = [entry(1, 0, *who)]

    def know(self):
        """The node knows all regions, or the one with itself."""
        rolls = self.stranger.rolls
        self.stranger.known = set(rolls) if self.is_full else {it for it, roll in rolls.items() if MEMBER in roll}

    def view(self):
        self.stranger.view()
        self.know()
        rolls = self.stranger.rolls
        known = [(region, ascending(rolls[region])) for region in sorted(self.stranger.known)]
        self.payloads.append(entry(3, (self.stranger.epoch, summaries(rolls), known)))

    def step(self):
        told = self.stranger.slices()
        self.know()
        self.payloads.append(entry(4, [frame(tree.spelled()) for _, tree in sorted(told, key=lambda one: one[0])]))

    def move(self):
        self.moves += 1
        self.payloads.append(entry(2, self.moves, some_point(self.rng)))


def member_log(rng):
    member = Member(rng)
    for _ in range(rng.choice((0, 1, 1, 1, 2))):
        member.view()
        for _ in range(rng.choice((0, 1, 2, 3))):
            rng.choice((member.step, member.step, member.move))()
    epoch = member.stranger.epoch
    if rng.random() < 0.1:
        member.payloads.append(entry(5, epoch))
    return Log(member.payloads, MEMBER, epoch, None)


def made_log(rng):
    return (leader_log if rng.random() < 0.4 else member_log)(rng)


def changed_frames(rng, payloads, other):
    """A frame dropped, doubled, moved, or taken from another log."""
    payloads, kind, place = list(payloads), rng.randrange(5), rng.randrange(len(payloads))
    if kind == 0:
        payloads.pop(place)
    elif kind == 1:
        payloads.insert(rng.randint(place, len(payloads)), payloads[place])
    elif kind == 2:
        payloads.insert(rng.randrange(len(payloads)), payloads.pop(place))
    elif kind == 3:
        payloads.insert(rng.randint(0, len(payloads)), rng.choice(other))
    else:
        payloads[place:] = other[rng.randrange(len(other)):]
    return payloads


@functools.lru_cache(4096)
def tree_of(payload):
    """The tree of an entry, which nobody may change."""
    return fields.read('entry', payload)


def changed_payload(rng, payloads, other):
    """Fields or bytes of one payload, the length of which is told as it is."""
    payloads, place = list(payloads), len(payloads) - 1 - int(rng.random() ** 2 * len(payloads))
    tree, taken = tree_of(payloads[place]), rng.choice(other)
    if tree and rng.random() < 0.75:
        payloads[place] = mutations.changed_tree(rng, tree, tree_of(taken)).spelled()
    else:
        payloads[place] = mutations.changed_bytes(rng, payloads[place], taken)
    return payloads


def with_lie(rng, payloads):
    """A length that is told wrong."""
    place = rng.randrange(len(payloads))
    lie = rng.choice((-1, 1, -4, 4, 256, -len(payloads[place]), WORD - 1 - len(payloads[place]), rng.randrange(WORD)))
    return spelled(payloads[:place]) + frame(payloads[place], lie) + spelled(payloads[place + 1:])


def damaged(rng, payloads, other):
    """The bytes of a log with some changes."""
    for _ in range(rng.choice((1, 1, 1, 2))):
        change = changed_payload if rng.random() < 0.7 else changed_frames
        payloads = change(rng, payloads or other, other)
    kind = rng.randrange(10)
    if kind == 0 and payloads:
        return with_lie(rng, payloads)
    data = spelled(payloads)
    if kind == 1:
        return mutations.changed_bytes(rng, data, spelled(other))
    return data[:rng.randint(0, len(data))] if kind == 2 else data
