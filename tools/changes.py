"""Tells for each epoch of a transcript who joined, moved and left, who was refused and why, and what became of
regions.

The verdicts of a close tell who joined, moved and left. A close whose write was torn has none: the epoch at which the
leader comes back tells whether it counts, and blocks tell who changed by it, where they have all members. So it is too
where the one node of the form `node` doesn't lead: the epochs are those of its blocks then. What is told of regions
stands in regions.py.
"""
from dataclasses import dataclass, field
from typing import NamedTuple

import regions
from regions import Sight, Verdicts
from transcript import blocks
from wording import filled, named, ranged, wrapped

WHY = {
    'present': 'the id is a member already',
    'retired': 'the id left the group before',
    'full': 'the group has 2,000 members, or 16,384 with those who left',
    'absent': 'the id is no member',
    'leader': 'the leader neither moves nor leaves',
    'stale': 'this move was accepted before, or a later one',
}


class Refusal(NamedTuple):
    change: str
    reason: str


@dataclass
class Epoch:
    number: int
    order: int  # which line of the schedule made it, or printed it first
    is_printed: bool = False  # whether a block is all that tells of it
    verdicts: Verdicts | None = None  # None where no close tells them
    refused: dict[Refusal, list[int]] = field(default_factory=dict)
    torn: list[str] = field(default_factory=list)  # what is to say of torn closes


class Told(NamedTuple):
    """What is told of an epoch: the size of the group, and heads and texts on what changed."""
    epoch: Epoch
    group: str
    texts: list[tuple[str, str]]

    def is_like(self, other):
        """Whether nothing changes in both."""
        return not self.texts and not other.texts and self.group == other.group


def epochs_of(transcript):
    """The epochs that the leader made, in order."""
    epochs, torn = [], None
    for step in transcript.steps:
        word = step.words[0]
        if word == 'lead' and step.answer.startswith('up '):
            epochs.append(Epoch(0, step.order, verdicts=Verdicts(set(), set(), set())))
        elif word == 'close' and step.answer.startswith('closed '):
            epochs.append(closed(step))
        elif word == 'close' and step.answer == 'stopped log':
            torn = step.order
        elif word == 'restart' and torn and step.answer.startswith('leader '):
            come_back(epochs, torn, step)
            torn = None
    if torn and epochs:
        epochs[-1].torn.append(f'line {torn} closes, and its write is torn. The leader does not come back, so whether '
                               'it counts is not told')
    return epochs


def come_back(epochs, torn, step):
    """Whether a torn close counts is told by the epoch at which the leader comes back."""
    back = Epoch(int(step.answer.split(' ')[1]), torn)
    if not epochs or back.number > epochs[-1].number:
        back.torn.append(f'its write was torn, and in line {step.order} the leader comes back at it: it counts')
        epochs.append(back)
    else:
        epochs[-1].torn.append(f'line {torn} closes, and its write is torn. In line {step.order} the leader comes '
                               f'back at epoch {back.number}: there was no close')


def closed(step):
    changes, refused = {'join': set(), 'move': set(), 'leave': set()}, {}
    for answer in step.answers[:-1]:
        verdict, number, change, *reason = answer.text.split(' ')
        if verdict == 'accepted':
            changes[change].add(int(number))
        else:
            refused.setdefault(Refusal(change, *reason), []).append(int(number))
    return Epoch(int(step.answer.split(' ')[1]), step.order, False, Verdicts(*changes.values()), refused)


def printed(transcript):
    """The epochs of which there are blocks."""
    orders = {}
    for step in transcript.steps:
        for block in blocks([step]):
            orders.setdefault(block.epoch, step.order)
    return [Epoch(number, order, is_printed=True) for number, order in sorted(orders.items())]


class Changes:
    """Takes the epochs in order, and keeps who the members are, which regions were seen, and when they were told."""

    def __init__(self, transcript):
        self.sights = regions.sights_of(transcript)
        self.spans = regions.spans_of(self.sights)
        self.members, self.seen, self.told_at = None, set(), None

    def of(self, epoch):
        now, before = self.sights[epoch.number], self.sights.get(epoch.number - 1, Sight())
        verdicts = epoch.verdicts or self.by_blocks(before, now)
        self.count(verdicts, now)
        if now.regions is None and self.members is not None and regions.stays_one(before, len(self.members)):
            now.regions = set(before.regions)
        told = [*told_verdicts(epoch, verdicts, before, now), *self.told_regions(epoch, now)]
        size = sum(now.sizes.values()) or len(self.members or ())
        where = named('region', sorted(now.regions)) if now.regions else 'regions not told'
        members = '1 member' if size == 1 else f'{size} members' if size else 'members not told'
        return Told(epoch, f'{members}, {where}', told)

    def count(self, verdicts, now):
        """Goes on to the members of the next epoch, where they are told."""
        if now.has_all_members():
            self.members = set(now.places)
        elif self.members is not None and verdicts:
            self.members = self.members - verdicts.left | verdicts.joined
        else:
            self.members = None

    def by_blocks(self, before, now):
        """Who joined, moved and left, where no close tells it, or None where blocks don't either."""
        if self.members is None or not now.has_all_members():
            return None
        moved = {node for node, place in now.places.items()
                 if node in before.places and before.places[node].point not in (None, place.point)}
        return Verdicts(now.places.keys() - self.members, moved, self.members - now.places.keys())

    def told_regions(self, epoch, now):
        """Heads and texts on regions."""
        if now.regions is None:
            yield 'regions', 'not told: no block of this epoch is printed, and no close behind it sends pieces'
            return
        since, self.told_at = self.told_at, epoch.number
        before = now if since is None else self.sights[since]
        new = now.regions - self.seen if self.seen else set()
        gone = {region for region in before.regions - now.regions if self.spans[region].last < epoch.number}
        self.seen |= now.regions
        if since == epoch.number - 1 and not epoch.is_printed:
            yield from regions.turns(before, now, new, gone, epoch.verdicts)
        else:
            yield from ((head, named('region', sorted(some)) + f', since epoch {since}')
                        for head, some in [('new', new), ('gone', gone)] if some)
        if (new or gone) and not now.sizes:
            yield 'no block', 'of this epoch is printed: its regions are told by the pieces of the next close'


def told_verdicts(epoch, verdicts, before, now):
    """Heads and texts on who joined, moved and left, and on who was refused."""
    if epoch.number == 0 and epoch.verdicts:
        yield 'leads', ranged(now.places)
    yield from (('torn', text) for text in epoch.torn)
    if verdicts is None:
        yield 'changes', 'not told: no close says them, and no blocks that have all members'
        if now.has_all_members():
            yield 'members', ranged(sorted(now.places))
        return
    is_one = now.regions == before.regions and len(now.regions or ()) == 1
    old, new = ({}, {}) if is_one else (before.places, now.places)
    for head, nodes in [('joined', verdicts.joined), ('moved', verdicts.moved), ('left', verdicts.left)]:
        if nodes:
            yield head, placed(nodes, old if head != 'joined' else {}, new if head != 'left' else {})
    if epoch.verdicts is None and (verdicts.joined or verdicts.left or verdicts.moved):
        yield 'told by', 'blocks, since no close says it' + (
            '' if before.has_all_members() else '. Who moved is not told')
    for refusal, nodes in epoch.refused.items():
        yield 'refused', f'{ranged(sorted(nodes))}: {refusal.change}, since {WHY[refusal.reason]} ({refusal.reason})'


def placed(nodes, old, new):
    """The nodes, put together by where they were and are."""
    groups = {}
    for node in sorted(nodes):
        origin = f' from region {old[node].region}' if node in old else ''
        target = f' to region {new[node].region}' if node in new and origin else ''
        alone = f' in region {new[node].region}' if node in new and not origin else ''
        groups.setdefault(origin + target + alone, []).append(node)
    return '; '.join(ranged(some) + where for where, some in groups.items())


def told_changes(transcript):
    """The lines on all epochs, of which those in a row are told together in which nothing changes."""
    changes, epochs = Changes(transcript), epochs_of(transcript)
    runs = []
    for told in map(changes.of, epochs or printed(transcript)):
        if runs and told.is_like(runs[-1][-1]):
            runs[-1].append(told)
        else:
            runs.append([told])
    if not runs:
        return ['No node leads, and no epoch is printed.']
    lines = [] if epochs else ['No node leads, so no close is told. The epochs and lines are those of printed blocks.']
    for run in runs:
        numbers = named('epoch', [told.epoch.number for told in run])
        origins = named('line', [told.epoch.order for told in run])
        lines += [*[''] * bool(lines), *filled(f'{numbers} ({origins}): {run[0].group}')]
        lines += [line for head, text in run[0].texts for line in wrapped(head, text)] or ['  nothing changes']
    return lines
