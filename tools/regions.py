"""What a transcript tells of the regions of each epoch: which there were, who was in them, and what became of them.

A block tells all regions of its epoch with their sizes, and the members that its node knows. A close sends pieces for
each region of the epoch before it, but for one in which the leader is alone it may send none. Its snapshots have the
region of each joiner. And by the rules the leader is alone in region 0 at epoch 0, a number is never given to a second
region, and a single region stays one as long as it has no more members than are cut.
"""
from collections import defaultdict
from dataclasses import dataclass, field
from typing import NamedTuple

from transcript import blocks

MOST_UNCUT = 48


class Place(NamedTuple):
    region: int
    point: str | None


@dataclass
class Sight:
    """What is told of one epoch. Where `regions` is None nothing tells which there are."""
    regions: set[int] | None = None
    sizes: dict[int, int] = field(default_factory=dict)
    places: dict[int, Place] = field(default_factory=dict)

    def look_at(self, block):
        for line in block.lines:
            word, *numbers = line.text.split(' ')
            if word == 'region':
                self.sizes[int(numbers[0])] = int(numbers[1])
            elif word in ('global', 'member'):
                self.places[int(numbers[1])] = Place(int(numbers[0]), ' '.join(numbers[3:]))
        self.regions = set(self.sizes)

    def has_all_members(self):
        return bool(self.sizes) and sum(self.sizes.values()) == len(self.places)

    def members_of(self, region):
        return {node for node, place in self.places.items() if place.region == region}


class Span(NamedTuple):
    """The first and the last epoch at which a region is told."""
    first: int
    last: int


class Verdicts(NamedTuple):
    """Whom a close let in, moved and let out."""
    joined: set[int]
    moved: set[int]
    left: set[int]


def sights_of(transcript):
    """The sight of each epoch of which something is told."""
    sights = defaultdict(Sight)
    for block in blocks(transcript.steps):
        if transcript.form == 'node':
            # Bytes of strangers may have made an earlier block of this epoch another one.
            sights[block.epoch] = Sight()
        sights[block.epoch].look_at(block)
    for step in transcript.steps:
        if step.words[0] == 'lead' and step.answer.startswith('up '):
            node, _, *point = step.words[1:]
            sights[0] = Sight({0}, {0: 1}, {int(node): Place(0, ' '.join(point))})
        elif step.words[0] == 'close' and step.answer.startswith('closed '):
            look_at_packets(sights, step)
    spans = spans_of(sights)
    for epoch, sight in sights.items():
        if sight.regions and not sight.sizes:
            sight.regions |= {region for region, span in spans.items() if span.first < epoch < span.last}
    return sights


def look_at_packets(sights, step):
    """Takes from the packets of a close where its joiners are, and which regions there were before it."""
    epoch = int(step.answer.split(' ')[1])
    before = sights[epoch - 1]
    for packet in step.packets:
        word, _, *words = packet.what.split(' ')
        if word == 'snap':
            # A snapshot for a joiner has one region.
            sights[epoch].places.setdefault(packet.receiver, Place(int(words[0].split(',')[0]), None))
        elif word == 'piece' and not before.sizes:
            before.regions = (before.regions or set()) | {int(words[0])}


def spans_of(sights):
    spans = {}
    for epoch in sorted(sights):
        for region in sights[epoch].regions or ():
            spans[region] = Span(spans[region].first if region in spans else epoch, epoch)
    return spans


def stays_one(before, members):
    """Whether the next epoch has just the one region that this one has."""
    return before.regions is not None and len(before.regions) == 1 and members <= MOST_UNCUT


def turns(before, now, new, gone, verdicts):
    """Heads and texts on the regions that one close made new, and on those that are gone by it."""
    cuts = {region: cut_region(before, now, new, verdicts) for region in new}
    for region, cut in cuts.items():
        name = 'a region that is not told' if cut is None else f'region {cut}'
        yield 'cut', f'{name}: its upper members are region {region} now'
    for region in sorted(gone):
        yield end_of(region, before, now, cuts, verdicts)


def cut_region(before, now, new, verdicts):
    """Which region was cut to make the new one, or None where that is not told."""
    kept = now.regions - new
    if len(kept) == 1:
        return min(kept)
    if verdicts:
        stayed = now.members_of(min(new)) - verdicts.joined - verdicts.moved
        origins = {before.places[node].region for node in stayed if node in before.places} & kept
        if origins:
            return min(origins)
    # The lower members of a cut are as many as the upper ones, or one more.
    halves = {region for region in kept if now.sizes.get(region, -2) - now.sizes.get(min(new), 0) in (0, 1)}
    return min(halves) if len(halves) == 1 else None


def end_of(region, before, now, cuts, verdicts):
    """What became of a region that is gone: head and text."""
    if not now.sizes:
        return 'gone', f'region {region}: it was merged or emptied, or the leader alone is in it'
    members = before.members_of(region)
    if not verdicts:
        return 'gone', f'region {region}: it was merged or emptied'
    stayed = members - verdicts.left - verdicts.moved
    is_whole = len(members) == before.sizes.get(region)
    if is_whole and not stayed:
        return 'gone', f'region {region}: all its members left or moved'
    is_too_large = before.sizes.get(region, 1) > len(verdicts.left | verdicts.moved)
    if not stayed and not is_too_large:
        return 'gone', f'region {region}: it was merged or emptied'
    targets = {now.places[node].region for node in stayed if node in now.places} or now.regions - cuts.keys()
    targets = {cuts.get(target, target) for target in targets}
    target = targets.pop() if len(targets) == 1 else None
    return 'merged', f'region {region} into ' + ('another one' if target is None else f'region {target}')
