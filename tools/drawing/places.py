"""Where the regions and members of a block stand in a picture, on two of the three axes."""
from collections.abc import Sequence
from dataclasses import dataclass
from typing import NamedTuple

from block import Member, Region

from .boxes import Box, box_around, box_at
from .circles import FEW, suited
from .elements import Spot, width_of

AXES = 'xyz'


class Reach(NamedTuple):
    """The lowest and the highest coordinate on an axis."""
    low: int
    high: int


@dataclass(frozen=True)
class Frame:
    """How a point becomes a spot: its two axes, how far a microsecond is, and which coordinates are at (0, 0)."""
    axes: str
    scale: float
    left: int
    top: int

    def place(self, axes: Sequence[float]) -> Spot:
        across, up = (axes[AXES.index(axis)] for axis in self.axes)
        return Spot((across - self.left) * self.scale, (self.top - up) * self.scale)

    def centroid(self, region: Region) -> Spot:
        return self.place([total / region.size for total in region.sums])

    def box(self, region: Region) -> Box:
        low, high = self.place(region.lowest), self.place(region.highest)
        return Box(low.x, high.y, high.x, low.y)


@dataclass(frozen=True)
class Dot:
    """A member with the colour in whose tree it has children, its own spot, and the one at which it is drawn."""
    region: Region
    member: Member
    colour: int | None
    own: Spot
    spot: Spot


def seen(region: Region) -> list[Member]:
    """The members that a block tells of a region: all, or the first eight."""
    return region.members or region.globals


def reach(regions: list[Region], axis: str) -> Reach:
    place = AXES.index(axis)
    return Reach(min(region.lowest[place] for region in regions), max(region.highest[place] for region in regions))


class Places:
    """The layout of some regions of a block, as large as fits a width and a height."""

    def __init__(self, regions: list[Region], axes: str, width: float, height: float):
        self.regions, self.axes, self.width = regions, axes, width
        self.across, self.up = (reach(regions, axis) for axis in axes)
        # Members that had to move can stand outside, so a second try is smaller.
        self.lay(width - 50, height)
        if self.map_bounds().width > width:
            self.lay(2 * width - 50 - self.map_bounds().width, height)

    def lay(self, width: float, height: float):
        """Chooses the scale, and then all places."""
        # Few members stand closer, so that a line of two isn't as long as one of fifty.
        most = min(width, 90 + 40 * sum(len(seen(region)) for region in self.regions))
        wide = (self.across.high - self.across.low) / most
        high = (self.up.high - self.up.low) / min(most, height)
        self.frame = Frame(self.axes, 1 / (max(wide, high) or 1), self.across.low, self.up.high)
        self.is_wide = high * 4 < wide
        self.is_flat = min(wide, high) * 8 < max(wide, high)
        self.dots = self.placed()
        self.ids = self.size_of_ids()
        self.spots = {(dot.region.number, dot.member.id): dot.spot for dot in self.dots}

    def placed(self) -> list[Dot]:
        told = [(region, member) for region in self.regions for member in seen(region)]
        own = [self.frame.place(member.point) for _, member in told]
        self.radius, spots = suited(own)
        colours = {(region.number, key): tree.colour
                   for region in self.regions for tree in region.trees for key in tree.children}
        return [Dot(region, member, colours.get((region.number, member.id)), at, spot)
                for (region, member), at, spot in zip(told, own, spots)]

    def size_of_ids(self) -> float:
        """The size of ids that fit into the circles, or 0."""
        longest = max(width_of(str(dot.member.id), 1) for dot in self.dots)
        size = min(self.radius * 1.1, self.radius * 1.75 / longest)
        return size if size >= 5.5 and len(self.dots) <= FEW else 0

    def moved(self) -> list[Dot]:
        """The members that are drawn beside their spot, since others stand there."""
        return [dot for dot in self.dots if dot.own.distance(dot.spot) > self.radius]

    @property
    def has_spokes(self) -> bool:
        """Whether lines lead from centroids to members: regions that don't lie in a row can overlap."""
        return len(self.regions) > 1 and not self.is_flat

    def spots_of(self, region: Region) -> list[Spot]:
        return [self.spots[region.number, member.id] for member in seen(region)]

    def box_of(self, region: Region) -> Box:
        """The box about the members of a region that are seen, and about its coordinates where not all are."""
        boxes = [box_at(spot, 0, 0) for spot in self.spots_of(region)]
        return box_around(boxes if region.members else [*boxes, self.frame.box(region)])

    def bounds(self) -> Box:
        """The box of all regions, with room for circles."""
        return box_around([self.box_of(region) for region in self.regions]).wider(self.radius + 8, self.radius + 8)

    def map_bounds(self) -> Box:
        """That box, with room for a name over each region and under it."""
        return self.bounds().wider(0, 16)

    def name_bounds(self) -> Box:
        """The box in which the names of regions may stand."""
        box = self.map_bounds()
        return box.wider(max(0, self.width - box.width) / 2, 0)
