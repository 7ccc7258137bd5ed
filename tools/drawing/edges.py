"""Which lines a group's picture has: the edges of its trees, and the ways to their roots.

Lines are bent, so that they don't lead through members that stand in a row.
"""
from block import COLOURS, Block, Region

from .boxes import Box, box_around, box_at
from .elements import Spot
from .places import Places
from .ways import Bend, Ends, bent, top

FLAT, OPEN = Bend(0.42, 110), Bend(0.16, 60)


def representative(region: Region, colour: int) -> int:
    """The member that stands for a region: one of its globals."""
    return region.globals[colour % len(region.globals)].id


class Edges:
    """The lines of each colour between the places of some regions."""

    def __init__(self, block: Block, places: Places):
        self.block, self.places = block, places
        self.bend = FLAT if places.is_flat else OPEN

    def way(self, ends: Ends) -> str:
        return bent(ends, self.bend)

    def stands_for(self, region: Region, colour: int) -> Spot:
        return self.places.spots[region.number, representative(region, colour)]

    def roots(self, colour: int) -> dict[int, Spot]:
        """The root of each region's tree."""
        return {region.number: self.places.spots[region.number, tree.root]
                for region in self.places.regions for tree in region.trees if tree.colour == colour}

    def local(self, colour: int) -> list[Ends]:
        """The edges of the local trees."""
        return [Ends(*(self.places.spots[region.number, key] for key in edge)) for region in self.places.regions
                for tree in region.trees if tree.colour == colour for edge in tree.edges]

    def first(self, colour: int) -> list[Ends]:
        """The ways from the representatives of the regions to the roots of their trees, where these are two."""
        roots = self.roots(colour)
        found = [Ends(self.stands_for(region, colour), roots[region.number]) for region in self.places.regions
                 if region.number in roots]
        return [ends for ends in found if ends.begin != ends.end]

    def between(self, colour: int) -> list[Ends]:
        """The edges of the tree of the regions, between their representatives."""
        shown = {region.number: self.stands_for(region, colour) for region in self.places.regions}
        return [Ends(shown[edge.parent], shown[edge.child]) for edge in self.block.trees[colour].edges
                if edge.parent in shown and edge.child in shown]

    def colours(self) -> list[int]:
        """The colours that have an edge."""
        return [colour for colour in range(COLOURS) if self.local(colour) or self.between(colour)]

    def bounds(self) -> Box:
        """The box of all regions and lines."""
        found = [ends for colour in range(COLOURS)
                 for ends in self.local(colour) + self.first(colour) + self.between(colour)]
        return box_around([self.places.bounds(), *(box_at(top(ends, self.bend), 6, 6) for ends in found)])
