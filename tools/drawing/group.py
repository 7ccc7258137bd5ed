"""Draws the group of a block: a map of its regions, and a cell for the trees of each colour.

The map has the members, each in the colour of the tree in which it has children, and the centroids. In the cell of a
colour are the local trees of this colour and the tree of the regions, which leads from representative to
representative. In all cells a member stands at the same place.
"""
from block import Block, Region

from .boxes import Box
from .cells import map_cell, tree_cell
from .edges import Edges
from .elements import GREY, TINTS, Spot, circle, counted, group, shifted, words
from .facts import Facts
from .page import EDGE, GAP, TOP, WIDTH, cell, page
from .places import Places, Reach

CAPTION, MOST_HEIGHT = 26, 420


class GroupPicture:
    """The cells of the picture, and where they are."""

    def __init__(self, block: Block, regions: list[Region], axes: str):
        self.block, self.regions, self.columns = block, regions, 2
        self.places = Places(regions, axes, self.cell_width - 8, MOST_HEIGHT)
        # Many members in a row need the whole width.
        if self.places.is_wide and len(self.places.dots) > 10:
            self.columns = 1
            self.places = Places(regions, axes, self.cell_width - 8, MOST_HEIGHT)
        self.edges = Edges(block, self.places)
        self.map, self.trees = self.places.map_bounds(), self.edges.bounds()
        self.facts = Facts(self.places, self.edges, self.columns == 1)

    @property
    def cell_width(self) -> float:
        return (WIDTH - 2 * EDGE - GAP * (self.columns - 1)) / self.columns

    def heights(self) -> list[float]:
        """The heights of the cells, row by row."""
        first, tree = CAPTION + self.map.height + 14, CAPTION + self.trees.height + 8
        trees = [tree] * -(-len(self.edges.colours()) // self.columns)
        return [first, *trees, self.facts.height] if self.columns == 1 else [max(first, self.facts.height), *trees]

    def inside(self, bounds: Box, height: float, parts: list[str]) -> str:
        """What stands in the middle of a cell, under its caption."""
        middle = bounds.middle
        return shifted(parts, Spot(self.cell_width / 2 - middle.x, (CAPTION + height) / 2 - middle.y))

    def axes(self, height: float) -> str:
        """What the two axes of the map are, in its lower corners."""
        across, up = self.places.axes
        return group([words(axis_of(across, 'to the right', self.places.across), Spot(10, height - 8)),
                      words(axis_of(up, 'upwards', self.places.up), Spot(self.cell_width - 10, height - 8),
                            text_anchor='end')], font_size=10, fill=GREY)

    def map_parts(self, height: float) -> list[str]:
        inside = self.inside(self.map, height - 14, map_cell(self.places))
        return [words('map', Spot(10, 18)), self.axes(height), inside]

    def tree_parts(self, colour: int, height: float) -> list[str]:
        caption = [circle(Spot(16, 14), 5, fill=TINTS[colour].line), words(f'trees of colour {colour}', Spot(28, 18))]
        return [*caption, self.inside(self.trees, height, tree_cell(self.places, self.edges, colour))]

    def cells(self) -> list[str]:
        """The cells from left to right and row by row: the map first, and the facts beside it or in the end."""
        heights, found = self.heights(), []
        contents = [self.map_parts(heights[0])]
        contents += [self.tree_parts(colour, heights[1]) for colour in self.edges.colours()]
        contents.insert(len(contents) if self.columns == 1 else 1, self.facts.parts())
        for place, parts in enumerate(contents):
            row, column = divmod(place, self.columns)
            spot = Spot(EDGE + column * (self.cell_width + GAP), TOP + sum(heights[:row]) + GAP * row)
            found.append(cell(spot, self.cell_width, heights[row], parts))
        return found

    def title(self) -> str:
        size, count = sum(region.size for region in self.regions), len(self.regions)
        whole = counted(count, 'region') if count > 1 else f'region {self.regions[0].number}'
        return f'Epoch {self.block.epoch} at node {self.block.node}: {counted(size, "member")} in {whole}'

    def draw(self) -> str:
        heights = self.heights()
        height = TOP + sum(heights) + GAP * (len(heights) - 1) + EDGE
        return page(height, self.title(), self.block.digest, self.cells())


def axis_of(name: str, way: str, told: Reach) -> str:
    if told.low == told.high:
        return f'{name} is {told.low}'
    return f'{name} {way}, {told.low} to {told.high} \u00b5s'
