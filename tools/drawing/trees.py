"""Draws the local trees of one region side by side, and who has children in which.

A member that has children in a tree is filled in there. In the other trees it is a leaf, with a rim in the colour of
the tree in which it has children. Beneath stands a table with the number of each member's children: in each column
there is one number at most.
"""
from dataclasses import dataclass

from block import Block, Region, Tree

from .children import ChildrenTable
from .elements import GREY, GROUND, INK, TINTS, Spot, circle, counted, group, shifted, width_of, words
from .page import EDGE, GAP, TOP, WIDTH, cell, page
from .ways import Ends, drawn, straight

CAPTION, ROW, LEVEL, LARGE, SMALL, FONT = 30, 22, 56, 10, 5, 11
MOST_UPRIGHT = 8


@dataclass(frozen=True)
class Node:
    """A key of a tree: how far it is from the root, and where it stands across that."""
    depth: int
    row: float


def laid(tree: Tree, is_list: bool) -> dict[int, Node]:
    """A place for each key: leaves one behind another, and a parent in the middle of its children.

    In a list each key has a row of its own, and children stand behind their parents.
    """
    children, depths, waiting = tree.children, {}, [(tree.root, 0)]
    while waiting:
        key, depth = waiting.pop()
        depths[key] = depth
        waiting += [(child, depth + 1) for child in reversed(children.get(key, []))]
    rows = {key: row for row, key in enumerate(key for key in depths if is_list or key not in children)}
    for key in [key for key in reversed(depths) if key not in rows]:
        rows[key] = (rows[children[key][0]] + rows[children[key][-1]]) / 2
    return {key: Node(depth, rows[key]) for key, depth in depths.items()}


class TreesPicture:
    """The cells of the trees, and the table under them."""

    def __init__(self, block: Block, region: Region):
        self.block, self.region = block, region
        self.colours = {key: tree.colour for tree in region.trees for key in tree.children}
        self.longest = max(width_of(str(member.id), FONT) for member in region.members)
        # Ids that don't fit into circles stand beside them, so that each needs a row.
        self.is_list = self.longest > 2 * LARGE
        self.font = FONT if self.is_list else min(FONT, FONT * 1.7 * LARGE / self.longest)
        self.laid = [laid(tree, self.is_list) for tree in region.trees]
        nodes = [node for tree in self.laid for node in tree.values()]
        self.rows, self.depth = 1 + max(node.row for node in nodes), max(node.depth for node in nodes)
        # Few leaves stand side by side, under their parents, and many one under the other.
        self.is_upright = not self.is_list and self.rows <= MOST_UPRIGHT
        self.cell_width = (WIDTH - 2 * EDGE - 3 * GAP) / 4
        self.height = CAPTION + (LEVEL * self.depth + 36 if self.is_upright else ROW * self.rows + 8)
        self.table = ChildrenTable(region, WIDTH - 2 * EDGE - 20)

    def spot(self, node: Node) -> Spot:
        """Where a node is in its cell."""
        if self.is_upright:
            right = (node.row - (self.rows - 1) / 2) * min(40, (self.cell_width - 30) / self.rows)
            return Spot(self.cell_width / 2 + right, CAPTION + 14 + LEVEL * node.depth)
        room = (self.cell_width - 34 - (self.longest if self.is_list else 0)) / max(self.depth, 1)
        return Spot(18 + (min(20, room) if self.is_list else room) * node.depth, CAPTION + ROW * (node.row + 0.5))

    def edge(self, ends: Ends) -> str:
        """The way of an edge. In a list it goes down, and then to the right."""
        corner = Spot(ends.begin.x, ends.end.y)
        parts = [Ends(ends.begin, corner), Ends(corner, ends.end)] if self.is_list else [ends]
        return ''.join(map(straight, parts))

    def node(self, key: int, spot: Spot, colour: int) -> str:
        """A member in the tree of a colour, with its id in it or beside it."""
        own, ink = self.colours.get(key), INK
        look = {'fill': GROUND, 'stroke': GREY if own is None else TINTS[own].line, 'stroke_width': 2}
        if own == colour:
            look, ink = {'fill': TINTS[own].line}, TINTS[own].text
        if self.is_list:
            return circle(spot, SMALL, **look) + words(str(key), spot.moved(SMALL + 4, 4))
        return circle(spot, LARGE, **look) + words(str(key), spot.moved(0, 4), text_anchor='middle', fill=ink)

    def tree(self, tree: Tree, nodes: dict[int, Node]) -> list[str]:
        tint, spots = TINTS[tree.colour].line, {key: self.spot(node) for key, node in nodes.items()}
        edges = [self.edge(Ends(spots[edge.parent], spots[edge.child])) for edge in tree.edges]
        caption = [circle(Spot(16, 14), 5, fill=tint), words(f'colour {tree.colour}, root {tree.root}', Spot(28, 18))]
        shapes = [self.node(key, spot, tree.colour) for key, spot in spots.items()]
        return [*caption, *drawn(edges, tint, 1.4), group(shapes, font_size=self.font)]

    def cells(self) -> list[str]:
        trees = zip(self.region.trees, self.laid)
        return [cell(Spot(EDGE + place * (self.cell_width + GAP), TOP), self.cell_width, self.height, self.tree(*tree))
                for place, tree in enumerate(trees)]

    def title(self) -> str:
        members = counted(self.region.size, 'member')
        return f'Epoch {self.block.epoch} at node {self.block.node}: trees of region {self.region.number}, {members}'

    def draw(self) -> str:
        caption = ('how many children a member has in each tree; where it has none, its rim has the colour of the '
                   'tree in which it has some')
        down, height = TOP + self.height + GAP, self.table.height + 34
        parts = [words(caption, Spot(10, 18)), shifted(self.table.draw(), Spot(10, 28))]
        table = cell(Spot(EDGE, down), WIDTH - 2 * EDGE, height, parts)
        return page(down + height + EDGE, self.title(), self.block.digest, [*self.cells(), table])
