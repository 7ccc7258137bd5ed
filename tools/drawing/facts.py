"""What a group's picture says in words: what its signs mean, as far as they occur, and a table of the regions."""
from dataclasses import dataclass

from block import Region

from .cells import DASHED, DOTS
from .edges import Edges
from .elements import GREY, GROUND, INK, TINTS, Spot, circle, element, number, shifted, words
from .names import MANY_REGIONS
from .places import Places
from .ways import Ends, cross, drawn, straight

ROW, SIGN, COLUMNS = 19, 40, 5
ORIGIN, LONG = Spot(0, 0), straight(Ends(Spot(-16, 0), Spot(16, 0)))


@dataclass(frozen=True)
class Entry:
    """A sign, drawn about (0, 0), what it means, and whether it occurs."""
    sign: list[str]
    meaning: str
    occurs: bool = True


def signs_of_members(colours: list[int], tint: str, is_tree: bool) -> list[Entry]:
    filled = [circle(Spot(13 * place - 6.5 * (len(colours) - 1), 0), 6, fill=TINTS[colour].line)
              for place, colour in enumerate(colours)]
    ringed = [circle(ORIGIN, 5, fill=tint), circle(ORIGIN, 7.2, fill='none', stroke=tint, stroke_width=1.4)]
    return [Entry(filled, 'a member with children in the tree of its colour', is_tree),
            Entry([circle(ORIGIN, 6, fill=GROUND, stroke=GREY)], 'a member without children'),
            Entry(ringed, "the root of a region's tree", is_tree)]


def signs_of_lines(edges: Edges, colours: list[int], tint: str, is_tree: bool) -> list[Entry]:
    is_first = any(edges.first(colour) for colour in colours)
    is_between = any(edges.between(colour) for colour in colours)
    return [Entry(drawn([LONG], tint, 1.4), "an edge of a region's tree", is_tree),
            Entry(drawn([LONG], INK, 1.2, **DOTS), "from a region's representative to the root of its tree", is_first),
            Entry(drawn([LONG], tint, 3.2), 'an edge of the tree of regions, by their representatives', is_between)]


def signs_of_regions(places: Places) -> list[Entry]:
    lines = ', with lines to its members' if places.has_spokes else ''
    bounds = [element('rect', x=-15, y=-7, width=30, height=14, rx=5, **DASHED)]
    is_part = not all(region.members for region in places.regions)
    return [Entry(drawn([cross(ORIGIN, 8)], INK, 1.5), f'the centroid of a region{lines}'),
            Entry(bounds, 'the bounds of a region whose first members alone are known', is_part),
            Entry(drawn([LONG], INK, 0.6), 'from a member that had to make room to its point', bool(places.moved()))]


def legend(places: Places, edges: Edges) -> list[str]:
    """The signs that occur, each with its meaning."""
    colours = edges.colours()
    tint, is_tree = TINTS[colours[0]].line if colours else INK, any(edges.local(colour) for colour in colours)
    entries = signs_of_members(colours, tint, is_tree) + signs_of_lines(edges, colours, tint, is_tree)
    shown = [entry for entry in entries + signs_of_regions(places) if entry.occurs]
    return [shifted([*entry.sign, words(entry.meaning, Spot(SIGN + 6, 4))], Spot(SIGN, ROW * (place + 0.5)))
            for place, entry in enumerate(shown)]


def table(regions: list[Region]) -> list[str]:
    """The regions with their sizes and centroids."""
    parts = row('region', 'members', 'centroid', 14, GREY)
    for place, region in enumerate(regions):
        middle = ', '.join(number(total / region.size) for total in region.sums)
        parts += row(str(region.number), str(region.size), f'({middle})', ROW * (place + 1) + 14, INK)
    return parts


def row(name: str, size: str, middle: str, down: float, ink: str) -> list[str]:
    return [words(name, Spot(52, down), text_anchor='end', fill=ink),
            words(size, Spot(122, down), text_anchor='end', fill=ink), words(middle, Spot(150, down), fill=ink)]


def short_table(regions: list[Region]) -> list[str]:
    """The regions with their sizes alone, in several columns."""
    parts = [words('region: members', Spot(14, 14), fill=GREY)]
    for place, region in enumerate(regions):
        down, right = divmod(place, COLUMNS)
        parts.append(words(f'{region.number}: {region.size}', Spot(14 + 84 * right, 14 + ROW * (down + 1))))
    return parts


class Facts:
    """The legend and the table, one under the other or side by side."""

    def __init__(self, places: Places, edges: Edges, is_wide: bool):
        count, self.is_wide = len(places.regions), is_wide
        self.legend = legend(places, edges)
        self.table = table(places.regions) if count <= MANY_REGIONS else short_table(places.regions)
        rows = count if count <= MANY_REGIONS else -(-count // COLUMNS)
        self.upper, self.lower = ROW * len(self.legend), ROW * (rows + 1)

    @property
    def height(self) -> float:
        return 20 + (max(self.upper, self.lower) if self.is_wide else self.upper + 10 + self.lower)

    def parts(self) -> list[str]:
        beside = Spot(480, 10) if self.is_wide else Spot(0, self.upper + 20)
        return [shifted(self.legend, Spot(0, 10)), shifted(self.table, beside)]
