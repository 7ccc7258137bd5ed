"""What stands in the cells of a group's picture: the map, and the trees of one colour.

The map draws the grounds of the regions and the members without colour, under names by which the other cells show
them again.
"""
from block import COLOURS, Region

from .edges import Edges
from .elements import GREY, GROUND, INK, PALE, TINTS, circle, element, group, title, words
from .hull import hull
from .names import labels_of, names, outer_ids
from .places import Dot, Places
from .ways import Ends, around, cross, drawn, straight

DASHED = {'fill': 'none', 'stroke': GREY, 'stroke_width': 1, 'stroke_dasharray': '5 4'}
DOTS = {'stroke_dasharray': '2 3'}


def shape(places: Places, region: Region) -> str:
    """The ground of a region: about its members, or the box of its coordinates where not all members are known."""
    if region.members:
        # The way of one spot leads to the spot itself, which draws a round point.
        return element('path', d=around(hull(places.spots_of(region))))
    box = places.box_of(region).wider(places.radius + 5, places.radius + 5)
    return element('rect', x=box.left, y=box.top, width=box.width, height=box.height, rx=places.radius + 5, **DASHED)


def shapes(places: Places) -> str:
    """The grounds of the regions. Where they overlap they are darker."""
    ordered = sorted(places.regions, key=lambda region: bool(region.members))
    return group([element('g', shape(places, region), opacity=0.7) for region in ordered], id='regions', fill=PALE,
                 stroke=PALE, stroke_width=2 * places.radius + 8, stroke_linejoin='round', stroke_linecap='round')


def told(dot: Dot) -> str:
    """What a viewer shows of a member where the pointer rests."""
    point = ', '.join(map(str, dot.member.point))
    return title(f'{dot.member.id} in region {dot.region.number}, {dot.member.address}, ({point})')


def ids(places: Places, dots: list[Dot], ink: str) -> list[str]:
    """The ids of members in their circles, where there is room."""
    if not places.ids:
        return []
    parts = [words(str(dot.member.id), dot.spot.moved(0, places.ids * 0.36)) for dot in dots]
    return [group(parts, fill=ink, font_size=places.ids, text_anchor='middle', pointer_events='none')]


def members(places: Places) -> str:
    """The members without colour."""
    circles = [circle(dot.spot, places.radius, told(dot)) for dot in places.dots]
    rims = group(circles, fill=GROUND, stroke=GREY, stroke_width=1 if places.radius > 3 else 0.5)
    return group([rims, *ids(places, places.dots, INK)], id='members')


def parents(places: Places, colour: int) -> list[str]:
    """The members that have children in the local trees of a colour, in this colour."""
    dots = [dot for dot in places.dots if dot.colour == colour]
    circles = [circle(dot.spot, places.radius) for dot in dots]
    if not dots:
        return []
    return [group(circles, fill=TINTS[colour].line, pointer_events='none'), *ids(places, dots, TINTS[colour].text)]


def centroids(places: Places) -> list[str]:
    """Crosses, so large that they show behind circles with ids."""
    arm = places.radius + 7 if places.ids else 8
    crosses = [cross(places.frame.centroid(region), arm) for region in places.regions]
    return drawn(crosses, GROUND, 4) + drawn(crosses, INK, 1.5)


def spokes(places: Places) -> list[str]:
    """Lines from the centroids to the members, which show who is in which region."""
    found = [straight(Ends(places.frame.centroid(dot.region), dot.spot)) for dot in places.dots]
    return drawn(found, GREY, 0.3) if places.has_spokes else []


def map_cell(places: Places) -> list[str]:
    crosses, labels = centroids(places), labels_of(places)
    parts = [shapes(places), *spokes(places)]
    parts += drawn([straight(Ends(dot.own, dot.spot)) for dot in places.moved()], INK, 0.6)
    # A cross would hide the id in a circle, and small circles would hide the cross.
    parts += crosses if places.ids else []
    parts.append(members(places))
    for colour in range(COLOURS):
        parts += parents(places, colour)
    parts += [] if places.ids else crosses
    return [*parts, names(places, labels), *outer_ids(places, labels)]


def tree_cell(places: Places, edges: Edges, colour: int) -> list[str]:
    """The trees of a colour: that of the regions, and the local ones."""
    tint, is_small = TINTS[colour].line, places.radius < 4
    local, first, between = ([edges.way(ends) for ends in found]
                             for found in [edges.local(colour), edges.first(colour), edges.between(colour)])
    rings = [circle(spot, places.radius + 2.2) for spot in edges.roots(colour).values()]
    parts = [element('use', href='#regions'), *drawn(local, tint, 0.6 if is_small else 1.4)]
    parts += drawn(first, INK, 0.8 if is_small else 1.2, **DOTS)
    # A white rim parts the lines between regions from the others.
    parts += drawn(between, GROUND, 5.6) + drawn(between, tint, 3.2)
    parts += [element('use', href='#members'), *parents(places, colour)]
    return parts + ([group(rings, fill='none', stroke=tint, stroke_width=1.4)] if rings else [])
