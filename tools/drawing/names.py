"""The names of regions and the ids of members in a map, where there is room for them."""
from block import Region

from .boxes import Labels, box_at
from .circles import FEW
from .elements import GROUND, Spot, group, width_of, words
from .places import Places

MANY_REGIONS = 12
HALO = {'stroke': GROUND, 'stroke_width': 3, 'stroke_linejoin': 'round', 'paint_order': 'stroke'}
SIDES = [Spot(0.75, -0.75), Spot(0.75, 0.75), Spot(-0.75, -0.75), Spot(-0.75, 0.75),
         Spot(0, -1), Spot(1, 0), Spot(0, 1), Spot(-1, 0)]


def labels_of(places: Places) -> Labels:
    """The room for texts: they must cover neither a member nor a centroid."""
    boxes = [box_at(dot.spot, 2 * places.radius, 2 * places.radius) for dot in places.dots]
    boxes += [box_at(places.frame.centroid(region), 12, 12) for region in places.regions]
    return Labels(boxes, places.name_bounds())


def names(places: Places, labels: Labels) -> str:
    """The names of the regions: at their sides, or as numbers by the centroids where there are many."""
    many = len(places.regions) > MANY_REGIONS
    size, parts = 10.5 if many else 12, []
    for region in places.regions:
        text = str(region.number) if many else f'region {region.number}'
        spots = about(places.frame.centroid(region))
        spots = spots if many else beside(places, region, size) + spots
        spot = labels.room(spots, width_of(text, size), size) or spots[0]
        parts.append(words(text, spot.moved(0, size * 0.36)))
    return group(parts, font_size=size, font_weight='bold', text_anchor='middle', **HALO)


def about(centre: Spot) -> list[Spot]:
    """Spots about a centroid, the nearest first."""
    return [centre.moved(far * side.x, far * side.y) for far in range(12, 180, 6) for side in SIDES]


def beside(places: Places, region: Region, height: float) -> list[Spot]:
    """Spots over and under a region."""
    box, room = places.box_of(region), places.radius + 8 + height / 2
    across = (box.left + box.right) / 2
    return [Spot(across, box.top - room), Spot(across, box.bottom + room)]


def outer_ids(places: Places, labels: Labels) -> list[str]:
    """The ids of members beside their circles, where they aren't in these and are few enough."""
    if places.ids or len(places.dots) > FEW:
        return []
    parts, size = [], 9
    for dot in places.dots:
        text = str(dot.member.id)
        width, down = width_of(text, size), places.radius + 7
        right = places.radius + 3 + width / 2
        spots = [dot.spot.moved(*side) for side in [(0, -down), (0, down), (right, 0), (-right, 0)]]
        spot = labels.room(spots, width, size)
        parts += [words(text, spot.moved(0, 3.2))] if spot else []
    return [group(parts, font_size=size, text_anchor='middle')] if parts else []
