"""Ways of lines: straight ones, crosses, and lines that are bent.

A way is the text by which SVG draws a path. Many of them put together are one path.
"""
from typing import NamedTuple

from .elements import Spot, element, number


class Ends(NamedTuple):
    """Where a line leads from and to."""
    begin: Spot
    end: Spot


class Bend(NamedTuple):
    """How far lines are bent: by a part of their length, and not beyond a limit."""
    part: float
    most: float


def drawn(ways: list[str], ink: str, width: float, **more: str | float) -> list[str]:
    """Some ways as one path of a colour and a width, or nothing."""
    return [element('path', d=''.join(ways), stroke=ink, stroke_width=width, fill='none', **more)] if ways else []


def pair(spot: Spot) -> str:
    return f'{number(spot.x)} {number(spot.y)}'


def straight(ends: Ends) -> str:
    return f'M{pair(ends.begin)}L{pair(ends.end)}'


def cross(spot: Spot, arm: float) -> str:
    return (straight(Ends(spot.moved(-arm, 0), spot.moved(arm, 0)))
            + straight(Ends(spot.moved(0, -arm), spot.moved(0, arm))))


def around(spots: list[Spot]) -> str:
    """The way along some spots and back to the first one."""
    return 'M' + 'L'.join(map(pair, [*spots, spots[0]])) + 'Z'


def apex(ends: Ends, bend: Bend) -> Spot:
    """The spot towards which a line is bent: upwards, or to the right where the line stands upright."""
    begin, end = ends
    part = min(bend.part, bend.most / max(begin.distance(end), 1))
    x, y = (end.x - begin.x) * part, (end.y - begin.y) * part
    x, y = (y, -x) if x > 0 or x == 0 and y > 0 else (-y, x)
    return Spot((begin.x + end.x) / 2 + x, (begin.y + end.y) / 2 + y)


def bent(ends: Ends, bend: Bend) -> str:
    return f'M{pair(ends.begin)}Q{pair(apex(ends, bend))} {pair(ends.end)}'


def top(ends: Ends, bend: Bend) -> Spot:
    """Where a bent line is farthest from the straight one."""
    middle = apex(ends, bend)
    return Spot((ends.begin.x + 2 * middle.x + ends.end.x) / 4, (ends.begin.y + 2 * middle.y + ends.end.y) / 4)
