"""The hull of some spots: the narrowest shape about them that has no dents."""
from .elements import Spot


def hull(spots: list[Spot]) -> list[Spot]:
    """The corners of the hull, in their order around it."""
    ordered = sorted(set(spots))
    return half(ordered) + half(ordered[::-1]) if len(ordered) > 2 else ordered


def half(ordered: list[Spot]) -> list[Spot]:
    """One side of the hull, from the first spot on, without the last one."""
    side = []
    for spot in ordered:
        while len(side) > 1 and turn(side[-2], side[-1], spot) <= 0:
            side.pop()
        side.append(spot)
    return side[:-1]


def turn(begin: Spot, middle: Spot, end: Spot) -> float:
    """Above 0 where the way by these spots turns to one side, below 0 to the other."""
    return (middle.x - begin.x) * (end.y - begin.y) - (middle.y - begin.y) * (end.x - begin.x)
