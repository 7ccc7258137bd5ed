"""Places for circles that don't touch.

A circle stays where it belongs as long as that is free. Otherwise it goes to the nearest free place of a lattice about
there. How large the circles are is chosen by how many of them would have to move, and how far.
"""
import collections
import functools
import math
from collections.abc import Iterator
from typing import NamedTuple

from .elements import Spot

# Up to so many circles are large, so that ids have room in them.
FEW = 150
LARGE, MIDDLE, SMALL, LEAST = [11, 9, 7.5], [6, 5, 4], [3.2, 2.6, 2], 1.6
# How far circles of one point stand apart, in radii: so far that lines can be seen between them.
LOOSE = 2.9


class Square(NamedTuple):
    column: int
    row: int


class Suited(NamedTuple):
    """The radius of circles, and where they are."""
    radius: float
    spots: list[Spot]


@functools.cache
def lattice(rings: int = 28) -> list[Spot]:
    """The points of a lattice of triangles about (0, 0), the nearest first."""
    steps, height = range(-rings, rings + 1), math.sqrt(3) / 2
    points = [Spot(right + down / 2, down * height) for down in steps for right in steps]
    return sorted(points, key=lambda spot: (round(spot.x * spot.x + spot.y * spot.y, 6), spot.y, spot.x))


class Ground:
    """Circles of one radius that don't touch, by the square in which their middle is."""

    def __init__(self, radius: float):
        self.close, self.loose = 2 * radius + max(0.6, radius / 5), LOOSE * radius
        self.squares, self.tried = {}, {}

    def square(self, spot: Spot) -> Square:
        return Square(int(spot.x // self.loose), int(spot.y // self.loose))

    def is_free(self, spot: Spot, apart: float) -> bool:
        own = self.square(spot)
        near = (Square(own.column + right, own.row + down) for right in (-1, 0, 1) for down in (-1, 0, 1))
        return all(spot.distance(other) >= apart - 0.001 for square in near for other in self.squares.get(square, ()))

    def take(self, spot: Spot) -> Spot:
        self.squares.setdefault(self.square(spot), []).append(spot)
        return spot

    def kept(self, spot: Spot) -> Spot | None:
        """The spot, where it is free."""
        return self.take(spot) if self.is_free(spot, self.close) else None

    def free(self, spot: Spot, step: float, apart: float) -> Spot | None:
        """The nearest free place of a lattice about a spot. What wasn't free of it before is passed over."""
        points = lattice()
        for place in range(self.tried.get((spot, step), 0), len(points)):
            self.tried[spot, step] = place + 1
            found = spot.moved(points[place].x * step, points[place].y * step)
            if self.is_free(found, apart):
                return found
        return None

    def nearest(self, spot: Spot, is_shared: bool) -> Spot:
        """The place of a circle that can't stay at its spot, which others may share with it."""
        found = self.free(spot, self.loose, self.loose) if is_shared else self.free(spot, self.close / 2, self.close)
        return self.take(found or self.free(spot, self.close, self.close) or spot)


class Spread:
    """Circles at some spots: first those that can stay where they are, and then the others."""

    def __init__(self, spots: list[Spot], radius: float):
        self.spots, self.ground, self.counts = spots, Ground(radius), collections.Counter(spots)
        self.kept = [self.ground.kept(spot) for spot in spots]

    def moved(self) -> int:
        """How many have to move, without those that share their spot with one that stays."""
        return self.kept.count(None) - len(self.spots) + len(self.counts)

    def places(self) -> Iterator[Spot]:
        for spot, kept in zip(self.spots, self.kept):
            yield kept or self.ground.nearest(spot, self.counts[spot] > 1)


def suited(spots: list[Spot]) -> Suited:
    """Circles at these spots: the largest of which few have to move, or none moves far."""
    is_few = len(spots) <= FEW
    for most in [0, len(spots) / 4] if is_few else []:
        for radius in LARGE:
            spread = Spread(spots, radius)
            if spread.moved() <= most:
                return Suited(radius, list(spread.places()))
    for radius in LARGE + MIDDLE + SMALL if is_few else SMALL:
        placed = near_places(spots, radius, max(8, 2.4 * radius))
        if placed:
            return Suited(radius, placed)
    return Suited(LEAST, list(Spread(spots, LEAST).places()))


def near_places(spots: list[Spot], radius: float, farthest: float) -> list[Spot] | None:
    """Where circles of this radius go, unless one of them would go too far."""
    placed = []
    for spot, place in zip(spots, Spread(spots, radius).places()):
        if spot.distance(place) > farthest:
            return None
        placed.append(place)
    return placed
