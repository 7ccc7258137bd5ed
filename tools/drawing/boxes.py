"""Boxes along the axes of a picture, and texts that cover none of them."""
import functools
from typing import NamedTuple

from .elements import Spot


class Box(NamedTuple):
    left: float
    top: float
    right: float
    bottom: float

    @property
    def width(self) -> float:
        return self.right - self.left

    @property
    def height(self) -> float:
        return self.bottom - self.top

    @property
    def middle(self) -> Spot:
        return Spot((self.left + self.right) / 2, (self.top + self.bottom) / 2)

    def wider(self, across: float, down: float) -> 'Box':
        """The box with so much room at each side."""
        return Box(self.left - across, self.top - down, self.right + across, self.bottom + down)

    def touches(self, other: 'Box') -> bool:
        return (self.left < other.right and other.left < self.right
                and self.top < other.bottom and other.top < self.bottom)

    def around(self, other: 'Box') -> 'Box':
        """The least box that has both in it."""
        return Box(min(self.left, other.left), min(self.top, other.top),
                   max(self.right, other.right), max(self.bottom, other.bottom))


def box_at(spot: Spot, width: float, height: float) -> Box:
    """The box of this size with its middle at a spot."""
    return Box(spot.x - width / 2, spot.y - height / 2, spot.x + width / 2, spot.y + height / 2)


def box_around(boxes: list[Box]) -> Box:
    return functools.reduce(Box.around, boxes)


class Labels:
    """The boxes that texts must not cover, with those of the texts that found room within some bounds."""

    def __init__(self, boxes: list[Box], bounds: Box):
        self.boxes, self.bounds = list(boxes), bounds

    def room(self, spots: list[Spot], width: float, height: float) -> Spot | None:
        """The first of these spots about which a text has room."""
        for spot in spots:
            box = box_at(spot, width, height)
            if self.bounds.around(box) == self.bounds and not any(box.touches(other) for other in self.boxes):
                self.boxes.append(box)
                return spot
        return None
