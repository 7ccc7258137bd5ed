"""A table of who has children in which local tree of a region, and how many.

Each member has a column and each tree a row. Where there are more members than fit side by side, bands of columns
stand one under the other.
"""
from block import Member, Region

from .elements import GREY, INK, TINTS, Spot, Tint, circle, element, shifted, width_of, words

NAMES, ROW, FONT = 76, 20, 11


class ChildrenTable:
    """The bands of the table, and how high it is."""

    def __init__(self, region: Region, width: float):
        self.region = region
        longest = max(width_of(str(member.id), FONT) for member in region.members)
        self.step = max(18, min(28, (width - NAMES) / len(region.members)))
        # Long ids stand upright over their columns.
        self.is_turned = longest > self.step
        self.head = longest + 8 if self.is_turned else ROW
        count = int((width - NAMES) // self.step)
        self.bands = [region.members[first:first + count] for first in range(0, len(region.members), count)]

    @property
    def band_height(self) -> float:
        return self.head + ROW * len(self.region.trees) + 14

    @property
    def height(self) -> float:
        return self.band_height * len(self.bands)

    def head_of(self, member: Member, x: float) -> str:
        """The id of a member over its column."""
        if not self.is_turned:
            return words(str(member.id), Spot(x, self.head - 6), text_anchor='middle')
        foot = Spot(x + 4, self.head - 6)
        return words(str(member.id), foot, transform=f'rotate(-90 {foot.x:.1f} {foot.y:.1f})')

    def column(self, member: Member, x: float) -> list[str]:
        """The id of a member, and the number of its children in each tree."""
        parts = [self.head_of(member, x)]
        for row, tree in enumerate(self.region.trees):
            middle, count = Spot(x, self.head + ROW * (row + 0.5)), len(tree.children.get(member.id, []))
            parts += number_of(count, middle, TINTS[tree.colour]) if count else [circle(middle, 1.5, fill=GREY)]
        return parts

    def band(self, members: list[Member]) -> list[str]:
        parts = [words('member', Spot(0, self.head - 6), fill=GREY)]
        for row, tree in enumerate(self.region.trees):
            parts.append(words(f'colour {tree.colour}', Spot(0, self.head + ROW * (row + 0.5) + 4), fill=GREY))
        for place, member in enumerate(members):
            parts += self.column(member, NAMES + self.step * (place + 0.5))
        return parts

    def draw(self) -> list[str]:
        return [shifted(self.band(members), Spot(0, place * self.band_height), font_size=FONT, fill=INK)
                for place, members in enumerate(self.bands)]


def number_of(count: int, middle: Spot, tint: Tint) -> list[str]:
    """A number on a square of a colour."""
    return [element('rect', x=middle.x - 8, y=middle.y - 8, width=16, height=16, rx=3, fill=tint.line),
            words(str(count), middle.moved(0, 4), text_anchor='middle', fill=tint.text)]
