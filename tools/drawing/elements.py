"""Elements of an SVG picture: numbers with fixed decimals, escaped texts, and the colours of trees.

The four colours stay tellable for readers who don't see red and green apart. Each has the colour of a text on it.
"""
import math
from typing import NamedTuple
from xml.sax import saxutils

GROUND, INK, GREY, PALE = '#ffffff', '#222222', '#767676', '#dfe4e8'


class Tint(NamedTuple):
    line: str
    text: str


WHITE, BLACK = '#ffffff', '#000000'
TINTS = [Tint('#0072b2', WHITE), Tint('#d55e00', BLACK), Tint('#009e73', BLACK), Tint('#cc79a7', BLACK)]


class Spot(NamedTuple):
    """A place in the picture: x goes to the right, and y down."""
    x: float
    y: float

    def moved(self, x: float, y: float) -> 'Spot':
        return Spot(self.x + x, self.y + y)

    def distance(self, other: 'Spot') -> float:
        x, y = self.x - other.x, self.y - other.y
        return math.sqrt(x * x + y * y)


def number(value: float) -> str:
    """A number with one decimal at most, and never -0."""
    text = f'{value:.1f}'.removesuffix('.0')
    return '0' if text == '-0' else text


def counted(count: int, name: str) -> str:
    """A number of things: `1 member`, `1,000 members`."""
    return f'{count:,} {name}' + ('' if count == 1 else 's')


def escaped(text: str) -> str:
    """A text as markup in ASCII."""
    return saxutils.escape(text, {'"': '&quot;'}).encode('ascii', 'xmlcharrefreplace').decode()


def value(given: str | float) -> str:
    return escaped(given) if isinstance(given, str) else number(given)


def element(name: str, content: str | None = None, **attributes: str | float) -> str:
    """An element. Its content is markup already; a `_` in the name of an attribute stands for `-`."""
    words = ''.join(f' {key.replace("_", "-")}="{value(given)}"' for key, given in attributes.items())
    return f'<{name}{words}/>' if content is None else f'<{name}{words}>{content}</{name}>'


def group(parts: list[str], **attributes: str | float) -> str:
    """Elements that share attributes, one in each line."""
    return element('g', ''.join('\n' + part for part in parts) + '\n', **attributes)


def shifted(parts: list[str], by: Spot, **attributes: str | float) -> str:
    """Elements that are moved together."""
    return group(parts, transform=f'translate({number(by.x)} {number(by.y)})', **attributes)


def words(text: str, spot: Spot, **attributes: str | float) -> str:
    return element('text', escaped(text), x=spot.x, y=spot.y, **attributes)


def title(text: str) -> str:
    """What a viewer shows where the pointer rests."""
    return element('title', escaped(text))


def circle(spot: Spot, radius: float, content: str | None = None, **attributes: str | float) -> str:
    return element('circle', content, cx=spot.x, cy=spot.y, r=radius, **attributes)


def width_of(text: str, size: float) -> float:
    """How wide a text is at most, nearly, in a font of this size."""
    return 0.6 * size * len(text)
