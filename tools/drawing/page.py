"""The page of a picture: its title, its digest, and cells with frames.

It has a white ground of its own, so it reads the same on a dark page.
"""
from .elements import GREY, GROUND, INK, Spot, element, escaped, shifted, title, words

WIDTH, EDGE, GAP, TOP = 980, 16, 12, 62
FRAME = '#c8ccd0'
FONT = 'Helvetica, Arial, DejaVu Sans, sans-serif'


def cell(spot: Spot, width: float, height: float, parts: list[str]) -> str:
    """A framed part of a page."""
    return shifted([element('rect', width=width, height=height, fill='none', stroke=FRAME, rx=4), *parts], spot)


def page(height: float, name: str, digest: str, cells: list[str]) -> str:
    """A whole picture."""
    told = f'digest {digest}'
    parts = [title(name), element('desc', escaped(told)), element('rect', width=WIDTH, height=height, fill=GROUND),
             words(name, Spot(EDGE, 28), font_size=19, font_weight='bold'),
             words(told, Spot(EDGE, 48), font_size=11, fill=GREY), *cells]
    return element('svg', ''.join('\n' + part for part in parts) + '\n', xmlns='http://www.w3.org/2000/svg',
                   viewBox=f'0 0 {WIDTH} {height:.1f}', width=WIDTH, height=height, role='img', font_family=FONT,
                   font_size=12, fill=INK) + '\n'
