"""What the bytes of a packet are, in the words that the line of a packet has in the form `replay`.

The bytes are those of docs/FORMATS.md, as two digits each. Of the fields only those are read that the words need.
"""
import struct
from typing import NamedTuple

KINDS = {1: 'report', 2: 'piece', 3: 'need', 4: 'slice', 5: 'ask', 6: 'snap', 7: 'bye'}
MEMBER = 22
SUMMARY_TO_GLOBALS = 4 + 3 * 8 + 2 * 12


class Named(NamedTuple):
    sender: int
    receiver: int
    what: str


class Bytes:
    """Takes fields from the front."""

    def __init__(self, data):
        self.data, self.place = data, 0

    def number(self, layout):
        """The number of 1, 2 or 4 bytes that comes next, by the layout `B`, `H` or `I`."""
        found, = struct.unpack_from('>' + layout, self.data, self.place)
        self.skip(struct.calcsize('>' + layout))
        return found

    def skip(self, count):
        self.place += count

    def snapshot(self):
        """The epoch, and the regions of the rolls."""
        epoch = self.number('I')
        for _ in range(self.number('B')):
            self.skip(4 + SUMMARY_TO_GLOBALS)
            self.skip(MEMBER * self.number('B'))
        regions = []
        for _ in range(self.number('B')):
            regions.append(str(self.number('I')))
            self.skip(MEMBER * self.number('H'))
        return f'{epoch} {",".join(regions)}'

    def fields(self, kind):
        if kind == 'snap':
            return self.snapshot()
        if kind in ('need', 'ask'):
            self.skip(4 + 2 + 1)
        layouts = {'report': 'B', 'piece': 'IIB', 'need': 'II', 'slice': 'II', 'ask': 'I', 'bye': 'I'}[kind]
        return ' '.join(str(self.number(layout)) for layout in layouts)


def named(digits):
    """What the packet is, or None where the bytes are too short for that or of no known kind."""
    packet = Bytes(bytes.fromhex(digits.removeprefix('-')))
    try:
        _, kind, sender, receiver = (packet.number(layout) for layout in 'BBII')
        return Named(sender, receiver, f'{KINDS[kind]} {packet.fields(KINDS[kind])}')
    except (struct.error, KeyError):
        return None
