#!/usr/bin/env python3
"""Draws a printed block of a transcript as an SVG picture.

    python3 tools/picture.py TRANSCRIPT > PICTURE.svg

writes a picture of the last block: a map of the regions with their members at their points, and the trees of each
colour. A page of docs/stories/ may stand in the place of a transcript, and so may /dev/stdin.

    --node ID, --epoch E    the last block that this node printed, or of this epoch
    --axes xy|xz|yz         the axes that go to the right and upwards, x and y where nothing is said
    --region K              this region alone
    --trees                 the local trees of one region side by side, and who has children in which

A text that isn't a transcript is refused with its first fault and the line, and status 1. A line that is spelled wrong
comes first, and then what is wrong with a block. Nothing is written then.
"""
import argparse
import pathlib
import sys

from block import Block, Region, read_block
from drawing.group import GroupPicture
from drawing.trees import TreesPicture
from transcript import Fault, blocks, read_transcript


def options(arguments: list[str]) -> argparse.Namespace:
    parser = argparse.ArgumentParser(prog='picture', description='draws a printed block of a transcript as SVG')
    parser.add_argument('transcript', type=pathlib.Path, help='a transcript, or a page of docs/stories/')
    parser.add_argument('--node', type=int, metavar='ID', help='a block that this node printed')
    parser.add_argument('--epoch', type=int, metavar='E', help='a block of this epoch')
    parser.add_argument('--axes', choices=['xy', 'xz', 'yz'], default='xy', help='the axes to the right and upwards')
    parser.add_argument('--region', type=int, metavar='K', help='this region alone')
    parser.add_argument('--trees', action='store_true', help='the local trees of one region side by side')
    return parser.parse_args(arguments)


def blocks_of(path: pathlib.Path) -> list[Block]:
    """Each block of a transcript, in order."""
    found = [read_block(printed) for printed in blocks(read_transcript(path).steps)]
    if not found:
        raise Fault(None, 'no block stands in the text')
    return found


def chosen(found: list[Block], node: int | None, epoch: int | None) -> Block:
    """The last block of a node and of an epoch, where these are named."""
    fitting = [block for block in found if node in (None, block.node) and epoch in (None, block.epoch)]
    if not fitting:
        told = ('' if node is None else f' of node {node}') + ('' if epoch is None else f' of epoch {epoch}')
        raise Fault(None, f'no block{told} stands in the text')
    return fitting[-1]


def regions_of(block: Block, number: int | None) -> list[Region]:
    """The region of this number, or all where none is named."""
    found = [region for region in block.regions if number in (None, region.number)]
    if not found:
        raise Fault(block.line, f'the block has no region {number}')
    return found


def region_of(block: Block, number: int | None) -> Region:
    """The one region of which the trees are to be drawn."""
    found = regions_of(block, number)
    known = [region for region in found if region.trees]
    if not known:
        of = f' of region {found[0].number}' if len(found) == 1 else ''
        raise Fault(block.line, f'the block has no local trees{of}')
    if len(known) > 1:
        raise Fault(block.line, 'the block has local trees of several regions, and --region names one')
    return known[0]


def picture(asked: argparse.Namespace) -> str:
    """The picture that the options ask for."""
    block = chosen(blocks_of(asked.transcript), asked.node, asked.epoch)
    if asked.trees:
        return TreesPicture(block, region_of(block, asked.region)).draw()
    return GroupPicture(block, regions_of(block, asked.region), asked.axes).draw()


def main() -> int:
    asked = options(sys.argv[1:])
    try:
        drawn = picture(asked)
    except OSError as error:
        print(f'picture: {asked.transcript}: {error.strerror}', file=sys.stderr)
        return 1
    except Fault as fault:
        print(f'picture: {fault.at(asked.transcript)}', file=sys.stderr)
        return 1
    print(drawn, end='')
    return 0


if __name__ == '__main__':
    sys.exit(main())
