#!/usr/bin/env python3
"""Draws the pictures of docs/pictures/ anew and compares them, or writes those that differ with the word `--write`.

The command of each stands in the README.md there, as

    python3 tools/picture.py docs/stories/cut.md > docs/pictures/cut.svg

A picture without a command fails, and so does one that can't be drawn. No program is needed: the stories have the
transcripts.
"""
import itertools
import os
import pathlib
import re
import sys

from picture import options, picture
from transcript import Fault

TOP = pathlib.Path(__file__).resolve().parent.parent
FOLDER = TOP / 'docs/pictures'
COMMAND = re.compile(r'^    python3 tools/picture\.py (\S+)((?: \S+)*) > (docs/pictures/\S+\.svg)$', re.MULTILINE)


def commands() -> dict[str, list[str]]:
    """The words of each command, by the name of its picture."""
    found = COMMAND.findall((FOLDER / 'README.md').read_text('utf-8'))
    return {name: [str(TOP / source), *words.split()] for source, words, name in found}


def difference(path: pathlib.Path, drawn: bytes) -> str | None:
    """Where the picture that stands differs from what is drawn now, or None."""
    if not path.exists():
        return ' there is no such picture'
    stands = path.read_bytes()
    lines = itertools.zip_longest(drawn.split(b'\n'), stands.split(b'\n'))
    places = (number for number, (line, other) in enumerate(lines, 1) if line != other)
    return None if drawn == stands else f'{next(places)}: another line is drawn'


def write(path: pathlib.Path, drawn: bytes):
    """Puts a picture in place when it is whole."""
    part = path.with_suffix('.part')
    part.write_bytes(drawn)
    part.replace(path)


def looked_at(name: str, words: list[str] | None, is_writing: bool) -> str | None:
    """Why a picture fails, or None."""
    if not words:
        return ' no command draws it'
    asked = options(words)
    source = os.path.relpath(asked.transcript, TOP)
    try:
        drawn = picture(asked).encode()
    except Fault as fault:
        return f' {fault.at(source)}'
    except OSError as error:
        return f' {source}: {error.strerror}'
    found = difference(TOP / name, drawn)
    if found and is_writing:
        write(TOP / name, drawn)
        print(f'{name}: written')
        return None
    return found


def main() -> int:
    if sys.argv[1:] not in ([], ['--write']):
        print('usage: pictures.py [--write]', file=sys.stderr)
        return 2
    asked, passed, failed = commands(), 0, 0
    stand = {str(path.relative_to(TOP)) for path in FOLDER.glob('*.svg')}
    for name in sorted(stand | set(asked)):
        found = looked_at(name, asked.get(name), '--write' in sys.argv)
        if found:
            print(f'{name}:{found}')
        passed, failed = passed + (not found), failed + bool(found)
    print(f'pictures: {passed} passed, {failed} failed')
    return 1 if failed else 0


if __name__ == '__main__':
    sys.exit(main())
