"""Reads the rows of tables, of a document in Markdown and of a manual page with tbl.

The lines of the blocks of a section count as rows too, with one cell: that of the first block is under `block 1`. A
cell is its text without marks of fonts, code and links.
"""
import pathlib
import re
from dataclasses import dataclass

TOP = pathlib.Path(__file__).resolve().parent.parent
LINK = re.compile(r'\[([^\]]*)\]\([^)]*\)')
FONT = re.compile(r'\\f(?:\[\w*\]|\(..|.)')
HEADING = re.compile(r'\.S[HS] "?([^"]*)"?$')
SIGNS = {r'\-': '-', r'\~': ' ', r'\&': '', r'\(lq': '"', r'\(rq': '"'}


class Malformed(Exception):
    """A page that can't be read, told by file, line and fault."""


@dataclass(frozen=True)
class Row:
    """A row of a table: where it stands, under which heading, and its cells by their labels."""
    place: str
    section: str
    cells: dict[str, str]


def read(name):
    path = TOP / name
    if not path.is_file():
        raise Malformed(f'{name}:1: there is no such file')
    return path.read_text()


def labelled(place, section, labels, texts):
    """The row with these cells."""
    if len(texts) != len(labels):
        raise Malformed(f'{place}: the row has {len(texts)} cells, and the table {len(labels)} columns')
    return Row(place, section, dict(zip(labels, texts)))


def rows_of_document(name):
    """The rows of a document, each under the last heading of its second level."""
    section, labels, block, is_inside = '', None, 0, False
    for number, line in enumerate(read(name).splitlines(), 1):
        place = f'{name}:{number}'
        texts = [LINK.sub(r'\1', cell).replace('`', '').strip() for cell in line.strip('|').split('|')]
        if line.startswith('```'):
            is_inside = not is_inside
            block += is_inside
        elif is_inside:
            yield Row(place, section, {f'block {block}': line})
        elif line.startswith('## '):
            section, block = line[3:], 0
        elif line.startswith('| ') and labels:
            yield labelled(place, section, labels, texts)
        elif not line.startswith('|---'):
            labels = texts if line.startswith('| ') else None


def plain(text):
    """A text of the page without its marks."""
    text = FONT.sub('', text)
    for sign, meaning in SIGNS.items():
        text = text.replace(sign, meaning)
    return text


def joined_lines(name):
    """The lines of the page with their numbers, those of the text blocks of a row as one line."""
    row, start = '', 0
    for number, line in enumerate(read(name).splitlines(), 1):
        row, start = (f'{row} {line}', start) if row else (line, number)
        if row.count('T{') == row.count('T}'):
            yield start, row
            row = ''
    if row:
        raise Malformed(f'{name}:{start}: a text block has no end')


def rows_of_table(name, section, lines):
    """The rows up to `.TE`. Format lines come first, of which the last one ends with a full stop."""
    is_format, labels = True, None
    for number, line in lines:
        if line == '.TE':
            return
        texts = [plain(cell).removeprefix('T{').removesuffix('T}').strip() for cell in line.split('|')]
        if is_format:
            is_format = not line.endswith('.')
        elif labels is None:
            labels = texts
        elif line != '_':
            yield labelled(f'{name}:{number}', section, labels, texts)


def rows_of_page(name):
    """The rows of a manual page, each under its last heading."""
    section, block, is_inside = '', 0, False
    lines = joined_lines(name)
    for number, line in lines:
        heading = HEADING.match(line)
        if heading:
            section, block = plain(heading[1]), 0
        elif line == '.TS':
            yield from rows_of_table(name, section, lines)
        elif line in ('.EX', '.EE'):
            is_inside = line == '.EX'
            block += is_inside
        elif is_inside:
            yield Row(f'{name}:{number}', section, {f'block {block}': plain(line)})
