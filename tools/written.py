"""Reads off the source what the program writes, as texts with their places.

A text is what stands between quotes. `{..}` in it stands for one word. What lines in a row put is one text. Tests,
comments and the words of clauses are left out. What a variable alone tells isn't seen.
"""
import re
from dataclasses import dataclass

from rows import TOP, read

STRING = re.compile(r'(number_line\([^"]*)?"([^"]*)"')
PART = re.compile(r'\b(put_number|push_str)\((?:out, )?"([^"]*)"')
UNWRITTEN = re.compile(r'//.*|#\[error\(.*|codes "[^"]*"')
GAP = re.compile(r'\{\w*\}')


@dataclass(frozen=True)
class Text:
    """A text, and the file and the line where it stands."""
    place: str
    text: str


def texts_of(lines):
    """Each text with the number of the line where it begins."""
    began, joined = 0, ''
    # A call whose words stand on lines of their own.
    numbered = False
    for number, line in enumerate([*lines, ''], 1):
        line = UNWRITTEN.sub('', line)
        part = PART.search(line)
        if part:
            began = began or number
            joined += part[2].removesuffix(r'\n') + ('{number}' if part[1] == 'put_number' else '')
            continue
        if began:
            yield began, joined
            began, joined = 0, ''
        for call, text in STRING.findall(line):
            text = text.removesuffix(r'\n')
            yield number, f'{text.rstrip()} {{number}}' if call or numbered else text
            numbered = False
        numbered = numbered or line.endswith('number_line(')


def strings(pattern):
    """The strings of the files, but those that have gaps and signs alone."""
    for path in sorted(TOP.glob(pattern)):
        name = path.relative_to(TOP)
        lines = [] if path.name.endswith('tests.rt') else read(name).splitlines()
        for number, text in texts_of(lines):
            if GAP.sub('', text).strip(' ,>'):
                yield Text(f'{name}:{number}', text)


def matches(name, pattern, says):
    """What each match of a pattern in a file says."""
    for number, line in enumerate(read(name).splitlines(), 1):
        for match in re.finditer(pattern, line):
            yield Text(f'{name}:{number}', says(match))


def fixed_words(text):
    return re.findall(r'[a-z]+', GAP.sub('', text))


def lines_of(texts):
    """Each line that the texts make: of which texts, and a pattern. One that ends in a space begins a line."""
    heads = {text for text in texts if text.endswith(' ')}
    for text in texts:
        for parts in [[text], *([head, text] for head in heads)]:
            line = ''.join(parts) + ('{}' if text in heads else '')
            yield parts, re.compile(r'(\S+)'.join(re.escape(part) for part in GAP.split(line)))
