#!/usr/bin/env python3
"""Looks at each page of the documents: what it names is there, and no line has 120 characters or more.

Names are the targets of links and the paths between backticks that begin at a folder of the repository. Lines of
fenced blocks may be of any length, since those of a transcript are as long as they are.
"""
import pathlib
import re
import sys

TOP = pathlib.Path(__file__).resolve().parent.parent
PAGES = [*sorted(TOP.glob('*.md')), *sorted(TOP.glob('docs/**/*.md'))]
LINK = re.compile(r'\]\((?!https?:)([^)#\s]+)')
PATH = re.compile(r'`((?:\.ci|bench|crates|docs|examples|tools)/[\w./-]*[\w/])`')


def faults_of(page):
    is_inside = False
    for number, line in enumerate(page.read_text().splitlines(), 1):
        is_inside ^= line.startswith('```')
        if len(line) >= 120 and not is_inside:
            yield number, f'the line has {len(line)} characters'
        lost = [name for name in LINK.findall(line) if not (page.parent / name).exists()]
        lost += [name for name in PATH.findall(line) if not (TOP / name).exists()]
        for name in lost:
            yield number, f'there is no {name}'


def main():
    failed = 0
    for page in PAGES:
        faults = list(faults_of(page))
        failed += bool(faults)
        for number, fault in faults:
            print(f'{page.relative_to(TOP)}:{number}: {fault}')
    print(f'documents: {len(PAGES) - failed} passed, {failed} failed')
    return 1 if failed else 0


if __name__ == '__main__':
    sys.exit(main())
