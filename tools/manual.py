#!/usr/bin/env python3
"""Holds the manual page docs/census.1 to the documents and to the source. It reads their texts, and runs nothing.

The page and a document have the same rows under the headings of SECTIONS. Of a row the cells under the labels of KEYS
are compared, and of the block of a view its lines; what else a row says is not. Which form has a line follows from the
rows `not here`. The first transcript of the page is that of its story, and each path that the page names is there.

The source is a third witness:
- The strings of crates/cs_world/src are the answers. Each must come in an answer of docs/ANSWERS.md and of the page,
  and each answer must come of strings. docs/FORMATS.md must have each of their words in a code span.
- Those of crates/cs_show/src begin the lines of a block.
- Those that printing.rt of cs_script prints are the lines of a schedule, by first word and number of words, and the
  modes.
- The arms of output.rt of census are the faults of a line, and those of status.rt the numbers of statuses.
- The usage line and the line of a fault stand in docs/FORMATS.md and in the page.
"""
import re
import sys
from collections import Counter
from dataclasses import dataclass

from rows import TOP, Malformed, plain, read, rows_of_document, rows_of_page
from stories import transcript_of
from written import GAP, Text, fixed_words, lines_of, matches, strings

PAGE, ANSWERS, FORMATS = 'docs/census.1', 'docs/ANSWERS.md', 'docs/FORMATS.md'
STORY = 'docs/stories/first-join.md'
KEYS = ('answer', 'to', 'from', 'count of noted', 'line', 'kind', 'number', 'status', 'word', 'what it may be',
        'quantity', 'limit', 'block 1')
SECTIONS = {
    ANSWERS: {'Answers to a line': 'Answers to a line', 'Answers to a packet': 'Answers to a packet',
              'Faults of bytes': 'Answers to a packet', "Packets that don't fit": 'Answers to a packet',
              'Answers to a close': 'Answers to a close', 'Lines of packets': 'Lines of packets',
              'Faults of a line': 'Faults of a line', 'EXIT STATUS': 'Exit statuses'},
    FORMATS: {'LINES': 'A schedule', 'The block of a view': 'The block of a view', 'LIMITS': 'Limits'},
}
# Cells that are no line of their own, and words for faults that end a run before they are told.
NO_LINES = {'no line', 'noted .. behind them', 'epoch E to end'}
UNTOLD = {'link', 'memory'}


@dataclass(frozen=True)
class Finding:
    """Something that was looked at: where it stands, and what is wrong with it, if anything."""
    place: str
    fault: str


def key(row):
    return ', '.join(f'{label} {row.cells[label]!r}' for label in KEYS if label in row.cells)


def among(rows, others, name):
    """Each row is among the others, of which none serves twice."""
    left = Counter(map(key, others))
    for row in rows:
        left[key(row)] -= 1
        yield Finding(row.place, f'{name} has no row with {key(row)}' if left[key(row)] < 0 else '')


def same_rows(page, document, name):
    """The page and the document have the same rows."""
    sections = SECTIONS[name]
    for heading in dict.fromkeys(sections.values()):
        rows = [row for row in document if row.section == heading and key(row)]
        others = [row for row in page if sections.get(row.section) == heading and key(row)]
        yield from among(rows, others, PAGE)
        yield from among(others, rows, name)


def strays(rows, sections):
    """No table stands under a heading that isn't compared."""
    for row in rows:
        if row.section not in sections:
            yield Finding(row.place, f'nothing is compared with the rows under {row.section!r}')


def same_forms(page, answers):
    """A line that one form answers `not here` is one of the other form."""
    others, forms = {'replay': 'node', 'node': 'replay'}, {}
    for row in answers:
        if row.cells.get('answer') == 'not here':
            names, _, lacking = row.cells['to'].rpartition(' in ')
            forms.update(dict.fromkeys(names.split(', '), others.get(lacking)))
    for row in page:
        if 'form' in row.cells:
            wanted = forms.get(row.cells['line'].split()[0], 'both')
            is_same = row.cells['form'] == wanted
            yield Finding(row.place, '' if is_same else f'by {ANSWERS} the form of this line is {wanted}')


def answers_in(rows):
    """The answers and the lines of packets."""
    for row in rows:
        is_packet = row.section == 'Lines of packets'
        cell = row.cells['line'] if is_packet else row.cells.get('answer', '')
        yield from (Text(row.place, answer) for answer in cell.split(', ') if answer)


def same_answers(rows, name):
    """The source writes the answers of the rows, and no others. A word of a change fills a gap of a verdict."""
    written, answers = list(strings('crates/cs_world/src/*.rt')), list(answers_in(rows))
    found, told = set(UNTOLD), set(NO_LINES)
    for parts, pattern in lines_of({string.text for string in written}):
        for answer in answers:
            match = pattern.fullmatch(answer.text)
            if match:
                told.add(answer.text)
                found.update(parts, match.groups())
    for string in written:
        yield Finding(string.place, '' if string.text in found else f'{name} has no answer {string.text!r}')
    for answer in answers:
        yield Finding(answer.place, '' if answer.text in told else f'the source has no answer {answer.text!r}')


def words_stand(name):
    """Each word of an answer stands in a code span of the document."""
    text = re.sub(r'```.*?```', '', read(name), flags=re.DOTALL)
    words = UNTOLD | {word for span in re.findall(r'`([^`]+)`', text) for word in span.split()}
    for string in strings('crates/cs_world/src/*.rt'):
        lost = [word for word in fixed_words(string.text) if word not in words]
        yield Finding(string.place, f'{name} has no word {lost[0]!r}' if lost else '')


def same_texts(source, document, name):
    """The source and the document have the same texts."""
    source, document = list(source), list(document)
    for texts, others, where in (source, document, name), (document, source, 'the source'):
        there = {text.text for text in others}
        for text in texts:
            yield Finding(text.place, '' if text.text in there else f'{where} has no {text.text!r}')


def shape(line):
    """A line's first word, and how many are behind it. A point is three."""
    words = line.replace('{at}', 'X Y Z').split(' ')
    return f'line {words[0]} with {len(words) - 1} words'


def same_lines(rows, name):
    """The lines of a schedule, and the modes in them, are those of the source."""
    printing = 'crates/cs_script/src/printing.rt'
    printed = matches(printing, r'format!\(in alloc; "([^"]*)"', lambda match: shape(match[1]))
    own = [row for row in rows if row.section in ('LINES', 'A schedule')]
    lines = [Text(row.place, shape(row.cells['line'])) for row in own if 'line' in row.cells]
    yield from same_texts(printed, lines, name)
    arms = matches(printing, r'Mode::\w+ => "(\w+)"', lambda match: f'mode {match[1]}')
    modes = [Text(row.place, f'mode {mode}') for row in own if row.cells.get('word') == 'MODE'
             for mode in row.cells['what it may be'].split(' or ')]
    yield from same_texts(arms, modes, name)


def same_blocks(rows, name):
    """The lines of a block begin as those of the source."""
    shown = [Text(string.place, f'line {word}') for string in strings('crates/cs_show/src/*.rt')
             for word in fixed_words(string.text)[:1]]
    lines = [Text(row.place, f'line {row.cells["block 1"].split()[0]}') for row in rows
             if row.section == 'The block of a view' and 'block 1' in row.cells]
    yield from same_texts(shown, lines, name)


def same_faults(rows, name):
    """The faults of a line are those of the source."""
    arms = matches('crates/census/src/output.rt', r'LineFault::\w+ => "(\w+)"', lambda match: f'fault {match[1]}')
    kinds = [row for row in rows if 'kind' in row.cells]
    yield from same_texts(arms, [Text(row.place, f'fault {row.cells["kind"]}') for row in kinds], name)


def same_statuses(rows, name):
    """The statuses and their numbers are those of the source. That of `./census` itself has no name."""
    arms = matches('crates/census/src/status.rt', r'Status::(\w+) => (\d+)', lambda match: f'{match[1]} is {match[2]}')
    named = [row for row in rows if row.cells.get('status')]
    texts = [Text(row.place, f'{row.cells["status"]} is {row.cells["number"]}') for row in named]
    yield from same_texts(arms, texts, name)


def lines_stand(name):
    """The usage line and the line of a fault stand in the document."""
    text = plain(read(name))
    for string in [*strings('crates/census/src/main.rt'), *strings('crates/census/src/output.rt')]:
        pattern = '[A-Z]+'.join(re.escape(part) for part in GAP.split(string.text))
        yield Finding(string.place, '' if re.search(pattern, text) else f'{name} has no line {string.text!r}')


def paths_stand():
    """Each path that the page names is there."""
    for number, line in enumerate(read(PAGE).splitlines(), 1):
        for path in re.findall(r'(?:docs|examples|tools)/[\w./-]*\w|README\.md', plain(line)):
            yield Finding(f'{PAGE}:{number}', '' if (TOP / path).exists() else f'there is no {path}')


def same_story(page):
    """The first transcript of the page is that of its story."""
    blocks = {}
    for row in page:
        if row.section == 'EXAMPLES':
            for label, line in row.cells.items():
                blocks.setdefault(label, []).append(Text(row.place, line))
    shown = next((lines for lines in blocks.values() if lines[0].text.startswith('> ')), [Text(f'{PAGE}:1', '')])
    wanted = [line.rstrip('\n') for _, line in transcript_of(TOP / STORY)]
    is_same = [line.text for line in shown] == wanted
    yield Finding(shown[0].place, '' if is_same else f'this is not the transcript of {STORY}')


def findings():
    page, answers, formats = [list(rows) for rows in (
        rows_of_page(PAGE), rows_of_document(ANSWERS), rows_of_document(FORMATS))]
    yield from same_rows(page, answers, ANSWERS)
    yield from same_rows(page, formats, FORMATS)
    yield from strays(page, {'EXAMPLES', *SECTIONS[ANSWERS], *SECTIONS[FORMATS]})
    yield from strays(answers, SECTIONS[ANSWERS].values())
    yield from same_forms(page, answers)
    for rows, name in (answers, ANSWERS), (page, PAGE):
        yield from same_answers(rows, name)
        yield from same_faults(rows, name)
        yield from same_statuses(rows, name)
    yield from same_statuses(formats, FORMATS)
    yield from words_stand(FORMATS)
    for rows, name in (formats, FORMATS), (page, PAGE):
        yield from same_lines(rows, name)
        yield from same_blocks(rows, name)
        yield from lines_stand(name)
    yield from paths_stand()
    yield from same_story(page)


def main():
    try:
        found = list(findings())
    except Malformed as fault:
        print(f'{fault}\nmanual: 0 passed, 1 failed')
        return 1
    faults = [finding for finding in found if finding.fault]
    for finding in faults:
        print(f'{finding.place}: {finding.fault}')
    print(f'manual: {len(found) - len(faults)} passed, {len(faults)} failed')
    return 1 if faults else 0


if __name__ == '__main__':
    sys.exit(main())
