#!/usr/bin/env python3
"""Looks at the charts beside the stories: the chart of each page of docs/stories/ that has a transcript must be what
tools/follow.py tells by the page, and the page must link to it. No program is run.

    python3 tools/charts.py --write

draws them anew. Without the word it also looks at texts that are no transcript: each must be refused by its fault.
"""
import pathlib
import sys

from changes import told_changes
from follow import told_course
from transcript import Fault, read_transcript, transcript_from, transcript_of

TOP = pathlib.Path(__file__).resolve().parent.parent
CHARTS = TOP / 'docs/stories/charts'

LEAD = '> lead 1 127.0.0.1:9001 0 0 0\nup 1\n'
JOIN = LEAD + '> boot 2 127.0.0.1:9002 10 0 0 partial\nup 2\n> join 2\ntold\n#1 2>1 report 1\n'
ALONE = LEAD + '> packet 1 00\nbad short 1\n'

# A text, the line that is wrong, and what is wrong there. The first ones are right.
TEXTS = [
    ('', None, None),
    (JOIN + '> noise 2 7\n> settle 1\n- deliver 1\nnoted 1 0 0 0\nsettled 1\n', None, None),
    (LEAD + 'fault 2 word\n', None, None),
    (LEAD + '> close', 3, "the last line has no end: '> close'"),
    ('up 1\n', 1, "no line of a schedule comes first, but 'up 1'"),
    ('> lead 1\nup 1\n', 1, "no line of a schedule: 'lead 1'"),
    (LEAD + '> stop\n', 3, "no line of a schedule: 'stop'"),
    (LEAD + '> join 2\n> close\nclosed 1\n', 3, 'the line has no answer'),
    (LEAD + '> join 1\nmembers\n', 4, "an answer that nobody knows: 'members'"),
    (LEAD + '> join 1\nheld\n', 4, "no answer to `join`: 'held'"),
    (LEAD + 'up 1\n', 3, "the line of the schedule was answered before, and this comes: 'up 1'"),
    (LEAD + '\n', 3, "an answer that nobody knows: ''"),
    (LEAD + '> close\naccepted 2 join\n', 3, 'the close has no end'),
    (LEAD + '> close\naccepted 2 join\nspent\n', 5, "no end of a close with verdicts: 'spent'"),
    (LEAD + '> print 1\nepoch 0\nregion 0 1 0 0 0 0 0 0 0 0 0\n', 4, 'the block from line 4 has no end'),
    (LEAD + '> print 1\nepoch 0\nregion 0 1\nend\n', 5, "no line of a block: 'region 0 1'"),
    (JOIN + '#2 2>1 word 1\n', 8, "no packet is told so: '#2 2>1 word 1'"),
    (JOIN + '#3 2>1 report 1\n', 8, 'packet 3 comes where 2 is the next one'),
    (JOIN + '#2 127.0.0.1:9001 00\n', 8, "a packet of the other form: '#2 127.0.0.1:9001 00'"),
    (ALONE + '> join 1\ntold\n#1 127.0.0.1:9001 00\n', 7, "no node sends these bytes: '00'"),
    (JOIN + '> deliver 2\nheld\n', 9, "packet 2 was not sent: 'held'"),
    (JOIN + '> lose 1\nno packet\n', 9, "packet 1 was sent: 'no packet'"),
    (JOIN + '- deliver 1\n', 8, "no `settle` stands before this delivery: '- deliver 1'"),
    (JOIN + '> settle 1\n- lose 1\n', 9, "no delivery of a `settle`: 'lose 1'"),
    (JOIN + '> settle 1\nsettled 1\n', 9, "0 deliveries are told, and another number: 'settled 1'"),
    (LEAD + 'fault 3 word\n', 3, "no fault of line 2 of the schedule: 'fault 3 word'"),
    (LEAD + 'fault 2 word\n> close\n', 4, "a line behind the end of the run: '> close'"),
    (LEAD + '> crash 2\ndown 2\n', 3, 'no node 2 was started'),
]


def drawn(page):
    """What stands in the chart of a page."""
    transcript = read_transcript(page)
    title = f'The run of docs/stories/{page.name}, drawn by `python3 tools/charts.py --write`.'
    return '\n'.join([title, '', *told_course(transcript), '', 'Changes:', '', *told_changes(transcript), ''])


def chart_of(page):
    return CHARTS / page.with_suffix('.txt').name


def fault_of_page(page):
    """Why the chart isn't that of the page, or None."""
    path = page.relative_to(TOP)
    if f'](charts/{chart_of(page).name})' not in page.read_text():
        return f'{path}: the page does not link to its chart'
    try:
        is_drawn = chart_of(page).exists() and chart_of(page).read_text() == drawn(page)
    except Fault as fault:
        return fault.at(path)
    return None if is_drawn else f'{path}: its chart is another one, or missing'


def fault_of_text(text):
    """The line and the fault of a text, or None twice."""
    try:
        transcript = transcript_from(text)
        told_course(transcript)
        told_changes(transcript)
    except Fault as fault:
        return fault.line, str(fault)
    return None, None


def faults(pages):
    """For each thing to look at: what is wrong with it, or None."""
    for page in pages:
        yield fault_of_page(page)
    for chart in sorted(CHARTS.glob('*')):
        if chart not in map(chart_of, pages):
            yield f'{chart.relative_to(TOP)}: there is no such story'
    for text, *wanted in TEXTS:
        came = fault_of_text(text)
        yield None if came == tuple(wanted) else f'{text!r}: wanted {wanted}, and {came} came'


def write(pages):
    """Draws all charts, and writes them only then."""
    charts = {}
    for page in pages:
        try:
            charts[chart_of(page)] = drawn(page)
        except Fault as fault:
            print(fault.at(page.relative_to(TOP)))
            return 1
    CHARTS.mkdir(exist_ok=True)
    for path, text in charts.items():
        path.write_text(text)
    return 0


def main():
    pages = [page for page in sorted(TOP.glob('docs/stories/*.md')) if transcript_of(page)]
    if sys.argv[1:] == ['--write']:
        return write(pages)
    found = list(faults(pages))
    failed = [fault for fault in found if fault]
    for fault in failed:
        print(fault)
    print(f'charts: {len(found) - len(failed)} passed, {len(failed)} failed')
    return 1 if failed else 0


if __name__ == '__main__':
    sys.exit(main())
