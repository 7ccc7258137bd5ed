#!/usr/bin/env python3
"""Shows who is at which epoch when: a chart of nodes against the lines of a schedule, by its transcript.

    python3 tools/follow.py TRANSCRIPT
    python3 tools/follow.py --nodes 2,5,7 TRANSCRIPT
    python3 tools/follow.py --changes TRANSCRIPT

A transcript is what `./census` wrote: a file, or `/dev/stdin` for a pipe. It may be a page of docs/stories/ too.

The chart has a column for each node, and a row for each line of the schedule that changes something, and for each such
delivery of a `settle`. The number in front is that of the line in the schedule. Below it stands where each node ended,
and which packets were lost, never delivered, or delivered more than once.

Where the columns don't fit into 100 characters the words are shorter. Where they still don't fit, or there are more
than 12 nodes, the leader has a column, and so have as many as there is room for of the nodes that do more than join:
those with the most cells. The last column counts what the others do, and rows are put together in which no node with a
column changes, but that a report may come to it. With `--nodes` these nodes alone have columns, and all that is told
is about them.

With `--changes` it tells for each epoch who joined, moved or left, who was refused and why, and which region was
merged or cut. What is no transcript is refused: standard error says which line is wrong and why, and the status is 1.
"""
import argparse
import itertools
import pathlib
import sys
from collections import Counter
from typing import NamedTuple

from changes import told_changes
from course import WORDS, Course
from transcript import Fault, read_transcript
from wording import WIDTH, ranged, wrapped

MOST_COLUMNS = 12
MOST_ROWS = 40
EVENT, SHORT_EVENT, OTHERS = 36, 20, 14
# What a node does that does nothing but join.
JOINING = {'up', 'reported', 'noted', 'joined', 'lost'}


class Look(NamedTuple):
    """Which nodes have a column, how many others are counted in one, and whether the words are short."""
    nodes: list[int]
    others: int
    is_short: bool


def looks(course, chosen):
    """The looks that a chart may have, the best first."""
    order = sorted(course.nodes, key=lambda number: (not course.nodes[number].is_leader, number))
    if chosen or len(order) <= MOST_COLUMNS:
        shown = [number for number in order if number in chosen] if chosen else order
        yield from (Look(shown, 0, is_short) for is_short in (False, True))
    cells = Counter(cell.node for row in course.rows for cell in row.cells)
    busy = {cell.node for row in course.rows for cell in row.cells if cell.word not in JOINING}
    first = [number for number in order if course.nodes[number].is_leader or number in busy] or order
    first.sort(key=lambda number: (not course.nodes[number].is_leader, -cells[number]))
    for count in range(min(len(first), MOST_COLUMNS), 0, -1):
        shown = [number for number in order if number in first[:count]]
        yield from (Look(shown, len(order) - count, is_short) for is_short in (False, True))


def chart(course, chosen):
    for look in looks(course, chosen):
        lines = drawn(course, look)
        if chosen and look.is_short or max(map(len, lines)) <= WIDTH:
            break
    return [*lines, '', *legend(course, look)]


def gathered(rows, look):
    """The rows, of which those are put together that change nothing in the columns."""
    def is_apart(row):
        return any(cell.node in look.nodes and cell.word != 'noted' for cell in row.cells)
    if not look.others:
        return [[row] for row in rows if any(cell.node in look.nodes for cell in row.cells)]
    groups = []
    for apart, group in itertools.groupby(rows, is_apart):
        groups += ([row] for row in group) if apart else [list(group)]
    return groups


def drawn(course, look):
    """The lines of the chart, without the legend."""
    def name(number):
        return str(number) if look.is_short else f'{"leader" if course.nodes[number].is_leader else "node"} {number}'
    others = [f'{look.others} others'] if look.others else []
    table = [['line', 'event', *map(name, look.nodes), *others]]
    marks = dict.fromkeys(look.nodes, '')
    for rows in gathered(course.rows, look):
        cells = [cell for row in rows for cell in row.cells]
        marks.update((cell.node, cell.mark) for cell in cells if cell.node in marks)
        columns = [counted(cells, [number], look) or marks[number] for number in look.nodes]
        rest = [counted(cells, course.nodes.keys() - marks.keys(), look)] if others else []
        table.append([str(rows[0].order), event(rows, look.is_short), *columns, *rest])
    widths = [max(map(len, column)) for column in zip(*table)]
    lines = ['  '.join([row[0].rjust(widths[0]), *map(str.ljust, row[1:], widths[1:])]).rstrip() for row in table]
    if others and sum(widths[:-1]) + 2 * len(widths) - 2 + OTHERS <= WIDTH:
        lines = [clipped(line, WIDTH) for line in lines]
    return headed(lines)


def headed(lines):
    """The lines, with the first one again where there are many."""
    head, *rest = lines
    parts = [rest[place:place + MOST_ROWS] for place in range(0, len(rest), MOST_ROWS)]
    found = [head, *parts[0]] if parts else [head]
    for part in parts[1:]:
        found += ['', head, *part]
    return found


def clipped(text, room):
    """The text, of which the end isn't told where there is no room for it."""
    return text if len(text) <= room else text[:room - 3] + '...'


def event(rows, is_short):
    if len(rows) > 1:
        return f'{len(rows)} rows to {rows[-1].order}'
    return clipped(rows[0].short, SHORT_EVENT) if is_short else clipped(rows[0].event, EVENT)


def counted(cells, nodes, look):
    """The words of the cells of some nodes, each with its number where there are more than one."""
    words = Counter()
    for cell in cells:
        if cell.node in nodes:
            word = WORDS[cell.word].short if look.is_short else cell.word
            words[word if cell.epoch is None else f'{word} {cell.epoch}'] += 1
    is_one = len(nodes) == 1
    return ', '.join(word if is_one and count == 1 else f'{count} {word}' for word, count in words.items())


def legend(course, look):
    """What the marks and the words of the chart mean."""
    used = {cell.word for row in course.rows for cell in row.cells if look.others or cell.node in look.nodes}
    lines = wrapped('a number', 'its epoch, as before; - where it is joining, x where it is down')
    for name, word in WORDS.items():
        if name in used:
            shown = word.short if look.is_short else name
            lines += wrapped(shown + ' E' * word.has_epoch, word.meaning)
    if look.others:
        lines += wrapped('others', 'how many nodes without a column do so; `3 rows to 9` are three, up to line 9')
    return lines


def ends(course, chosen):
    """Where each node ended."""
    def rank(node):
        return node.is_down, node.has_departed, node.epoch is None, -(node.epoch or 0), node.number
    places = {}
    for node in sorted(course.nodes.values(), key=rank):
        place = 'joining' if node.epoch is None else f'epoch {node.epoch}'
        place = 'departed' if node.has_departed else place
        if not chosen or node.number in chosen:
            places.setdefault(f'down {place}' if node.is_down else place, []).append(node.number)
    lines = ['At the end:']
    for place, numbers in places.items():
        was = place.removeprefix('down ')
        lines += wrapped('down' if was != place else place, ranged(numbers) + f' ({was} before)' * (was != place))
    return lines


def fates(course, form, chosen):
    """What became of the packets that were lost, never delivered, or delivered more than once."""
    sent = [fate for fate in course.fates.values()
            if not chosen or {fate.packet.sender, fate.packet.receiver} & chosen]
    if form == 'node':
        return [f'Packets: {len(sent)} sent, which go nowhere in the form `node`.']
    kinds = {'lost': [], 'undelivered': [], 'while down': []}
    for fate in sent:
        if not fate.answers:
            kinds['lost' if fate.is_lost else 'undelivered'].append(fate.packet)
        elif set(fate.answers) == {'down'}:
            kinds['while down'].append(fate.packet)
    lines = [f'Packets: {len(sent)} sent, {sum(bool(fate.answers) for fate in sent)} delivered.']
    for head, packets in kinds.items():
        lines += listed(head, runs(packets))
    again = [fate for fate in sent if len(fate.answers) > 1]
    return lines + listed('repeated', [f'{runs([fate.packet])[0]}: {told_answers(fate.answers)}' for fate in again])


def listed(head, texts):
    """The texts below each other, behind one head."""
    return [line for number, text in enumerate(texts) for line in wrapped('' if number else head, text)]


def told_answers(answers):
    """The answers in order, of which equal ones in a row are told once."""
    counts = [(answer, len(list(group))) for answer, group in itertools.groupby(answers)]
    return ', '.join(answer if count == 1 else f'{answer} ({count} times)' for answer, count in counts)


def runs(packets):
    """The packets, of which those are told together that one sender sent in a row of one thing."""
    found = []
    for packet in packets:
        last = found[-1][-1] if found else None
        if last and (last.number + 1, last.sender, last.what) == (packet.number, packet.sender, packet.what):
            found[-1].append(packet)
        else:
            found.append([packet])
    return [f'#{ranged([packet.number for packet in run], "..", ",")} {run[0].sender}>'
            f'{ranged([packet.receiver for packet in run], "..", ",")} {run[0].what}' for run in found]


def told_course(transcript, chosen=None):
    """The chart of a transcript, and where its nodes and packets ended."""
    course = Course(transcript)
    unknown = sorted((chosen or set()) - course.nodes.keys())
    if unknown:
        raise Fault(None, f'no node {unknown[0]} was started')
    if not course.nodes:
        return ['No node was started.']
    lines = [*chart(course, chosen), '', *ends(course, chosen), '', *fates(course, transcript.form, chosen)]
    if transcript.fault:
        *_, line, kind = transcript.fault.text.split(' ')
        lines += ['', f'The run ended at line {line} of the schedule, by its fault `{kind}`.']
    return lines


def node_ids(words):
    return {int(word) for word in words.split(',')}


def main():
    parser = argparse.ArgumentParser(usage='follow.py [--changes | --nodes 2,5,7] TRANSCRIPT')
    parser.add_argument('transcript', type=pathlib.Path)
    forms = parser.add_mutually_exclusive_group()
    forms.add_argument('--changes', action='store_true')
    forms.add_argument('--nodes', type=node_ids)
    words = parser.parse_args()
    try:
        transcript = read_transcript(words.transcript)
        lines = told_changes(transcript) if words.changes else told_course(transcript, words.nodes)
    except Fault as fault:
        print(fault.at(words.transcript), file=sys.stderr)
        return 1
    except OSError as error:
        print(f'{words.transcript}: {error.strerror}', file=sys.stderr)
        return 1
    print('\n'.join(lines))
    return 0


if __name__ == '__main__':
    sys.exit(main())
