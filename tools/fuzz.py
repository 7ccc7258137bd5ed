#!/usr/bin/env python3
"""Hands `./census` packets, torn logs or schedules that nobody meant, for as long as one likes.

    python3 tools/fuzz.py packets --seconds 600
    python3 tools/fuzz.py packets --seed 4711 --packets 1
    python3 tools/fuzz.py logs --beside PROGRAM
    python3 tools/fuzz.py schedules --packets 1000

`packets` hands a node of the form `node` packets of a real run and of a stranger, most of them changed. `logs` tears
the writes of such a node behind any of their bytes, takes it down at any place and lets it come back. No form takes
the bytes of a log from outside: logs that somebody changed are handed over by tools/damage.py. `schedules` changes the
lines of schedules of the form `replay`.

Each run must end within the time limit and by Done, Script or Limit of docs/ANSWERS.md: the streams don't fail here,
so no other status may come, and no signal. Where it is Done each line was answered. A node that goes down between two
calls must print the view as before, and no node may print a lower epoch than before. With `--beside` another program
of the same rules gets the same words and input, and must write the same bytes and end with the same status.

Each run has a seed of its own, which is one higher than the last. `--seed` with `--packets 1` does one run again. What
failed is kept in a file too. Of a schedule each line counts as a packet.
"""
import argparse
import contextlib
import functools
import itertools
import pathlib
import random
import resource
import signal
import subprocess
import sys
import tempfile
import time
from typing import NamedTuple

from rows import TOP, rows_of_document
from texts import TEXTS

ENDS = 'Done', 'Script', 'Limit'
MOST_FAILURES = 10
WAITING = 20


class Ran(NamedTuple):
    status: int | None
    output: bytes


@functools.cache
def statuses():
    """The statuses with which a run may end here, by their numbers."""
    rows = rows_of_document('docs/ANSWERS.md')
    return {int(row.cells['number']) for row in rows if row.cells.get('status') in ENDS}


def run(program, form, text, limit):
    """What a program writes, and its status, or None where it was stopped at the time limit.

    The limit is on the seconds of the processor, since others may use it too. A program that waits is stopped later.
    """
    def limited():
        resource.setrlimit(resource.RLIMIT_CPU, (limit, limit + 1))
    process = subprocess.Popen([program, form], stdin=subprocess.PIPE, stdout=subprocess.PIPE,
                               stderr=subprocess.DEVNULL, preexec_fn=limited)
    try:
        output, _ = process.communicate(text, limit * WAITING)
    except subprocess.TimeoutExpired:
        process.kill()
        return Ran(None, process.communicate()[0])
    return Ran(None if process.returncode == -signal.SIGXCPU else process.returncode, output)


def faults(text, options):
    """What is wrong with the run of a text."""
    data = ''.join(line + '\n' for line in text.lines).encode()
    came = run(TOP / 'census', text.form, data, options.limit)
    if came.status not in statuses():
        yield 'it took too long' if came.status is None else f'it ended with {came.status}'
        return
    told = came.output.decode(errors='replace').splitlines()
    lines = [line for line in told if line.startswith('> ')]
    count = data.count(b'\n')
    if came.status == 0 and len(lines) != count:
        yield f'{len(lines)} of {count} lines were told'
    events = events_of(told)
    yield from torn_views(events)
    yield from fallen_epochs(events)
    if options.beside:
        other = run(options.beside, text.form, data, options.limit * 10)
        if other != came:
            yield f'status {came.status}, and the other program {other.status}; {parting(came, other)}'


def parting(came, other):
    """Where two outputs part."""
    pairs = itertools.zip_longest(came.output.splitlines(), other.output.splitlines())
    for number, (line, wanted) in enumerate(pairs, 1):
        if line != wanted:
            return f'line {number} of the output is {shown(line)}, and of the other {shown(wanted)}'
    return 'the lines are the same'


def shown(line):
    return 'missing' if line is None else repr(line[:100].decode(errors='replace'))


def events_of(told):
    """Each line of the schedule, and the lines of its answer."""
    events = []
    for line in told:
        if line.startswith('> '):
            events.append((line, []))
        elif events:
            events[-1][1].append(line)
    return events


def fallen_epochs(events):
    """A view that is of a lower epoch than what the node printed before."""
    last = {}
    for place, (line, answer) in enumerate(events, 1):
        if line.startswith('> print ') and answer and answer[0].startswith('epoch '):
            epoch = int(answer[0].removeprefix('epoch '))
            if epoch < last.get(line, 0):
                yield f'line {place} of the schedule prints epoch {epoch} after {last[line]}'
            last[line] = epoch


def torn_views(events):
    """A view that a crash changed: what was printed before it isn't what was printed after the restart."""
    for place in range(len(events) - 3):
        (first, before), (second, _), (third, _), (last, after) = events[place:place + 4]
        node = first.removeprefix('> print ')
        is_crash = [second, third, last] == [f'> crash {node}', f'> restart {node}', first]
        if is_crash and before not in (['down'], ['no node']) and before != after:
            yield f'line {place + 4} of the schedule prints another view than line {place + 1}'


def kept(options, seed, text):
    """The file with the lines of a run that failed."""
    options.keep.mkdir(parents=True, exist_ok=True)
    path = options.keep / f'{options.mode}-{seed}.census'
    path.write_bytes(''.join(line + '\n' for line in text.lines).encode())
    return path


class Tally:
    """What was done so far."""

    def __init__(self):
        self.runs = self.packets = self.mutated = self.failed = 0
        self.start = self.told = time.monotonic()

    def add(self, text, is_failure):
        self.runs, self.failed = self.runs + 1, self.failed + is_failure
        self.packets, self.mutated = self.packets + text.packets, self.mutated + text.mutated

    def line(self, options):
        """What was done, in one line. The runs have the seeds from the first one on."""
        seconds = max(time.monotonic() - self.start, 0.001)
        return (f'fuzz {options.mode}: {self.runs} runs from seed {options.seed} on, {self.packets} packets, '
                f'{self.mutated} of them changed, {self.packets / seconds:.0f} a second, {self.failed} failed')

    def is_over(self, options):
        seconds = time.monotonic() - self.start
        is_enough = self.packets >= options.packets if options.packets else seconds >= options.seconds
        return is_enough or self.failed >= MOST_FAILURES


def words():
    parser = argparse.ArgumentParser(usage='fuzz.py packets|logs|schedules [--seed N] [--seconds S | --packets N] '
                                           '[--beside PROGRAM] [--limit S] [--keep FOLDER]')
    parser.add_argument('mode', choices=TEXTS)
    parser.add_argument('--seed', type=int, default=random.SystemRandom().randrange(10 ** 9))
    parser.add_argument('--seconds', type=float, default=60)
    parser.add_argument('--packets', type=int)
    parser.add_argument('--beside', type=pathlib.Path)
    parser.add_argument('--limit', type=int, default=60)
    parser.add_argument('--keep', type=pathlib.Path, default=pathlib.Path(tempfile.gettempdir()) / 'census-fuzz')
    return parser.parse_args()


def work(options, tally):
    """Does one run after the other, each with the next seed."""
    seed = options.seed
    while not tally.is_over(options):
        text = TEXTS[options.mode](random.Random(seed))
        found = list(faults(text, options))
        tally.add(text, bool(found))
        for fault in found:
            print(f'seed {seed}: {fault}; the lines are in {kept(options, seed, text)}', flush=True)
        if time.monotonic() - tally.told > 30:
            tally.told = time.monotonic()
            print(tally.line(options), flush=True)
        seed += 1


def main():
    options = words()
    if run(TOP / 'census', 'node', b'', 600).status:
        print('fuzz: the program does not run')
        return 1
    print(f'fuzz {options.mode}: from seed {options.seed} on', flush=True)
    tally = Tally()
    with contextlib.suppress(KeyboardInterrupt):
        work(options, tally)
    print(tally.line(options))
    return 1 if tally.failed else 0


if __name__ == '__main__':
    sys.exit(main())
