#!/usr/bin/env python3
"""Damages logs, hands them to `recover` of cs_node, and looks at what comes back, for as long as one likes.

    python3 tools/damage.py
    python3 tools/damage.py --seed 4711 --runs 1
    python3 tools/damage.py --write FOLDER
    python3 tools/damage.py --program PROGRAM --seconds 600

No form of `./census` takes the bytes of a log, so there is a small program of its own for that, in
tools/recovering.py. It is run by `rt try`, unproved, which takes a few minutes. `--write` lays it out as one more
crate in a copy of the others, and `--program` takes one that was built.

A run has a log that a node may have, and others that are this one with bytes, fields, lengths or frames changed, taken
from another log, or cut. A node that comes back is asked, is told of changes, closes, moves and is brought back again.
The program must answer each line and end well. A node that stops must name a place where a frame is, or that there is
none, and leave its log as it was. One that comes back must do so again after what it logged. A log with a torn tail
must give what its whole frames give. With `--beside` another program of the same rules gets the same lines, and must
write the same. `--given` has logs, a line of hexadecimal for each, in the place of those that are made up.

Each run has a seed of its own, which is one higher than the last. What failed is kept in a file too.
"""
import argparse
import collections
import contextlib
import itertools
import pathlib
import random
import subprocess
import sys
import tempfile
import time
import zlib
from typing import NamedTuple

import fields
import logs
import recovering

LOGS = 40
# The runs of one call of `rt try`, whose program may write up to 1 MiB.
TRIED = 50
LIMIT = 600
MOST_FAILURES = 10
STRANGER = 9


class Case(NamedTuple):
    """A log, what happens to the node, what must come back, and whether it is the last log without its torn tail."""
    data: bytes
    calls: list[str]
    state: str | None = None
    is_twin: bool = False

    def line(self):
        return ' '.join([self.data.hex(), *self.calls])


class Told(NamedTuple):
    """What the node is, first and after each call; the size and the sum of its log; what it sent."""
    states: list[str]
    logged: str
    sent: str


def told_from(line):
    *states, logged, sent = line.split(', ')
    return Told(states, logged, sent)


def logged(data):
    return f'log {len(data)} {zlib.adler32(data)}'


def some_calls(rng, log):
    """An ask and a need, changes and a close, a move, and after a crash an ask again."""
    node, home = log.node, (0x7F000001, 9000 + STRANGER)
    ask = fields.packet(5, node, node, home, 1, 0).hex()
    need = fields.packet(3, node, node, home, 1, max(1, log.epoch), rng.randrange(4)).hex()
    changes = [(1, (77, home, (1, 1, 1))), (3, rng.randint(2, 9)), (2, rng.randint(10, 19), 9, (2, 2, 2))]
    report = fields.packet(1, STRANGER, node, changes).hex()
    return [ask, need, report, 'close', 'move', 'again', ask]


def given_log(rng, given):
    """A log, or a front of it."""
    payloads = [payload for _, payload in logs.frames_of(rng.choice(given))[0]]
    payloads = payloads[:rng.randint(1, len(payloads))] if rng.random() < 0.3 else payloads
    trees = filter(None, map(logs.tree_of, payloads))
    epochs = [part.value for tree in trees for part in fields.nodes(tree) if part.name == 'epoch']
    return logs.Log(payloads, int.from_bytes(payloads[0][2:6], 'big'), max(epochs, default=0), None)


def cases(seed, given):
    rng = random.Random(seed)
    log, other = (given_log(rng, given) if given else logs.made_log(rng) for _ in range(2))
    calls = some_calls(rng, log)
    yield Case(logs.spelled(log.payloads), calls, log.state)
    for _ in range(LOGS):
        data = logs.damaged(rng, log.payloads, other.payloads)
        yield Case(data, calls)
        _, whole = logs.frames_of(data)
        if whole < len(data):
            yield Case(data[:whole], calls, is_twin=True)


def faults(case, told, last):
    """What is wrong with what was told of a log."""
    if len(told.states) != 1 + len(case.calls):
        yield 'not each call was told'
        return
    frames, _ = logs.frames_of(case.data)
    first, again, before = told.states[0], told.states[case.calls.index('again') + 1], told.states[-3]
    stops = [f'bad {place}' for place, _ in frames] or ['empty']
    if first.startswith(('bad ', 'empty')):
        if first not in stops:
            yield 'there is no such place'
        if set(told.states) != {first} or told.logged != logged(case.data) or told.sent != 'sent 0 1':
            yield 'a node that stopped did something'
    elif not first.startswith(('joining', 'departed', 'member ', 'leader ')) or not frames:
        yield 'no such node can come back'
    if again != before:
        yield f'it was {before}, and came back as {again}'
    if case.state and first != case.state:
        yield f'{case.state} must come back'
    if case.is_twin and (told.states, told.sent) != (last.states, last.sent):
        yield 'a torn tail made a difference'


class Tally:
    """What was done so far."""

    def __init__(self, options):
        self.options, self.start = options, time.monotonic()
        self.runs = self.failed = 0
        self.states = collections.Counter()

    def line(self):
        found = ', '.join(f'{count} {state}' for state, count in sorted(self.states.items()))
        return (f'damage: {self.runs} runs from seed {self.options.seed} on, {self.states.total()} logs '
                f'({found or "none"}), {self.failed} failed')

    def is_over(self):
        if self.options.runs:
            return self.runs >= self.options.runs or self.failed >= MOST_FAILURES
        return time.monotonic() - self.start >= self.options.seconds or self.failed >= MOST_FAILURES

    def fail(self, seed, lines, fault):
        """Tells of a run that failed, and keeps its lines."""
        self.failed += 1
        self.options.keep.mkdir(parents=True, exist_ok=True)
        path = self.options.keep / f'damage-{seed}.txt'
        path.write_text(text_of(lines))
        print(f'seed {seed}: {fault}; the lines are in {path}', flush=True)


def text_of(lines):
    return ''.join(line + '\n' for line in lines)


def ran(program, text):
    """What a program writes, and behind it how it ended, where that isn't well."""
    try:
        came = subprocess.run([program], input=text, capture_output=True, text=True, timeout=LIMIT)
    except subprocess.TimeoutExpired:
        return 'it took too long'
    return came.stdout if came.returncode == 0 else f'{came.stdout}it ended with {came.returncode}'


def judge(tally, seed, found, answers):
    """Looks at the answers to the cases of a seed."""
    last = None
    for case, answer in zip(found, answers):
        told = told_from(answer)
        tally.states[told.states[0].partition(' ')[0]] += 1
        wrong = next(faults(case, told, last), None)
        last = told
        if wrong:
            tally.fail(seed, [case.line(), answer], wrong)
            return


def work(options, tally, given):
    """Does some runs at a time, each with the next seed."""
    seed = options.seed
    while not tally.is_over():
        count = min(TRIED, options.runs - tally.runs) if options.runs else TRIED
        batch = {one: list(cases(one, given)) for one in range(seed, seed + count)}
        lines = [case.line() for found in batch.values() for case in found]
        text = text_of(lines)
        came = ran(options.program, text) if options.program else recovering.tried(text)
        tally.runs += count
        answers = came.splitlines()
        if len(answers) != len(lines) or not came.endswith('\n'):
            tally.fail(seed, lines, f'the program said {came[-200:]!r} at last')
            return
        if options.beside:
            compare(options, tally, seed, lines, came)
        rest = iter(answers)
        for one, found in batch.items():
            judge(tally, one, found, list(itertools.islice(rest, len(found))))
        print(tally.line(), flush=True)
        seed += count


def compare(options, tally, seed, lines, came):
    """Looks at what another program says of the same lines."""
    other = ran(options.beside, text_of(lines)).splitlines()
    for line, answer, wanted in itertools.zip_longest(lines, came.splitlines(), other):
        if answer != wanted:
            tally.fail(seed, [str(line), str(answer), str(wanted)], 'the other program says otherwise')
            return


def words():
    parser = argparse.ArgumentParser(usage='damage.py [--seed N] [--seconds S | --runs N] [--program PROGRAM] '
                                           '[--beside PROGRAM] [--given FILE] [--keep FOLDER] | --write FOLDER')
    parser.add_argument('--seed', type=int, default=random.SystemRandom().randrange(10 ** 9))
    parser.add_argument('--seconds', type=float, default=60)
    parser.add_argument('--runs', type=int)
    parser.add_argument('--program', type=pathlib.Path)
    parser.add_argument('--beside', type=pathlib.Path)
    parser.add_argument('--given', type=pathlib.Path)
    parser.add_argument('--write', type=pathlib.Path)
    parser.add_argument('--keep', type=pathlib.Path, default=pathlib.Path(tempfile.gettempdir()) / 'census-damage')
    return parser.parse_args()


def main():
    options = words()
    if options.write:
        recovering.write(options.write)
        return 0
    given = [bytes.fromhex(line) for line in options.given.read_text().split()] if options.given else None
    print(f'damage: from seed {options.seed} on', flush=True)
    tally = Tally(options)
    with contextlib.suppress(KeyboardInterrupt):
        work(options, tally, given)
    print(tally.line())
    return 1 if tally.failed else 0


if __name__ == '__main__':
    sys.exit(main())
