#!/usr/bin/env python3
"""Runs `./census` line by line: writes a line, waits for all that it leads to, and only then writes the next one.

It does so with the schedule of each story, and the output must be the transcript of the story. Other dialogues look at
how lines come: several at once, in parts, over more than one piece, without the last LF, with a fault, and from an
input that fails. What is wanted there follows from the rules.

No contract says when a line is told, but only what was written and read where a run ended. The program has to be
built: the sources as they are wait for the end of the input before they run.
"""
import contextlib
import os
import pathlib
import re
import select
import socket
import subprocess
import sys
import time
from typing import NamedTuple

from transcript import transcript_of

TOP = pathlib.Path(__file__).resolve().parent.parent
PROGRAM = TOP / 'census'
SECONDS = 20
LEAD = 'lead 1 127.0.0.1:9001 0 0 0\n'
LED = f'> {LEAD}up 1\n'
LONG = f'packet 2 {"00" * 65_535}\n'


class Turn(NamedTuple):
    """What is written, and the output that must come before more is written."""
    written: str
    output: str


class Case(NamedTuple):
    """The turns, the output behind them, and the status. At its end the input is closed, fails or stays open."""
    name: str
    form: str
    turns: list[Turn]
    last: str = ''
    status: int = 0
    end: str = 'closed'


class Dialogue:
    """A run of the program, with the end of its input that is written to."""

    def __init__(self, form, can_fail):
        source, self.end = failing_input() if can_fail else os.pipe()
        os.set_blocking(self.end, False)
        self.run = subprocess.Popen([PROGRAM, form], stdin=source, stdout=subprocess.PIPE)
        os.close(source)

    def __enter__(self):
        return self

    def __exit__(self, *_):
        self.close()
        self.run.terminate()
        self.run.wait()
        self.run.stdout.close()

    def close(self):
        """Closes the input, which fails then where it can."""
        if self.end is not None:
            os.close(self.end)
            self.end = None

    def write(self, text):
        """Writes all of the text, or as much as is taken in time and before the run ends."""
        rest = text.encode()
        with contextlib.suppress(BrokenPipeError):
            while rest and select.select([], [self.end], [], SECONDS)[1]:
                rest = rest[os.write(self.end, rest):]

    def read(self, most=sys.maxsize):
        """So many bytes of the output, or as many as come in time and before its end."""
        output, until = b'', time.monotonic() + SECONDS
        while len(output) < most:
            ready, _, _ = select.select([self.run.stdout], [], [], max(0, until - time.monotonic()))
            piece = os.read(self.run.stdout.fileno(), min(65_536, most - len(output))) if ready else b''
            if not piece:
                break
            output += piece
        return output.decode(errors='replace')

    def status(self):
        """The status of the run, or None where it goes on."""
        with contextlib.suppress(subprocess.TimeoutExpired):
            return self.run.wait(SECONDS)


def failing_input():
    """Both ends of an input that fails once the other end is closed: a socket does where that has bytes unread."""
    source, end = socket.socketpair()
    source.send(b'unread')
    return source.detach(), end.detach()


def shown(text):
    """The text, or its two ends where it is long."""
    return repr(text if len(text) < 400 else f'{text[:200]} .. {text[-200:]}')


def difference(case):
    """The first place where the output is another one, or None."""
    with Dialogue(case.form, case.end == 'fails') as dialogue:
        for turn in case.turns:
            dialogue.write(turn.written)
            output = dialogue.read(len(turn.output.encode()))
            if output != turn.output:
                line, wanted, came = map(shown, (turn.written, turn.output, output))
                return f'behind {line}: wanted {wanted}, and {came} came within {SECONDS} seconds'
        if case.end != 'open':
            dialogue.close()
        wanted, came = (case.last, case.status), (dialogue.read(), dialogue.status())
        return None if came == wanted else f'at the end: wanted {wanted}, and {came} came within {SECONDS} seconds'


def turns_of(transcript):
    """Each line of a schedule, with its output."""
    parts = re.split(r'^(?=> )', transcript, flags=re.MULTILINE)
    return [Turn(part[2:part.index('\n') + 1], part) for part in parts if part]


def stories():
    for page in sorted(TOP.glob('docs/stories/*.md')):
        turns = turns_of(''.join(f'{text}\n' for _, text in transcript_of(page)))
        if turns:
            form = 'node' if turns[0].written.startswith('home ') else 'replay'
            yield Case(str(page.relative_to(TOP)), form, turns)


def other_dialogues():
    lead = Turn(LEAD, LED)
    yield Case('several lines at once', 'replay', [
        Turn(f'{LEAD}close\nprint 2\n', f'{LED}> close\nclosed 1\n> print 2\nno node\n')])
    yield Case('lines in parts', 'replay', [
        lead, Turn('set', ''), Turn('tle 1', ''), Turn('0\nclo', '> settle 10\nsettled 0\n'),
        Turn('se\n', '> close\nclosed 1\n')])
    yield Case('a line over more than one piece', 'node', [Turn(LONG, f'> {LONG}no node\n'), lead])
    yield Case('a last line without LF', 'replay', [lead, Turn('settle 1', ''), Turn('0', '')],
               last='> settle 10\nsettled 0\n')
    yield Case('a last line without LF that has a fault', 'replay', [lead, Turn('close 1', '')],
               last='fault 2 count\n', status=3)
    yield Case('a fault, and the input stays open', 'replay', [lead, Turn('close 1\n', 'fault 2 count\n')],
               status=3, end='open')
    for form in 'replay', 'node':
        yield Case(f'an input of {form} that fails behind one line and a part of the next', form,
                   [lead, Turn('close', '')], status=4, end='fails')


def main():
    if subprocess.run([PROGRAM, 'replay'], stdin=subprocess.DEVNULL).returncode:
        print('dialogue: the program does not run')
        return 1
    passed = failed = 0
    for case in [*stories(), *other_dialogues()]:
        found = difference(case)
        if found:
            print(f'{case.name}: {found}')
        passed, failed = passed + (not found), failed + bool(found)
    print(f'dialogue: {passed} passed, {failed} failed')
    return 1 if failed else 0


if __name__ == '__main__':
    sys.exit(main())
