#!/usr/bin/env python3
"""Runs the stories: the fenced blocks of a page in docs/stories/, put together, are one transcript.

The lines that begin with `> ` are the schedule. What `./census replay` writes for it must be the transcript, or what
`./census node` does where the schedule begins with `home`. Such a page has a line with the command of tools/alone.py
that makes its schedule out of one for many nodes. The command must give just this schedule, and the node must answer
alone what it answers among the others.
"""
import itertools
import pathlib
import re
import subprocess
import sys

from alone import Group
from transcript import transcript_of

TOP = pathlib.Path(__file__).resolve().parent.parent
COMMAND = re.compile(r'^    python3 tools/alone\.py (\d+) < (\S+)$', re.MULTILINE)


def run(form, schedule):
    """The status and the output of the program."""
    ran = subprocess.run([TOP / 'census', form], input=schedule.encode(), stdout=subprocess.PIPE)
    return ran.returncode, ran.stdout.decode(errors='replace')


def origin_fault(page, schedule):
    """Why the schedule isn't what its node gets among the others, or None."""
    command = COMMAND.search(page.read_text())
    if not command:
        return ' no command says where its bytes come from'
    group, node = Group((TOP / command[2]).read_text()), int(command[1])
    if node not in group.turns or group.script(node) != schedule:
        return f' {command[0].strip()} gives another schedule'
    return group.difference(node)


def difference(page, transcript):
    """The first place where the program differs, or None."""
    numbers, lines = zip(*((number, text + '\n') for number, text in transcript))
    schedule = ''.join(line[2:] for line in lines if line.startswith('> '))
    form = 'node' if schedule.startswith('home ') else 'replay'
    status, output = run(form, schedule)
    written = output.splitlines(keepends=True)
    for place, (line, other) in enumerate(itertools.zip_longest(lines, written)):
        if line != other:
            return f'{numbers[min(place, len(numbers) - 1)]}: wanted {line!r}, and {other!r} came'
    if status:
        return f'{numbers[-1]}: the run ended with status {status}'
    return origin_fault(page, schedule) if form == 'node' else None


def main():
    if run('replay', '')[0]:
        print('stories: the program does not run')
        return 1
    passed = failed = 0
    for page in sorted(TOP.glob('docs/stories/*.md')):
        transcript = transcript_of(page)
        if not transcript:
            continue
        found = difference(page, transcript)
        if found:
            print(f'{page.relative_to(TOP)}:{found}')
        passed, failed = passed + (not found), failed + bool(found)
    print(f'stories: {passed} passed, {failed} failed')
    return 1 if failed else 0


if __name__ == '__main__':
    sys.exit(main())
