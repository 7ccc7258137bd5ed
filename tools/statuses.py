#!/usr/bin/env python3
"""Runs `./census` so that each exit status comes but that for want of memory, and compares what is written.

No contract speaks of the number of a status, of the usage line, or of standard input and output.
"""
import os
import pathlib
import resource
import subprocess
import sys
import tempfile

TOP = pathlib.Path(__file__).resolve().parent.parent
LIMIT = 4_194_304
USAGE = b'usage: census replay | node | drill N SEED | live N PORT\n'
# What another program of the same specification says of two nodes.
SMALLEST_DRILL = b'''nodes 2
epoch 9
members 1
regions 1
sent 33 1024
views 1
agree 1
digest eea776c39367640b99f5f768a9c5c93264b3e9f994dbdedf7eede94307a665ee
'''
OTHER_WORDS = [], ['other'], ['nodes'], ['replay', 'x'], ['node', 'x'], ['replay', 'node'], ['drill'], \
    ['drill', '2'], ['drill', '1', '7'], ['drill', '02', '7'], ['drill', '1001', '7'], \
    ['drill', '2', '18446744073709551616'], ['drill', '2', '7', 'x'], ['live'], ['live', '2'], \
    ['live', '1', '7'], ['live', '65', '7'], ['live', '2', '0'], ['live', '2', '65001'], ['live', '02', '7']
TO_THE_FAULT = b'> lead 1 127.0.0.1:9001 0 0 0\nup 1\nfault 2 address\n'


def run(words, text=b'', **streams):
    """The status, the standard output and the standard error."""
    streams = {'stdout': subprocess.PIPE, **({} if 'stdin' in streams else {'input': text}), **streams}
    ran = subprocess.run([TOP / 'census', *words], stderr=subprocess.PIPE, **streams)
    return ran.returncode, ran.stdout or b'', ran.stderr


def cases():
    """A name, what is wanted, and what came."""
    for form in 'replay', 'node':
        yield f'no input of {form}', (0, b'', b''), run([form])
        yield f'an empty line of {form}', (3, b'fault 1 word\n', b''), run([form], b'\n')
        yield f'a line of {form} over the limit', (9, b'', b''), run([form], b'x' * (LIMIT + 1))
    for words in OTHER_WORDS:
        yield f'the words {words}', (2, b'', USAGE), run(words)
    yield 'a drill', (0, SMALLEST_DRILL, b''), run(['drill', '2', '0'])
    schedule = (TOP / 'examples/line-fault.census').read_bytes()
    yield 'a fault in a line', (3, TO_THE_FAULT, b''), run(['replay'], schedule)
    folder = os.open(TOP, os.O_RDONLY)
    yield 'an input that fails', (4, b'', b''), run(['replay'], stdin=folder)
    full = os.open('/dev/full', os.O_WRONLY)
    yield 'an output that fails', (5, b'', b''), run(['replay'], b'print 1\n', stdout=full)
    transcript = (TOP / 'crates/census/stdout').read_bytes()
    size = len(transcript) - 8
    with tempfile.TemporaryFile() as file:
        # The signal at the limit stays ignored, so that the write fails.
        limit = {'preexec_fn': lambda: resource.setrlimit(resource.RLIMIT_FSIZE, (size, size)),
                 'restore_signals': False}
        came = run(['replay'], (TOP / 'crates/census/stdin').read_bytes(), stdout=file, **limit)
        yield 'a file with a size limit', (5, b'', b''), came
        file.seek(0)
        yield 'what stands in that file', transcript[:size], file.read()


def main():
    if run(['replay'])[0]:
        print('statuses: the program does not run')
        return 1
    passed = failed = 0
    for name, wanted, came in cases():
        if came != wanted:
            print(f'{name}: wanted {wanted}, and {came} came')
        passed, failed = passed + (came == wanted), failed + (came != wanted)
    print(f'statuses: {passed} passed, {failed} failed')
    return 1 if failed else 0


if __name__ == '__main__':
    sys.exit(main())
