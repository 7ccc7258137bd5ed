#!/usr/bin/env python3
"""Runs `./census` on schedules, and refuses it each piece of memory that it asks for, in turn.

    python3 tools/refusals.py [SCHEDULE ..]

Without a schedule it takes three of the examples: a first join, a piece that is lost, and a close that is torn. For
each call that asks the C library for memory it makes two runs. In one this call and all behind it are refused: it must
end with the status of Memory, and what it wrote must be a front of what the whole run writes. In the other this call
alone is refused: it must end so too, or else like the whole run, since a list that grows asks for less where it gets
nothing. A small library in C, which `cc` builds and the loader puts before the C library, counts the calls and refuses
them.
"""
import os
import pathlib
import subprocess
import sys
import tempfile

from limits import TOP
from rows import rows_of_document

EXAMPLES = 'first-join', 'lost-piece', 'torn-close'
# a number that no call reaches
NONE_BEHIND = 2 ** 62

LIBRARY = r'''
#define _GNU_SOURCE
#include <dlfcn.h>
#include <errno.h>
#include <fcntl.h>
#include <stdio.h>
#include <stdlib.h>
#include <unistd.h>

static unsigned long calls, first, last;

__attribute__((constructor)) static void begin(void) {
    first = strtoul(getenv("FIRST"), NULL, 10);
    last = strtoul(getenv("LAST"), NULL, 10);
    calls = 0;
}

__attribute__((destructor)) static void end(void) {
    char text[32];
    int size = snprintf(text, sizeof text, "%lu", calls);
    int file = open(getenv("COUNTED"), O_WRONLY | O_CREAT | O_TRUNC, 0600);
    if (file < 0 || write(file, text, size) != size) _exit(99);
    close(file);
}

static int is_refused(void) { ++calls; return first <= calls && calls <= last; }

#define NEXT(name) static __typeof__(&name) next; if (!next) next = (__typeof__(&name))dlsym(RTLD_NEXT, #name)

void *malloc(size_t size) {
    NEXT(malloc);
    if (is_refused()) { errno = ENOMEM; return NULL; }
    return next(size);
}

void *realloc(void *memory, size_t size) {
    NEXT(realloc);
    if (is_refused()) { errno = ENOMEM; return NULL; }
    return next(memory, size);
}

void *aligned_alloc(size_t alignment, size_t size) {
    NEXT(aligned_alloc);
    if (is_refused()) { errno = ENOMEM; return NULL; }
    return next(alignment, size);
}

int posix_memalign(void **memory, size_t alignment, size_t size) {
    NEXT(posix_memalign);
    if (is_refused()) return ENOMEM;
    return next(memory, alignment, size);
}
'''


def built(folder):
    """The library that counts and refuses."""
    source, library = folder / 'refusals.c', folder / 'refusals.so'
    source.write_text(LIBRARY)
    subprocess.run(['cc', '-O1', '-shared', '-fPIC', '-o', library, source, '-ldl'], check=True)
    return library


class Program:
    """The program with the library in it. No shell stands before it, since the library would count for that too."""

    def __init__(self, folder):
        self.library, self.counted = built(folder), folder / 'counted'

    def run(self, text, first, last):
        """The status, what was written, and how often memory was asked for, where these calls are refused."""
        words = {'LD_PRELOAD': self.library, 'COUNTED': self.counted, 'FIRST': first, 'LAST': last}
        ran = subprocess.run([TOP / 'crates/census/out/census', 'replay'], input=text, stdout=subprocess.PIPE,
                             stderr=subprocess.DEVNULL, env={**os.environ, **{it: str(words[it]) for it in words}})
        return ran.returncode, ran.stdout, int(self.counted.read_text())


def memory():
    """The status of a run that ends for want of memory."""
    rows = rows_of_document('docs/ANSWERS.md')
    return next(int(row.cells['number']) for row in rows if row.cells.get('status') == 'Memory')


def check(program, path, wanted):
    """Refuses the calls of the run of a schedule in turn: how many runs ended otherwise than they must."""
    text = path.read_bytes()
    status, whole, calls = program.run(text, 1, 0)
    wrong = absorbed = 0
    for number in range(1, calls + 1):
        for last in (number, NONE_BEHIND):
            came, written, _ = program.run(text, number, last)
            is_front = came == wanted and whole.startswith(written)
            is_whole = last == number and (came, written) == (status, whole)
            absorbed += is_whole
            if not is_front and not is_whole:
                wrong += 1
                print(f'{path.name}: refused from call {number} to {last} the status is {came}')
    print(f'{path.name}: {calls} calls refused, {absorbed} of them alone to no effect, {wrong} runs ended otherwise')
    return wrong


def main():
    paths = [pathlib.Path(word) for word in sys.argv[1:]]
    paths = paths or [TOP / 'examples' / f'{name}.census' for name in EXAMPLES]
    wanted = memory()
    with tempfile.TemporaryDirectory() as folder:
        program = Program(pathlib.Path(folder))
        return 1 if sum(check(program, path, wanted) for path in paths) else 0


if __name__ == '__main__':
    sys.exit(main())
