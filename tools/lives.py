#!/usr/bin/env python3
"""Runs `./census live` over sockets of this machine, and replays what the nodes received.

No contract says what a socket gives back. So here two, three and 64 nodes run: each run ends well, its lines behind
`> ` replayed give the same transcript, and the nodes of an epoch have the same regions. The three have equal blocks
too. A run whose port is in use ends with status 6, and has written what the lines before that lead to.
"""
import collections
import itertools
import socket
import subprocess
import sys
from contextlib import ExitStack

from rows import TOP

FIRST_PORT = 30_000
STATUS_DONE, STATUS_LINK = 0, 6


def run(words, text=b''):
    """The status and the standard output."""
    ran = subprocess.run([TOP / 'census', *words], input=text, stdout=subprocess.PIPE)
    return ran.returncode, ran.stdout


def bound(port):
    at = socket.socket(socket.AF_INET, socket.SOCK_DGRAM)
    at.bind(('127.0.0.1', port))
    return at


def are_free(ports):
    with ExitStack() as stack:
        try:
            for port in ports:
                stack.enter_context(bound(port))
        except OSError:
            return False
    return True


def port_for(nodes):
    """The port before as many that nobody uses."""
    return next(port for port in itertools.count(FIRST_PORT, 100) if are_free(range(port + 1, port + nodes + 1)))


def replayed(transcript):
    """What its lines behind `> ` give."""
    lines = [line[2:] for line in transcript.splitlines() if line.startswith(b'> ')]
    return run(['replay'], b'\n'.join(lines) + b'\n')


def blocks(transcript):
    """The lines that each `print` wrote, by node."""
    block, found = None, {}
    for line in transcript.splitlines():
        words = line.split()
        if words[:2] == [b'>', b'print']:
            block = found.setdefault(int(words[2]), [])
        elif words[:1] == [b'>']:
            block = None
        elif block is not None:
            block.append(line)
    return found


def regions_by_epoch(found):
    """For each epoch the regions that the blocks of it have, each list once."""
    seen = collections.defaultdict(set)
    for block in found.values():
        epoch = next(line for line in block if line.startswith(b'epoch '))
        seen[epoch].add(tuple(line for line in block if line.startswith(b'region ')))
    return seen


def cases():
    """A name, what is wanted, and what came."""
    for nodes in 2, 3, 64:
        port = port_for(nodes)
        status, transcript = run(['live', str(nodes), str(port)])
        found = blocks(transcript)
        yield f'{nodes} nodes: the status', STATUS_DONE, status
        yield f'{nodes} nodes: what a replay writes', (STATUS_DONE, transcript), replayed(transcript)
        yield f'{nodes} nodes: who prints', [*range(1, nodes + 1)], [*found]
        yield f'{nodes} nodes: whether one advances', True, b'\nadvanced 2\n' in transcript
        regions = regions_by_epoch(found).values()
        yield f'{nodes} nodes: lists of regions of an epoch', {1}, {len(lists) for lists in regions}
        if nodes == 3:
            yield 'three nodes: blocks', 1, len({tuple(block) for block in found.values()})
    port = port_for(3)
    with bound(port + 2):
        told = f'> lead 1 127.0.0.1:{port + 1} 0 0 0\nup 1\n'.encode()
        yield 'a port in use', (STATUS_LINK, told), run(['live', '3', str(port)])


def main():
    passed = failed = 0
    for name, wanted, came in cases():
        if came != wanted:
            print(f'{name}: wanted {wanted}, and {came} came')
        passed, failed = passed + (came == wanted), failed + (came != wanted)
    print(f'lives: {passed} passed, {failed} failed')
    return 1 if failed else 0


if __name__ == '__main__':
    sys.exit(main())
