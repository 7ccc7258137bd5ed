#!/usr/bin/env python3
"""Writes a schedule of so many lines, 20,000 where no number is given: a leader, and 64 joiners for each close.

The group fills up to 2,000 members, which are spread over all three axes, and each close cuts a region until none is
too large. From then on each join is refused. No region is merged, since nobody leaves. Before a close the reports come,
and after it the snapshots and pieces and all that is passed on, and one member prints its view. How many packets there
are is read off the transcript of `./census replay`, which is run again whenever more may have been sent.
"""
import pathlib
import subprocess
import sys

TOP = pathlib.Path(__file__).resolve().parent.parent
AT_ONCE = 64
MOST = 2_000
EDGE = 1_000_000
STEPS = 700_001, 300_007, 1_100_009


def boot(node):
    """The line that starts a node, at a place of its own."""
    x, y, z = (node * step % (2 * EDGE + 1) - EDGE for step in STEPS)
    return f'boot {node} 127.{node >> 16}.{node >> 8 & 255}.{node & 255}:9000 {x} {y} {z} partial'


def packets(lines):
    """How many packets the run of these lines sends."""
    text = ''.join(f'{line}\n' for line in lines)
    run = subprocess.run([TOP / 'census', 'replay'], input=text, capture_output=True, text=True, check=True)
    return sum(line.startswith('#') for line in run.stdout.splitlines())


def settled(lines, seen, most):
    """The lines with every packet delivered that they send, of which so many came before; and how many came then."""
    while len(lines) < most and (sent := packets(lines)) > seen:
        lines += [f'deliver {number}' for number in range(seen + 1, sent + 1)]
        seen = sent
    return seen


def schedule(most):
    """The first so many lines."""
    lines, seen, last_id = ['lead 1 127.0.0.1:9000 0 0 0'], 0, 1
    while len(lines) < most:
        joiners = range(last_id + 1, last_id + 1 + AT_ONCE)
        last_id = joiners[-1]
        lines += [boot(node) for node in joiners] + [f'join {node}' for node in joiners]
        seen = settled(lines, seen, most)
        lines.append('close')
        seen = settled(lines, seen, most)
        lines.append(f'print {1 + last_id * 7 % min(last_id, MOST)}')
    return lines[:most]


def main():
    count = int(sys.argv[1]) if len(sys.argv) > 1 else 20_000
    print(*schedule(count), sep='\n')


if __name__ == '__main__':
    main()
