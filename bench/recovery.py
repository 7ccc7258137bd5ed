#!/usr/bin/env python3
"""Times how the leader comes back from its log at epoch 16, 17, 500 and 5,000, or at those that the words say. The
leader is alone, or with 192 more members, 64 of which joined in each of the first three epochs; all other closes are
empty. The time of a recovery is that of a run that ends with some of them, less that of the run without, by their
number. The bytes of the log are counted by the sizes of its entries. Run by hand. Compare only figures of one machine.
"""

import subprocess
import sys
import time

from schedule import AT_ONCE, TOP, boot, settled

PROGRAM = TOP / 'crates/census/out/census'
EPOCHS = 16, 17, 500, 5000
BATCHES = 3
RECOVERIES = 50
RUNS = 5
BETWEEN = 16
FIRST, ITEM, BASE, ROW, JOIN = 39, 10, 18, 30, 23


def begun(batches):
    """The lines up to the last report of each batch of joins, and the close behind it."""
    lines, seen = ['lead 1 127.0.0.1:9000 0 0 0'], 0
    for batch in range(batches):
        joiners = range(batch * AT_ONCE + 2, (batch + 1) * AT_ONCE + 2)
        lines += [boot(node) for node in joiners] + [f'join {node}' for node in joiners]
        seen = settled(lines, seen, sys.maxsize)
        lines.append('close')
    return lines


def log_bytes(epochs, batches):
    """The bytes of the log: where an epoch begins it anew, each row of the group before stands there too."""
    bases = (epochs - 1) // BETWEEN
    rows = 1 + batches * AT_ONCE
    return FIRST + ITEM * (epochs - bases) + JOIN * (rows - 1) + (BASE + ROW * rows) * bases


def seconds(lines):
    """The least time of some runs of a schedule."""
    text = ''.join(f'{line}\n' for line in lines).encode()
    return min(timed(text) for _ in range(RUNS))


def timed(text):
    start = time.monotonic()
    subprocess.run([PROGRAM, 'replay'], input=text, stdout=subprocess.DEVNULL, check=True)
    return time.monotonic() - start


def main():
    for batches in 0, BATCHES:
        start = begun(batches)
        for epochs in [int(word) for word in sys.argv[1:]] or EPOCHS:
            lines = start + ['close'] * (epochs - batches)
            again = seconds(lines + ['crash 1', 'restart 1'] * RECOVERIES) - seconds(lines)
            print(f'{1 + batches * AT_ONCE:5} rows, epoch {epochs:5}: {again / RECOVERIES * 1e6:9.0f} microseconds, '
                  f'{log_bytes(epochs, batches):8} bytes')


if __name__ == '__main__':
    main()
