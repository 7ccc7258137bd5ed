#!/usr/bin/env python3
"""Times `./census drill N 7` for 48, 300 and 1,000 nodes, or for those that the words say, and shows the peak memory of
each run. Run by hand. Compare only figures of one machine, and take the least of several runs."""
import sys

from measured import measured

SIZES = 48, 300, 1000
RUNS = 3


def main():
    for nodes in [int(word) for word in sys.argv[1:]] or SIZES:
        runs = [measured(['drill', str(nodes), '7']) for _ in range(RUNS)]
        seconds = min(ran.seconds for ran in runs)
        print(f'{nodes:5} nodes {seconds:7.2f} seconds {max(ran.megabytes for ran in runs):6.0f} MB')


if __name__ == '__main__':
    main()
