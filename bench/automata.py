#!/usr/bin/env python3
"""Times operations on large automata: a chain of 1,000,000 edges for the rational operations, and one of
200,000 edges over 50 letters for the subset construction, the product and the complement, and one of 400,000 whose
identity is composed with itself; some at two sizes, so that their growth can be seen. Prints the seconds that each
takes more than building the chain, and the peak memory.

usage: bench/automata.py
"""
import os
import subprocess

from measure import timed

CRATE = os.path.join(os.path.dirname(os.path.abspath(__file__)), '..', 'crates', 'automata_bench')
PROGRAM = os.path.join(CRATE, 'out', 'automata_bench')
RUNS = [('union', 1_000_000), ('concat', 1_000_000), ('star', 1_000_000), ('reverse', 1_000_000),
        ('without_empty', 1_000_000), ('determine', 100_000), ('determine', 200_000), ('both', 200_000),
        ('complement', 100_000), ('complement', 200_000), ('compose', 100_000), ('compose', 400_000)]


def main():
    # a run builds the program again where a source is newer
    subprocess.run(['rt', 'run'], cwd=CRATE, stdin=subprocess.DEVNULL, stdout=subprocess.DEVNULL, check=True)
    for operation, edges in RUNS:
        built, _ = timed([PROGRAM, 'chain', str(edges)])
        seconds, memory = timed([PROGRAM, operation, str(edges)])
        print('%-14s %9d edges  %5.2f s more than the chain  %6.1f MiB' % (operation, edges, max(seconds - built, 0), memory / 2 ** 20))


if __name__ == '__main__':
    main()
