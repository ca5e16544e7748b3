#!/usr/bin/env python3
"""Looks up a million words by `up` and, where foma's `flookup` is installed, the same words in the
same network by that. Prints the lines per second and the peak memory of each, and the ratio of their times.

usage: bench/lookup_lines.py [LINES [PROGRAM]]
"""
import os
import sys
import tempfile

from measure import has_foma, program, saved_by_foma, timed, write_project

EXPRESSION = '{caterpillar} "+N":0'
WORDS = ['caterpillar', 'cat', 'pillar']


def report(name, lines, seconds, memory):
    print('%-8s %9.0f lines/s  %6.2f s  %5.1f MiB' % (name, lines / seconds, seconds, memory / 2 ** 20))


def main():
    lines = int(sys.argv[1]) if len(sys.argv) > 1 else 1_000_000
    morph = program(sys.argv[2:])
    with tempfile.TemporaryDirectory() as folder:
        write_project(folder, 'define N %s ;\n' % EXPRESSION)
        words = os.path.join(folder, 'words')
        with open(words, 'w') as out:
            out.writelines(WORDS[k % len(WORDS)] + '\n' for k in range(lines))
        with open(words, 'rb') as source:
            ours, memory = timed([morph, 'up', folder, 'N'], source)
        report('morph', lines, ours, memory)
        if has_foma():
            with open(words, 'rb') as source:
                theirs, memory = timed(['flookup', '-b', saved_by_foma(folder, EXPRESSION)], source)
            report('flookup', lines, theirs, memory)
            print('morph takes %.2f of the time of flookup' % (ours / theirs))


if __name__ == '__main__':
    main()
