#!/usr/bin/env python3
"""Times `up` of one word in definitions of a megabyte, each a row of one operator: processor seconds and peak memory; with `foma` in front of
the program, beside foma, which takes minutes. What takes more than SECONDS is ended and shown as `inf`.

usage: bench/operators.py [foma] [PROGRAM]
"""
import sys
import tempfile

from measure import has_foma, program, spent, write_project

MEGABYTE = 1_048_576
SECONDS = 60

# what stands in front, the piece that is repeated, and what stands behind
ROWS = [
    ('|', 'a', '|a', ''), ('side by side', 'a', ' a', ''), ('&', 'a', '&a', ''), ('-', 'a', '-b', ''), ('/', 'a', '/a', ''), ('.o.', 'a', '.o.a', ''),
    ('*', 'a', '*', ''), ('+', 'a', '+', ''), ('^1', 'a', '^1', ''), ('.u', 'a', '.u', ''), ('.l', 'a', '.l', ''), ('.i', 'a', '.i', ''), ('.r', 'a', '.r', ''),
    ('~', '', '~', 'a'), ('$', '', '$', 'a'), ('backslash', '', '\\', 'a'),
]


def source(front, piece, behind):
    """A definition of N of a megabyte."""
    before, after = 'define N ' + front, behind + ' ;\n'
    return before + piece * ((MEGABYTE - len(before) - len(after)) // len(piece)) + after


def main():
    words = sys.argv[1:]
    beside = words[:1] == ['foma'] and has_foma()
    ours = program(words[beside:])
    for name, front, piece, behind in ROWS:
        text = source(front, piece, behind)
        with tempfile.TemporaryDirectory() as folder:
            write_project(folder, text)
            seconds, memory = spent([ours, 'up', folder, 'N'], b'a\n', SECONDS)
            line = '%-14s %6.2f s %7.1f MiB' % (name, seconds, memory / 2 ** 20)
            if beside:
                theirs, memory = spent(['foma', '-p'], (text.replace('define N ', 'regex ') + 'up a\n').encode(), SECONDS)
                line += '   foma %6.2f s %7.1f MiB' % (theirs, memory / 2 ** 20)
            print(line, flush=True)


if __name__ == '__main__':
    main()
