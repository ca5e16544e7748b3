#!/usr/bin/env python3
"""Times `check` on files of one megabyte and of half of one, so that growth can be seen: brackets that are never closed, a long choice, many
definitions, one quoted text, comments, runs with accents. Prints the seconds and the peak memory.

usage: bench/reader.py [PROGRAM]
"""
import sys
import tempfile

from measure import program, timed, write_project

MEGABYTE = 1_048_576


def filled(before, piece, behind, size):
    """As many pieces between the two ends as make a file of this size."""
    return before + piece * ((size - len(before) - len(behind)) // len(piece)) + behind


def numbered(size):
    """Definitions of different names, as many as a file of this size has."""
    lines, length = [], 0
    while length < size - 32:
        line = b'define N%d a ;\n' % len(lines)
        lines.append(line)
        length += len(line)
    return b''.join(lines)


def files(size):
    yield 'open brackets', filled(b'define N ', b'[', b' ;', size)
    yield 'a choice', filled(b'define N a', b'|a', b' ;', size)
    yield 'one definition again', filled(b'', b'define A a ;\n', b'', size)
    yield 'definitions', numbered(size)
    yield 'a quoted text', filled(b'define N "', b'a', b'" ;', size)
    yield 'an open quote', filled(b'define N "', b'a', b'', size)
    yield 'comments', filled(b'', b'! nothing\n', b'define N a ;\n', size)
    yield 'accents', filled(b'define N ', 'e\u0301'.encode(), b' ;', size)
    yield 'escapes', filled(b'define N ', b'%|', b' ;', size)
    yield 'powers', filled(b'define N a', b'^2', b' ;', size)


def main():
    morph = program(sys.argv[1:])
    with tempfile.TemporaryDirectory() as folder:
        for size in (MEGABYTE // 2, MEGABYTE):
            for name, data in files(size):
                write_project(folder, data.decode())
                seconds, memory = timed([morph, 'check', folder], statuses=(0, 2))
                print('%-22s %9d bytes  %5.2f s  %6.1f MiB' % (name, len(data), seconds, memory / 2 ** 20))


if __name__ == '__main__':
    main()
