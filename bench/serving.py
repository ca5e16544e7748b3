#!/usr/bin/env python3
"""What `serve` takes: a project of 512 names in many files is loaded; a small rule is edited beside a lexicon of 20,000 entries; and a
small project is edited 10,000 times, with the peak memory after the first thousand edits and after the last.

  serving.py [PROGRAM]"""
import os
import subprocess
import sys
import tempfile
import time

import lexicons
import measure

FILES = 64
NAMES = 512
ENTRIES = 20_000
EDITS = 10_000


class Served:
    """A project that is served, and how long it took to load."""

    def __init__(self, program, folder):
        start = time.monotonic()
        self.process = subprocess.Popen([program, 'serve', folder], stdin=subprocess.PIPE, stdout=subprocess.PIPE)
        self.first = self.process.stdout.readline()
        self.seconds = time.monotonic() - start

    def ask(self, text):
        """The first line of the reply, and the seconds that it took."""
        start = time.monotonic()
        self.process.stdin.write(text.encode())
        self.process.stdin.flush()
        reply = self.process.stdout.readline()
        return reply, time.monotonic() - start

    def end(self):
        self.process.stdin.close()
        self.process.wait()


def write(folder, name, text):
    with open(os.path.join(folder, name), 'w') as out:
        out.write(text)


def many_names(program):
    """512 names in 64 files, each of which refers to the one before it."""
    with tempfile.TemporaryDirectory() as folder:
        write(folder, 'project', ''.join('xfst f%d\n' % k for k in range(FILES)))
        each = NAMES // FILES
        for file in range(FILES):
            lines = ['define N%d %s a | b ;\n' % (k, 'N%d & ' % (k - 1) if k else '') for k in range(file * each, file * each + each)]
            write(folder, 'f%d' % file, ''.join(lines))
        served = Served(program, folder)
        reply, seconds = served.ask('splice f63 8 1 1\ndefine N511 a ;\n')
        print('%d names in %d files: load %.3f s; an edit of the last one %.3f s, %s' % (NAMES, FILES, served.seconds, seconds, reply.decode().strip()))
        served.end()


def beside_a_lexicon(program):
    """One small rule beside a lexicon of 20,000 entries."""
    with tempfile.TemporaryDirectory() as folder:
        write(folder, 'project', 'lexc Lex n.lexc\nxfst r.xfst\n')
        write(folder, 'n.lexc', lexicons.plain(ENTRIES)[0])
        write(folder, 'r.xfst', 'define Rule a -> b || c _ ;\ndefine Other x y ;\n')
        served = Served(program, folder)
        reply, seconds = served.ask('splice r.xfst 1 1 1\ndefine Rule a -> b || d _ ;\n')
        print('a rule beside %d entries: load %.3f s; an edit of the rule %.3f s, %s' % (ENTRIES, served.seconds, seconds, reply.decode().strip()))
        served.end()


def many_edits(program):
    """10,000 edits of a small project."""
    with tempfile.TemporaryDirectory() as folder:
        write(folder, 'project', 'xfst r.xfst\n')
        write(folder, 'r.xfst', 'define N {a} ;\n')
        served = Served(program, folder)
        start, peaks = time.monotonic(), []
        for number in range(EDITS):
            reply, _ = served.ask('put r.xfst 1\ndefine N {a%s} ;\n' % ('b' if number % 2 else ''))
            if number + 1 in (EDITS // 10, EDITS):
                peaks.append(measure.peak_of(served.process.pid) / 2 ** 20)
        seconds = time.monotonic() - start
        print('%d edits of a small project: %.2f s; peak memory %.1f MiB after a tenth of them, %.1f MiB after all; the last reply is %s'
              % (EDITS, seconds, *peaks, reply.decode().strip()))
        reply, _ = served.ask('put r.xfst 1\ndefine N {a} ;\n')
        print('and one more: %s' % reply.decode().strip())
        served.end()


def main():
    program = measure.program(sys.argv[1:])
    many_names(program)
    beside_a_lexicon(program)
    many_edits(program)


if __name__ == '__main__':
    main()
