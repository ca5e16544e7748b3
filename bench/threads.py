#!/usr/bin/env python3
"""Looks up the words of a text, one a line by `up` and eight a line by `gloss`, on one processor, on two and on four, and where another program is given,
by that, too. Prints the seconds by the clock, the peak memory, and how many times as fast as on one processor; and whether the replies are the same.

usage: bench/threads.py [WORDS [PROGRAM [OTHER PROGRAM]]]
"""
import hashlib
import os
import random
import subprocess
import sys
import tempfile
import time

from measure import peak_of, program

STEMS = 2000
PROJECT = {
    'project': 'lexc Lex n.lexc\nxfst r.xfst\ngloss t.gloss\n',
    'r.xfst': 'define Rules o -> {oe} || _ "^" s .o. "^" -> 0 ;\ndefine Net Lex .o. Rules ;\n',
    't.gloss': '+N\t.N\n+Sg\t.SG\n+Pl\t.PL\n',
}


def stem(number):
    syllables = [consonant + vowel for consonant in 'bdfgklmnpr' for vowel in 'aeiou']
    return syllables[number // 2500 % 50] + syllables[number // 50 % 50] + syllables[number % 50]


def written(folder, words):
    """A project, and the files of its words: one a line, and eight a line."""
    lexicon = 'Multichar_Symbols +N +Sg +Pl\nLEXICON Root\n' + ''.join(stem(i) + ' Num ;\n' for i in range(STEMS)) + 'LEXICON Num\n+N+Sg:0 # ;\n+N+Pl:^s # ;\nEND\n'
    for name, text in {**PROJECT, 'n.lexc': lexicon}.items():
        with open(os.path.join(folder, name), 'w') as out:
            out.write(text)
    chance = random.Random(1)
    some = [stem(chance.randrange(STEMS)) + chance.choice(('', 's', 'ss')) for _ in range(words)]
    with open(os.path.join(folder, 'words'), 'w') as out:
        out.write(''.join(word + '\n' for word in some))
    with open(os.path.join(folder, 'text'), 'w') as out:
        out.write(''.join(' '.join(some[i:i + 8]) + '\n' for i in range(0, words, 8)))


def run(command, source, processors):
    """The seconds, the peak memory and the sum of what is written, on so many processors."""
    with open(source, 'rb') as given, tempfile.TemporaryFile() as taken:
        start, memory = time.monotonic(), 0
        child = subprocess.Popen(command, stdin=given, stdout=taken, preexec_fn=lambda: os.sched_setaffinity(0, range(processors)))
        while child.poll() is None:
            memory = max(memory, peak_of(child.pid))
            time.sleep(0.005)
        seconds = time.monotonic() - start
        taken.seek(0)
        return seconds, memory, hashlib.sha256(taken.read()).hexdigest()


def main():
    words = int(sys.argv[1]) if len(sys.argv) > 1 else 1_000_000
    programs = [program(sys.argv[2:3]), *sys.argv[3:4]]
    with tempfile.TemporaryDirectory() as folder:
        written(folder, words)
        for name, source in (('up', 'words'), ('gloss', 'text')):
            sums = set()
            for morph in programs:
                one = None
                for processors in (1, 2, 4):
                    if processors > os.cpu_count():
                        continue
                    seconds, memory, told = min(run([morph, name, folder, 'Net'], os.path.join(folder, source), processors) for _ in range(3))
                    one = one or seconds
                    sums.add(told)
                    print('%-6s %-40s %d processors  %6.2f s  %5.1f MiB  %.2f times as fast' % (name, os.path.basename(morph), processors, seconds, memory / 2 ** 20, one / seconds))
            print('%-6s the replies are %s' % (name, 'the same' if len(sums) == 1 else 'NOT the same'))


if __name__ == '__main__':
    main()
