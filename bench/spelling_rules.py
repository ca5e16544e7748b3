#!/usr/bin/env python3
"""Times cascades of ordered rules as spelling-to-sound rules are, beside foma, on the same sources in one run: processor seconds and peak
memory of compiling with one look-up. Each rule replaces one symbol by a marked one, behind or before a class of others, and the marks
go in the last rule. What takes more than SECONDS is ended and shown as `inf`.

usage: bench/spelling_rules.py [PROGRAM]
"""
import random
import tempfile

import sys
from measure import has_foma, program, spent, write_project

SECONDS = 120
RULES = (10, 30, 60, 90)
SYMBOLS = (40, 400)


def letters_of(size):
    """So many symbols: a to z, and then the same with numbers."""
    return [chr(97 + place % 26) + (str(place // 26) if place >= 26 else '') for place in range(size)]


def cascade(chance, letters, count):
    """The definitions of so many rules over the letters, the last of which is Net, all of them composed."""
    def either(letter):
        return '["%s"|"%so"]' % (letter, letter)

    def some(many):
        return '[%s]' % '|'.join(either(letter) for letter in sorted(chance.sample(letters, many)))

    lines = []
    for place in range(1, count):
        one, other = chance.choice(letters), chance.choice(letters)
        result = '"%so"' % other if chance.random() < .7 else '"%so" "%so"' % (other, chance.choice(letters))
        left = some(chance.randint(3, 12)) if chance.random() < .6 else ''
        right = some(chance.randint(3, 12)) if chance.random() < .6 else ''
        context = ' || %s _ %s' % (left, right) if left or right else ''
        lines.append('define R%d "%s" -> %s%s ;' % (place, one, result, context))
    lines.append('define R%d %s ;' % (count, ' , '.join('"%so" -> "%s"' % (letter, letter) for letter in letters[:60])))
    lines.append('define Net %s ;' % ' .o. '.join('R%d' % place for place in range(1, count + 1)))
    return '\n'.join(lines) + '\n'


def main():
    ours, beside = program(sys.argv[1:]), has_foma()
    for size in SYMBOLS:
        letters = letters_of(size)
        for count in RULES:
            source = cascade(random.Random(20261130), letters, count)
            with tempfile.TemporaryDirectory() as folder:
                write_project(folder, source, letters)
                seconds, memory = spent([ours, 'up', folder, 'Net'], b'a\n', SECONDS)
                line = '%3d rules over %3d symbols %7.2f s %7.1f MiB' % (count, size, seconds, memory / 2 ** 20)
                if beside:
                    script = source + 'regex Net ;\nup a\n'
                    theirs, memory = spent(['foma', '-p'], script.encode(), SECONDS)
                    line += '   foma %7.2f s %7.1f MiB   %.2f' % (theirs, memory / 2 ** 20, seconds / max(theirs, 0.005))
                print(line, flush=True)


if __name__ == '__main__':
    main()
