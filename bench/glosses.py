#!/usr/bin/env python3
"""What `gloss` takes: the text that `gen` makes is glossed in the project that it makes, once and ten times over, beside `up` of the same
words.

  glosses.py [PROGRAM]"""
import os
import subprocess
import sys
import tempfile

import measure

STEMS = 2_000
RULES = 'define Rules o -> {oe} || _ "^" s .o. "^" -> 0 ;\ndefine Net Lex .o. Rules ;\n'


def stem(number):
    """A generated stem: three syllables, counted as digits of a number to the base of fifty."""
    syllables = [consonant + vowel for consonant in 'bdfgklmnpr' for vowel in 'aeiou']
    return ''.join(syllables[number // power % 50] for power in (2500, 50, 1))


def word(number):
    """A word of the generated text."""
    base = stem((7 * number + 3) % STEMS)
    return base + ('', 'es' if base.endswith('o') else 's', '', 'ss')[number % 4]


def write_project(folder):
    with open(os.path.join(folder, 'project'), 'w') as out:
        out.write('lexc Lex n.lexc\nxfst r.xfst\n')
    with open(os.path.join(folder, 'n.lexc'), 'w') as out:
        out.write('Multichar_Symbols +N +Sg +Pl\nLEXICON Root\n' + ''.join('%s Num ;\n' % stem(number) for number in range(STEMS)))
        out.write('LEXICON Num\n+N+Sg:0 # ;\n+N+Pl:^s # ;\nEND\n')
    with open(os.path.join(folder, 'r.xfst'), 'w') as out:
        out.write(RULES)


def main():
    program = measure.program(sys.argv[1:])
    words = [word(number) for number in range(4 * STEMS)]
    lines = [' '.join(words[k:k + 8]) for k in range(0, len(words), 8)]
    with tempfile.TemporaryDirectory() as folder:
        write_project(folder)
        first = subprocess.run([program, 'gloss', folder, 'Net'], input=(lines[0] + '\n').encode(), stdout=subprocess.PIPE, check=True).stdout
        print(first.decode(), end='')
        for times in 1, 10, 100:
            none, _ = measure.spent([program, 'gloss', folder, 'Net'], b'', 600)
            glossed, memory = measure.spent([program, 'gloss', folder, 'Net'], '\n'.join(lines * times + ['']).encode(), 600)
            looked_up, other = measure.spent([program, 'up', folder, 'Net'], '\n'.join(words * times + ['']).encode(), 600)
            print('%d lines of eight words: gloss %.3f s, %.0f lines a second, %.1f MiB; up of the words %.3f s, %.1f MiB'
                  % (len(lines) * times, glossed - none, len(lines) * times / max(glossed - none, 0.001), memory / 2 ** 20, looked_up - none, other / 2 ** 20))


if __name__ == '__main__':
    main()
