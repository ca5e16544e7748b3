#!/usr/bin/env python3
"""Times directed rules beside foma and hfst, on the same sources in one run: processor seconds and peak memory of compiling with one look-up. A tokenizer marks
2,000 entries of several words, the longest first; cascades have thirty rules over 40 and 400 symbols; the syllables are Finnish. What takes more
than SECONDS is ended and shown as `inf`.

usage: bench/directed.py [PROGRAM]
"""
import os
import random
import shutil
import sys
import tempfile

from measure import has_foma, program, spent, write_project

SECONDS = 120
ENTRIES, RULES = 2000, 30
SYLLABLES = 'C* [V | V V] C* @-> ... "-" || _ C V'


def some_word(chance):
    return ''.join(chance.choice('bdfgklmnprst') + chance.choice('aeiou') for _ in range(chance.randint(1, 3)))


def tokenizer(chance):
    """Entries of one to four words with a space between: an ordinary word is one too, so that matches overlap."""
    words = [some_word(chance) for _ in range(400)]
    entries = sorted({' '.join(chance.choices(words, k=chance.choice([1, 2, 2, 3, 3, 4]))) for _ in range(ENTRIES)})
    letters = 'abcdefghijklmnopqrstuvwxyz '
    source = 'define Entry %s ;\ndefine Net Entry @-> "<" ... ">" || [.#. | " "] _ [.#. | " "] ;\n' % ' | '.join('{%s}' % entry for entry in entries)
    return source, [letter if letter != ' ' else '% ' for letter in letters], entries[0]


def cascade(chance, size):
    letters = [chr(97 + place % 26) + (str(place // 26) if place >= 26 else '') for place in range(size)]

    def some(many):
        return '[%s]' % '|'.join('"%s"' % letter for letter in sorted(chance.sample(letters, many)))

    lines = []
    for place in range(RULES):
        arrow = chance.choice(['@->', '@->', '@>', '->@'])
        one, other = chance.choice(letters), chance.choice(letters)
        centre = chance.choice(['"%s"+' % one, '"%s" ("%s")' % (one, other), '["%s" | "%s" "%s"]' % (one, one, other)])
        context = ' || %s _' % some(4) if chance.random() < .5 else ' || _ %s' % some(4)
        lines.append('define R%d %s %s "%s"%s ;' % (place, centre, arrow, chance.choice(letters), context))
    lines.append('define Net %s ;' % ' .o. '.join('R%d' % place for place in range(RULES)))
    return '\n'.join(lines) + '\n', letters, letters[0]


def syllables():
    vowels, consonants = 'aeiouyäö', 'bdfghjklmnprstv'
    source = 'define V %s ;\ndefine C %s ;\ndefine Net %s ;\n' % (' | '.join(vowels), ' | '.join(consonants), SYLLABLES)
    return source, [], 'strukturalismi'


def main():
    ours, beside, hfst = program(sys.argv[1:]), has_foma(), shutil.which('hfst-xfst')
    chance = random.Random(20261201)
    cases = [('tokenizer of %d entries' % ENTRIES, tokenizer(chance))]
    cases += [('%d rules over %d symbols' % (RULES, size), cascade(chance, size)) for size in (40, 400)]
    cases += [('Finnish syllables', syllables())]
    for name, (source, symbols, word) in cases:
        with tempfile.TemporaryDirectory() as folder:
            write_project(folder, source, symbols)
            seconds, memory = spent([ours, 'down', folder, 'Net'], (word + '\n').encode(), SECONDS)
            line = '%-28s %7.2f s %7.1f MiB' % (name, seconds, memory / 2 ** 20)
            script = (source + 'regex Net ;\ndown %s\n' % word).encode()
            if beside:
                theirs, memory = spent(['foma', '-p'], script, SECONDS)
                line += '   foma %7.2f s %7.1f MiB   %.2f' % (theirs, memory / 2 ** 20, seconds / max(theirs, 0.005))
            if hfst:
                with open(os.path.join(folder, 'script'), 'wb') as out:
                    out.write(script)
                theirs, memory = spent(['hfst-xfst', '-F', os.path.join(folder, 'script')], b'', SECONDS, statuses=range(256))
                line += '   hfst %7.2f s %7.1f MiB' % (theirs, memory / 2 ** 20)
            print(line, flush=True)


if __name__ == '__main__':
    main()
