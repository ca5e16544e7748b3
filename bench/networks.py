#!/usr/bin/env python3
"""Compiles ten expressions over alphabets of 40 and of 400 symbols, by `check` and by `up` of one word, and, where foma is installed, by
foma too, which reads the same file and looks the same word up. Prints the seconds and the peak memory of each, in a table. Then
the same of twenty restrictions that are intersected, over 60, 200 and 400 symbols, with the number of states.

foma's alphabet is open, so that `?` and `~` have one symbol more there, and its networks are minimal. What takes more than
SECONDS is ended and shown as `-`. The program doesn't tell how many states a network has: automata_bench intersects automata of
the same restrictions by the calls that the program makes, and tells it of the result.

usage: bench/networks.py [PROGRAM]
"""
import os
import random
import re
import subprocess
import sys
import tempfile

from measure import ROOT, has_foma, program, timed, write_project

SIZES = [40, 400]
RULES = 20
RULE_SIZES = [60, 200, 400]
SECONDS = 120
SEED = 1994


def either(symbols):
    return '[' + ' | '.join(symbols) + ']'


def lexicon(symbols, words, length):
    """A choice of words of random symbols."""
    chosen = random.Random(SEED)
    return either(' '.join(chosen.choices(symbols, k=length)) for _ in range(words))


def cases(symbols):
    """Names, expressions in which every symbol stands, and a word of each."""
    vowels, consonants = symbols[:len(symbols) // 4], symbols[len(symbols) // 4:]
    vowel, consonant = either(vowels), either(consonants)
    a, b, c, d, e, f, g, h = symbols[:8]
    x, y, z = consonants[:3]
    turned = '[' + ' | '.join('%s:%s' % pair for pair in zip(symbols, symbols[1:] + symbols[:1])) + ']*'
    yield 'no parts of four kinds', '%s* & ~$[%s %s] & ~$[%s %s] & ~$[%s %s] & ~$[%s %s]' % (either(symbols), a, b, c, d, e, f, g, h), a + c
    yield 'no three vowels', '~$[%s^3] & ~$[%s^3]' % (vowel, consonant), a + x + a
    yield 'all but open syllables', '~[[%s+ %s]+]' % (consonant, vowel), x + x
    yield 'eight from the end', '~[%s* %s ?^8]' % (either(symbols), a), a + b
    yield 'four contexts', '%s => %s _ %s , %s _ %s , .#. _ , _ .#.' % (a, vowel, consonant, consonant, vowel), a + x
    yield 'nine contexts', '%s => %s' % (vowel, ' , '.join(['%s ?* _' % s for s in consonants[:4]] + ['_ ?* %s' % s for s in consonants[4:8]] + ['.#. %s _ .#.' % consonant])), x + a
    yield 'words put in', '~$[[%s %s %s]/%s] & %s*' % (a, b, c, consonant, either(symbols)), a + x + b
    yield 'four composed', '%s .o. %s .o. %s .o. ~$[%s %s]' % (turned, turned, turned, a, a), b + c
    yield 'a lexicon and its spelling', '%s .o. [%s:%s | \\%s]* .o. %s => %s _ , _ %s .o. [%s:0 | \\%s]*' % (lexicon(symbols, 1000, 8), vowel, a, vowel, x, consonant, a, y, y), a + z
    yield 'nested powers', '~[[%s^255]^4] & [%s^255]^4' % (a, either(symbols)), a * 1020


def shown(measured):
    seconds, memory = measured
    return '       -          -' if seconds == float('inf') else '%8.3f s %7.1f MiB' % (seconds, memory / 2 ** 20)


def theirs(folder, word):
    """What foma takes for the file of definitions and the word."""
    script = os.path.join(folder, 'script')
    with open(script, 'w') as out:
        out.write('source %s\nregex N ;\nup %s\n' % (os.path.join(folder, 'r.xfst'), word))
    with open(script, 'rb') as source:
        return timed(['foma', '-p'], source, most=SECONDS)


def ours(morph, folder, word):
    """What the program takes to check the project, and to look the word up."""
    check = timed([morph, 'check', folder], most=SECONDS)
    words = os.path.join(folder, 'words')
    with open(words, 'w') as out:
        out.write(word + '\n')
    with open(words, 'rb') as source:
        return check, timed([morph, 'up', folder, 'N'], source, most=SECONDS)


def rules(symbols):
    """Restrictions of the first symbols, each by two further ones, which are its own."""
    kept = ('[%s => %s _ , _ %s]' % tuple(symbols[number + RULES * further] for further in range(3)) for number in range(RULES))
    return '%s* & %s' % (either(symbols), ' & '.join(kept))


def their_states(folder):
    """How many states foma's network of the file of definitions has."""
    script = 'source %s\nregex N ;\nprint size\n' % os.path.join(folder, 'r.xfst')
    said = subprocess.run(['foma', '-p'], input=script, capture_output=True, text=True, check=True).stdout
    return re.findall(r'(\d+) states', said)[-1]


def our_states(size):
    """How many states automata_bench's automaton of the restrictions has, over so many letters."""
    crate = os.path.join(ROOT, 'crates', 'automata_bench')
    # a run builds the program again where a source is newer
    subprocess.run(['rt', 'run'], cwd=crate, stdin=subprocess.DEVNULL, stdout=subprocess.DEVNULL, check=True)
    said = subprocess.run([os.path.join(crate, 'out', 'automata_bench'), 'rules', str(size)], capture_output=True, text=True, check=True).stdout
    return said.split()[-1]


def compare_rules(morph, foma, folder):
    """Prints what the intersected restrictions take, and how many states they have."""
    print('%-26s %7s %22s %6s %22s %6s' % ('intersected rules', 'symbols', 'up', 'states', 'foma' if foma else '', 'states' if foma else ''))
    for size in RULE_SIZES:
        symbols = ['s%d' % number for number in range(size)]
        write_project(folder, 'define N %s ;\n' % rules(symbols), symbols)
        _, up = ours(morph, folder, symbols[RULES] + symbols[0])
        line = '%-26s %7d %22s %6s' % ('twenty restrictions', size, shown(up), our_states(size))
        print(line + (' %22s %6s' % (shown(theirs(folder, symbols[RULES] + symbols[0])), their_states(folder)) if foma else ''), flush=True)


def main():
    morph = program(sys.argv[1:])
    foma = has_foma()
    print('%-26s %7s %22s %22s %22s' % ('expression', 'symbols', 'check', 'up', 'foma' if foma else ''))
    with tempfile.TemporaryDirectory() as folder:
        for size in SIZES:
            symbols = ['s%d' % number for number in range(size)]
            for name, expression, word in cases(symbols):
                write_project(folder, 'define N %s ;\n' % expression, symbols)
                check, up = ours(morph, folder, word)
                line = '%-26s %7d %22s %22s' % (name, size, shown(check), shown(up))
                print(line + (' %22s' % shown(theirs(folder, word)) if foma else ''), flush=True)
        compare_rules(morph, foma, folder)


if __name__ == '__main__':
    main()
