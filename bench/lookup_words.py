#!/usr/bin/env python3
"""Looks up words of lexicons of 60, 2,000 and 20,000 stems in three classes, of which a third isn't there, by `up` and, where foma is installed,
by `flookup` in its network of the same expression; where HFST is installed too, by `hfst-optimized-lookup`. Prints what compiling takes,
the processor time of a word, the peak memory and, where valgrind is installed, the instructions of a word. What an empty input takes
is taken off, but of the memory.

usage: bench/lookup_words.py [PROGRAM [STEMS ..]]
"""
import os
import random
import re
import resource
import shutil
import subprocess
import sys
import tempfile

from measure import has_foma, program, saved_by_foma, timed, write_project

STEMS = [60, 2_000, 20_000]
WORDS = 4_000
SEED = 7
SYLLABLES = [consonant + vowel for consonant in 'bdfgklmnpr' for vowel in 'aeiou']
# nouns, verbs and adjectives: their endings as expressions, and as they are written
CLASSES = [
    ('"+N":0 ["+Sg":0 | "+Pl":s | "+Sg":0 "+Poss":{es}]', ['', 's', 'es']),
    ('"+V":0 ["+Inf":0 | "+3Sg":s | "+Past":{ed} | "+Prog":{ing} | "+Ag":{er} ["+Sg":0 | "+Pl":s]]', ['', 's', 'ed', 'ing', 'er', 'ers']),
    ('"+A":0 ["+Pos":0 | "+Cmp":{er} | "+Sup":{est} | "+Adv":{ly}]', ['', 'er', 'est', 'ly']),
]


def stems_of(count, dice):
    """So many stems of two to five syllables, each once."""
    stems = {}
    while len(stems) < count:
        syllables = dice.choices(SYLLABLES, k=dice.choice([2, 3, 3, 4, 4, 5]))
        stems[''.join(syllables) + dice.choice(['', '', 'n', 'r', 't', 's'])] = None
    return list(stems)


def lexicon(count):
    """The expression of a lexicon of so many stems, and words of which a third isn't there, since it is read from its end."""
    dice = random.Random(SEED)
    stems = stems_of(count, dice)
    third = count // 3
    # some nouns are verbs too
    members = [stems[:third], stems[third:2 * third] + stems[:count // 20], stems[2 * third:]]
    parts = ['[%s] %s' % (' | '.join('{%s}' % stem for stem in part), endings) for part, (endings, _) in zip(members, CLASSES)]
    words = []
    for place in range(WORDS):
        part = dice.randrange(len(CLASSES))
        word = dice.choice(members[part]) + dice.choice(CLASSES[part][1])
        words.append(word if place % 3 else word[::-1])
    return ' | '.join(parts), words


def seconds_of(command, path):
    """The processor time of a command that reads a file, and its peak memory in bytes."""
    before = resource.getrusage(resource.RUSAGE_CHILDREN)
    with open(path, 'rb') as source:
        _, memory = timed(command, source)
    after = resource.getrusage(resource.RUSAGE_CHILDREN)
    return after.ru_utime + after.ru_stime - before.ru_utime - before.ru_stime, memory


def instructions_of(command, path):
    """The instructions of a command that reads a file, as valgrind counts them."""
    with open(path, 'rb') as source:
        said = subprocess.run(['valgrind', '--tool=callgrind', '--callgrind-out-file=/dev/null'] + command,
                              stdin=source, stdout=subprocess.DEVNULL, stderr=subprocess.PIPE, check=True).stderr
    return int(re.search(rb'Collected : (\d+)', said).group(1))


def of_a_word(command, folder, words):
    """What a command takes without a word, and for a word: microseconds of processor time, MiB and instructions."""
    empty, few, many = (os.path.join(folder, name) for name in ('empty', 'few', 'many'))
    for path, lines in ((empty, []), (few, words), (many, words * 25)):
        with open(path, 'w') as out:
            out.writelines(word + '\n' for word in lines)
    alone, _ = seconds_of(command, empty)
    seconds, memory = seconds_of(command, many)
    line = '%8.3f s  %8.2f us a word  %6.1f MiB' % (alone, (seconds - alone) / len(words) / 25 * 1e6, memory / 2 ** 20)
    if shutil.which('valgrind'):
        line += '  %7.0f instructions a word' % ((instructions_of(command, few) - instructions_of(command, empty)) / len(words))
    return line


def saved_by_hfst(network):
    """The same network as foma's, as HFST's look-up reads it."""
    quick = network + '.ol'
    subprocess.run('zcat %s >%s.raw && hfst-invert -i %s.raw | hfst-fst2fst -f olw -o %s' % (network, network, network, quick),
                   shell=True, stderr=subprocess.DEVNULL, check=True)
    return quick


def main():
    morph = program(sys.argv[1:])
    foma = has_foma()
    hfst = all(shutil.which(tool) for tool in ('hfst-invert', 'hfst-fst2fst', 'hfst-optimized-lookup'))
    with tempfile.TemporaryDirectory() as folder:
        for size in [int(size) for size in sys.argv[2:]] or STEMS:
            expression, words = lexicon(size)
            write_project(folder, 'define N %s ;\n' % expression)
            print('%6d stems  morph    %s' % (size, of_a_word([morph, 'up', folder, 'N'], folder, words)), flush=True)
            if foma:
                start = resource.getrusage(resource.RUSAGE_CHILDREN).ru_utime
                network = saved_by_foma(folder, expression)
                print('              foma     %8.3f s to compile' % (resource.getrusage(resource.RUSAGE_CHILDREN).ru_utime - start))
                print('              flookup  %s' % of_a_word(['flookup', '-b', network], folder, words), flush=True)
                if hfst:
                    print('              hfst     %s' % of_a_word(['hfst-optimized-lookup', '-q', saved_by_hfst(network)], folder, words), flush=True)


if __name__ == '__main__':
    main()
