#!/usr/bin/env python3
"""Compares the three ports of examples/ with their originals, which foma and hfst read: the analyses of the words of words.expect beside them, and
of words that are one letter away from these, from a fixed seed. Prints how many words have the same analyses in both, and each word that has others.

usage: bench/ports.py [PROGRAM [CHANGES]]
"""
import os
import random
import re
import shutil
import subprocess
import sys
import tempfile

from measure import ROOT, program

SEED, CHANGES = 1887, 1_000


def changed(words, count):
    """The words, and so many that are one of them with a letter put in, left out or changed, or two exchanged, each once."""
    dice, letters = random.Random(SEED), sorted(set(''.join(words)))
    all_words = dict.fromkeys(words)
    while len(all_words) < len(set(words)) + count:
        word = dice.choice(words)
        at, letter = dice.randrange(len(word)), dice.choice(letters)
        kind = dice.randrange(4)
        all_words[(word[:at] + letter + word[at:], word[:at] + word[at + 1:], word[:at] + letter + word[at + 1:],
                   word[:at] + word[at:at + 2][::-1] + word[at + 2:])[kind]] = None
    return [word for word in all_words if word]


def answered(replies):
    """The analyses of each word, from replies to `up`."""
    found, lines = {}, iter(replies.split('\n')[:-1])
    for line in lines:
        _, count, word = re.fullmatch(r'(1) (\d+|symbol \d+) (.*)', line).groups()
        found[word] = {next(lines) for _ in range(0 if count.startswith('symbol') else int(count))}
    return found


def listed(lines, unknown):
    """The analyses of each word, from lines of a word, a tab, an analysis and perhaps a weight."""
    found = {}
    for line in lines.split('\n'):
        if line:
            word, analysis = line.split('\t')[:2]
            found.setdefault(word, set()).update(() if analysis.endswith(unknown) else (analysis,))
    return found


def wanted_in(path):
    """The words of a file of tests, each with the analyses that it wants: none where a `!` stands before it."""
    wanted = {}
    with open(path, encoding='utf-8') as text:
        for line in text.read().split('\n'):
            word, tab, analysis = line.partition('\t')
            if tab:
                wanted.setdefault(word, set()).add(analysis)
            elif line.startswith('!'):
                wanted[line[1:]] = set()
    return wanted


def by_foma(folder, given):
    """What foma's network of the original says."""
    subprocess.run(['foma', '-f', 'original.foma'], cwd=folder, stdout=subprocess.DEVNULL, check=True)
    done = subprocess.run(['flookup', 'original.bin'], cwd=folder, input=given.encode(), stdout=subprocess.PIPE, check=True)
    return listed(done.stdout.decode(), '+?')


def by_hfst(folder, given):
    """What hfst's network of the original says."""
    subprocess.run('hfst-lexc -q original.lexc -o lexicon && hfst-twolc -q -i original.twolc -o rules'
                   ' && hfst-compose-intersect -1 lexicon -2 rules | hfst-invert | hfst-fst2fst -O -o original.bin',
                   cwd=folder, shell=True, stderr=subprocess.DEVNULL, check=True)
    done = subprocess.run(['hfst-lookup', '-q', 'original.bin'], cwd=folder, input=given.encode(), stdout=subprocess.PIPE, check=True)
    return listed(done.stdout.decode(), '+?')


def main():
    morph, count = program(sys.argv[1:2]), int(sys.argv[2]) if len(sys.argv) > 2 else CHANGES
    for name, tool, compare in ('esperanto', 'foma', by_foma), ('spanish', 'foma', by_foma), ('english-two-level', 'hfst-twolc', by_hfst):
        if not shutil.which(tool):
            print('%s: %s is not installed' % (name, tool))
            continue
        source = os.path.join(ROOT, 'examples', name)
        wanted = wanted_in(os.path.join(source, 'words.expect'))
        given = ''.join(word + '\n' for word in changed(list(wanted), count))
        done = subprocess.run([morph, 'up', source, 'Word'], input=given.encode(), stdout=subprocess.PIPE, check=True)
        ours = answered(done.stdout.decode())
        with tempfile.TemporaryDirectory() as folder:
            for file in os.listdir(source):
                shutil.copy(os.path.join(source, file), folder)
            theirs = compare(folder, given)
        same = sum(ours[word] == theirs.get(word, set()) for word in ours)
        right = sum(ours[word] == wanted[word] for word in wanted)
        print('%s: %d of %d words have the analyses that are wanted; %d of %d words, of which %d have an analysis, have those of %s, too'
              % (name, right, len(wanted), same, len(ours), sum(map(bool, ours.values())), tool))
        for word in ours:
            if ours[word] != theirs.get(word, set()) or ours[word] != wanted.get(word, ours[word]):
                print('  %s: %s here, %s there, %s wanted' % (word, sorted(ours[word]), sorted(theirs.get(word, set())), sorted(wanted.get(word, ()))))


if __name__ == '__main__':
    main()
