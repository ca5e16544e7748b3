#!/usr/bin/env python3
"""Compiles lexc lexicons and looks words up in them, beside foma and hfst-lexc where these are installed, on the same source in one run: 20,000
and 100,000 entries of stems with two endings; 16,700 entries whose nouns form compounds of at most three parts and take the endings that flags
of 23 features ask for; and 2,000 and 16,000 stems that set features which endings test behind compounds of any length, with the flags behind the letters or before them, and with two rules composed behind. Prints the processor seconds and the peak memory of compiling, of the shortest of some runs, with their ratio to ours, and
what a word takes beside `flookup`, which obeys flags.

usage: bench/lexicons.py [PROGRAM]
"""
import os
import random
import shutil
import sys
import tempfile

from lookup_words import of_a_word
from measure import has_foma, program, spent

SECONDS = 300
# so many runs of us and of foma, in turns, of which the least is told: most take some hundredths of a second
RUNS = 7
WORDS = 4_000
SEED = 11
SYLLABLES = [consonant + vowel for consonant in 'bdfgklmnpr' for vowel in 'aeiou']
# classes of nouns, each with a feature and two values; one more feature counts the parts of a compound. foma reads no `0` in a flag
CLASSES = 'ABCDEFGHIJKLMNOPQRSTUV'


def stem(number):
    """The stem of a number: three syllables."""
    return ''.join(SYLLABLES[number // 50 ** place % 50] for place in (2, 1, 0))


def plain(entries):
    """The text of a lexicon with so many entries, short enough for a file, and the words that it has."""
    stems = [stem(number) for number in range(entries - 2)]
    lines = ['Multichar_Symbols +N +Sg +Pl', 'LEXICON Root'] + [part + ' N;' for part in stems]
    return '\n'.join(lines + ['LEXICON N', '+N+Sg:0 #;', '+N+Pl:^s #;', 'END', '']), lambda dice: dice.choice(stems) + dice.choice(['', '^s'])


def ending(group, value):
    return SYLLABLES[group] + 'xz'[value]


def flagged(entries):
    """The text of a lexicon of compounds, with so many entries, and the words that it has. A noun sets the value of its class, in front or behind its
    stem, of which some have other vowels in the word; behind it stands the ending of this value, which sets the class back. Between two nouns stands a seam."""
    flags = ['@%s.%s.%s@' % (kind, group, value) for kind in 'PR' for group in CLASSES for value in 'ab'] + ['@C.%s@' % group for group in CLASSES]
    flags += ['@D.PARTS@', '@R.PARTS.1@', '@R.PARTS.2@', '@P.PARTS.1@', '@P.PARTS.2@', '@P.PARTS.3@']
    lines = ['Multichar_Symbols +N +Sg ' + ' '.join(flags), 'LEXICON Root']
    lines += ['@D.PARTS@@P.PARTS.1@ Noun;', '@R.PARTS.1@@P.PARTS.2@ Noun;', '@R.PARTS.2@@P.PARTS.3@ Noun;', 'LEXICON Noun']
    groups, dice, endings = len(CLASSES), random.Random(SEED), []
    for number in range(entries - 3 - 2 * groups - 2):
        group, value = number % groups, number // groups % 2
        upper = stem(7 * number % 125_000) + ''.join(dice.choices(SYLLABLES, k=2))
        lower = upper.replace('a', 'e') if dice.random() < 0.3 else upper
        flag = '@P.%s.%s@' % (CLASSES[group], 'ab'[value])
        sides = [side + flag if number % 4 < 2 else flag + side for side in (upper, lower)]
        lines.append('%s:%s End;' % tuple(sides))
        endings.append(lower + ending(group, value))
    lines.append('LEXICON End')
    for group, feature in enumerate(CLASSES):
        for value in (0, 1):
            flag = '@R.%s.%s@@C.%s@' % (feature, 'ab'[value], feature)
            lines.append('+Sg%s:%s%s Rest;' % (flag, ending(group, value), flag))
    lines += ['LEXICON Rest', '+N:0 #;', '-:0 Root;', 'END', '']
    return '\n'.join(lines), lambda dice: ''.join(dice.choices(endings, k=dice.choice([1, 1, 2, 3])))


def syllable(dice):
    return dice.choice('bcdfghjklmnpqrstvwxz') + dice.choice('aeiouyäö') * dice.choice((1, 1, 2)) + (dice.choice('nlrstk') if dice.random() < .4 else '')


def crossed(stems, features, before=False):
    """The text of a lexicon of so many stems, each of which sets three of the features. Endings test one, behind compounds of any length. The flags of
    a stem stand behind its letters, or before them. Then the words that it has."""
    dice = random.Random(20261130)
    flags = ['@%s.F%d%s@' % (kind, feature, '.' + value if value else '') for feature in range(features)
             for kind, value in (('P', 'A'), ('P', 'B'), ('P', 'C'), ('R', 'A'), ('D', 'B'), ('U', 'C'), ('C', ''))]
    lines = ['Multichar_Symbols +N +Sg +Pl ' + ' '.join(flags), 'LEXICON Root', 'Stems ;', 'LEXICON Stems']
    made, endings = [], ['', 'n', 'lla', 'ssa', 'sta', 'in', 't', 'ksi', 'na', 'tta']
    for _ in range(stems):
        made.append(''.join(syllable(dice) for _ in range(dice.randint(2, 5))))
        sets = ''.join('@P.F%d.%s@' % (feature, dice.choice('ABC')) for feature in dice.sample(range(features), min(3, features)))
        lines.append('%s Class%d ;' % (sets + made[-1] if before else made[-1] + sets, dice.randint(0, 19)))
    for number in range(20):
        lines += ['LEXICON Class%d' % number, '+N:0 Ends%d ;' % dice.randint(0, 9)] + (['-:0 Compound ;'] if number % 2 else [])
    lines += ['LEXICON Compound'] + ['@D.F%d.B@ Stems ;' % dice.randrange(features) for _ in range(3)]
    for number in range(10):
        lines.append('LEXICON Ends%d' % number)
        for ending_text in endings:
            flag = '@%s.F%d.%s@' % (dice.choice('RDU'), dice.randrange(features), dice.choice('ABC'))
            lines.append('%s+Sg:%s%s # ;' % (flag, flag, ending_text or '0'))
    return '\n'.join(lines + ['END', '']), lambda dice: dice.choice(made) + dice.choice(['', dice.choice(made)]) + dice.choice(endings)


# two rules that may stand behind a lexicon
RULES = 'define Net Lex .o. n -> m || _ p .o. k -> g || a _ a ;\n'


def told(name, seconds, memory, ours=None):
    """A line about compiling."""
    line = '%28s %8.3f s %8.1f MiB' % (name, seconds, memory / 2 ** 20)
    return line if ours is None else line + '   %.2f of its time, %.2f of its memory' % (ours[0] / max(seconds, 0.005), ours[1] / max(memory, 1))


def least(*commands):
    """The processor seconds and the peak memory of each command with its input: those of its shortest run, where all take turns."""
    turns = [[spent(command, given, SECONDS) for command, given in commands] for _ in range(RUNS)]
    return [min(runs) for runs in zip(*turns)]


def main():
    morph, foma = program(sys.argv[1:]), has_foma()
    sources = [('20,000 entries', *plain(20_000), ''), ('100,000 entries', *plain(100_000), ''), ('16,700 with flags', *flagged(16_700), '')]
    for stems, features in ((2_000, 8), (2_000, 20), (16_000, 20)):
        sources.append(('%d stems, %d features tested behind compounds' % (stems, features), *crossed(stems, features), ''))
    sources.append(('the same 16,000, flags before the letters', *crossed(16_000, 20, before=True), ''))
    sources.append(('the same 16,000, two rules behind', *crossed(16_000, 20), RULES))
    for name, text, word, rules in sources:
        with tempfile.TemporaryDirectory() as folder:
            path, net = os.path.join(folder, 'n.lexc'), 'Net' if rules else 'Lex'
            for file, content in (('n.lexc', text), ('r.xfst', rules), ('project', 'lexc Lex n.lexc\n' + 'xfst r.xfst\n' * bool(rules))):
                with open(os.path.join(folder, file), 'w', encoding='utf-8') as out:
                    out.write(content)
            dice = random.Random(SEED)
            # a third of the words isn't there, since they are read from their ends
            words = [word(dice)[::1 if number % 3 else -1] for number in range(WORDS)]
            print(name)
            network = os.path.join(folder, 'n.foma')
            script = 'read lexc %s\n%ssave stack %s\n' % (path, 'define Lex\nregex %s' % RULES.partition('Net ')[2] if rules else '', network)
            commands = [([morph, 'up', folder, net], b''), (['foma', '-p'], script.encode())]
            ours, *others = least(*commands[:1 + foma])
            print(told('morph', *ours), flush=True)
            for other in others:
                print(told('foma', *other, ours), flush=True)
            if shutil.which('hfst-lexc') and not rules:
                print(told('hfst-lexc', *spent(['hfst-lexc', path, '-o', os.path.join(folder, 'n.hfst')], b'', SECONDS), ours), flush=True)
            print('%28s %s' % ('morph', of_a_word([morph, 'up', folder, net], folder, words)), flush=True)
            if foma:
                print('%28s %s' % ('flookup', of_a_word(['flookup', '-b', network], folder, words)), flush=True)


if __name__ == '__main__':
    main()
