#!/usr/bin/env python3
"""Writes the rows of worked_rows below the heading HEADING, with what is wanted of them: two hundred small sets of directed rules by chance, with all four
arrows, whose pairs are listed here by the definition; or compares a built program with as many as asked for, each with all four arrows and more contexts. The definition is taken word for word, on strings: a
match is a part of the word that is a centre where a context holds; every way to cut the word into copied symbols and replaced centres is tried, and one is kept
where no symbol is copied at which a match begins, and no centre is replaced at which a longer one, or a shorter one, does (from the right: ends). No automaton is built here.

usage: bench/directed_rows.py              (writes that section of crates/worked_rows/stdin)
       bench/directed_rows.py RULES [PROGRAM]   (compares the answers of the program, by default the built one, with the definition in so many rules by chance)
"""
import itertools
import os
import random
import subprocess
import sys
import tempfile

from measure import ROOT
from replacement_rows import Mapping, holds, is_centre, results, some_contexts, some_words

SEED, RULES = 1996, 200
HEADING = '# Directed rules by chance, whose pairs bench/directed_rows.py lists by the definition'
WAYS = [('LeftLongest', '@->'), ('LeftShortest', '@>'), ('RightLongest', '->@'), ('RightShortest', '>@')]
NAMES = 'ABCD'
MOST_WORDS = 6
# what a row shows whole of a reply
MOST_BYTES = 300


def written(part):
    """A part as an expression: the empty word is written with brackets."""
    return ' | '.join(row.strip() or '[]' for row in part.split('|'))


def mapping_text(mapping, arrow):
    if mapping.after is None:
        return '%s %s %s' % (written(mapping.centre), arrow, written(mapping.result))
    return '%s %s %s ... %s' % (written(mapping.centre), arrow, written(mapping.result), written(mapping.after))


class Rule:
    def __init__(self, symbols, maps, contexts):
        self.symbols, self.maps, self.contexts = symbols, maps, contexts

    def text(self, arrow):
        text = ' , '.join(mapping_text(mapping, arrow) for mapping in self.maps)
        return text + (' || ' + ' , '.join('%s _ %s' % context for context in self.contexts) if self.contexts else '')

    def matches(self, word):
        """The places at which each match begins and ends."""
        return [(start, end) for start in range(len(word)) for end in range(start + 1, len(word) + 1)
                if any(is_centre(mapping, word[start:end], self.symbols) for mapping in self.maps)
                and (not self.contexts or any(holds(context, word[:start], word[end:], self.symbols) for context in self.contexts))]

    def lowers(self, word, way):
        """The lower words of the directed derivations of the word."""
        matches = self.matches(word)
        side = 0 if way.startswith('Left') else 1
        longest = way.endswith('Longest')

        def is_barred(start, end):
            beside = [match for match in matches if match[side] == (start, end)[side]]
            return any(other[1] - other[0] > end - start if longest else other[1] - other[0] < end - start for other in beside)

        def is_copied(start):
            return not any(match[side] == (start, start + 1)[side] for match in matches)

        def rest(start):
            if start == len(word):
                return {''}
            found = set()
            if is_copied(start):
                found |= {word[start] + behind for behind in rest(start + 1)}
            for begin, end in matches:
                if begin == start and not is_barred(start, end):
                    for mapping in self.maps:
                        if is_centre(mapping, word[start:end], self.symbols):
                            found |= {put + behind for put in results(mapping, word[start:end], self.symbols) for behind in rest(end)}
            return found

        return rest(0)


def some_mapping(chosen, symbols):
    centre = some_words(chosen, symbols, 2, False)
    kind = chosen.random()
    if kind < 0.25:
        centre = '%s %s*' % tuple(chosen.choices(symbols, k=2))
    elif kind < 0.4:
        centre = '%s | %s' % (centre, ' '.join(chosen.choices(symbols, k=3)))
    if chosen.random() < 0.2:
        return Mapping(centre, some_words(chosen, symbols, 1, True), some_words(chosen, symbols, 1, True))
    return Mapping(centre, some_words(chosen, symbols, 2, True))


def some_rule(chosen, counts):
    symbols = chosen.choice(['ab', 'ab', 'abc'])
    maps = [some_mapping(chosen, symbols) for _ in range(chosen.choice([1, 1, 2]))]
    return Rule(symbols, maps, some_contexts(chosen, symbols, counts))


def words_of(symbols):
    most = 3 if len(symbols) == 3 else 4
    return [''.join(letters) for length in range(most + 1) for letters in itertools.product(symbols, repeat=length)]


def reply(word, lowers):
    """What the program says of a word: its lower words in the order of their bytes."""
    return '1 %d %s\n' % (len(lowers), word) + ''.join(lower + '\n' for lower in sorted(lowers))


def project_of(rule, arrow):
    return 'xfst r.xfst\nalphabet %s\n' % ' '.join(rule.symbols), 'define N %s ;\n' % rule.text(arrow)


def escaped(text):
    return text.replace('\\', '\\\\').replace('\n', '\\n')


def told_by(rule, words):
    """What `serve` says of the rule with each arrow at each of the words."""
    told = 'ok 1 rebuilt %s\n' % ' '.join(NAMES)
    return told + ''.join(reply(word, rule.lowers(word, way)) for word in words for way, _ in WAYS)


def telling(rule):
    """The first words that the four arrows tell apart, as many as a row shows what is said of."""
    apart = [word for word in words_of(rule.symbols) if len({frozenset(rule.lowers(word, way)) for way, _ in WAYS}) > 1][:MOST_WORDS]
    while apart and len(told_by(rule, apart)) > MOST_BYTES:
        apart.pop()
    return apart


def rows():
    chosen = random.Random(SEED)
    for number in range(RULES):
        words = []
        while not words:
            rule = some_rule(chosen, [0, 0, 1])
            words = telling(rule)
        manifest, _ = project_of(rule, '@->')
        yield 'row directed_rules_%d' % (number + 1)
        yield 'file project ' + escaped(manifest)
        yield 'file r.xfst ' + escaped(''.join('define %s %s ;\n' % (name, rule.text(arrow)) for name, (_, arrow) in zip(NAMES, WAYS)))
        yield 'words serve d'
        yield 'input ' + escaped(''.join('down %s %s\n' % (name, word) for word in words for name in NAMES))
        yield 'run 0 ' + escaped(told_by(rule, words))
        yield ''


def write():
    path = os.path.join(ROOT, 'crates', 'worked_rows', 'stdin')
    with open(path, encoding='utf-8') as old:
        lines = old.read().split('\n')
    start = lines.index(HEADING) + 1
    end = next((at for at in range(start, len(lines)) if lines[at].startswith('# ')), len(lines))
    with open(path, 'w', encoding='utf-8') as out:
        out.write('\n'.join(lines[:start] + list(rows()) + lines[end:]))


def compare(count, program):
    chosen = random.Random(SEED + 1)
    tried = differ = 0
    for _ in range(count):
        rule = some_rule(chosen, [0, 0, 1, 1, 2])
        words = words_of(rule.symbols)
        for way, arrow in WAYS:
            with tempfile.TemporaryDirectory() as folder:
                for name, text in zip(('project', 'r.xfst'), project_of(rule, arrow)):
                    with open(os.path.join(folder, name), 'w', encoding='utf-8') as out:
                        out.write(text)
                got = subprocess.run([program, 'down', folder, 'N'], input=''.join(word + '\n' for word in words), capture_output=True, text=True).stdout
            tried += len(words)
            if got != ''.join(reply(word, rule.lowers(word, way)) for word in words):
                differ += 1
                print('differs: %s' % rule.text(arrow), flush=True)
    print('%d rules with four arrows, %d look-ups, %d differ' % (count, tried, differ))


if __name__ == '__main__':
    if len(sys.argv) > 1:
        compare(int(sys.argv[1]), sys.argv[2] if len(sys.argv) > 2 else os.path.join(ROOT, 'morph'))
    else:
        write()
