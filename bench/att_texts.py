#!/usr/bin/env python3
"""AT&T text between this program, foma and hfst. For every name of every project of examples/ the text of `att` is read by foma and by hfst, where they are
installed, and by `attup`; the texts that they write of the same network are read by `attup`, too; and words of the network, drawn from paths of its
text, and words that are one letter away from them, must have the analyses that `up` answers. A word is left out where the project and the text
cut it into other symbols, and where it has endlessly many analyses or more than 4,096; and for foma, which takes a letter and the accents behind it as
one symbol, where it has an accent that is a character. Prints how many words have the same analyses, name by name
where one has others, and then the figures: a lexicon of 100,000 entries compiled by `up`, loaded by `attup`, and looked up in foma's binary and hfst's.

  att_texts.py [PROGRAM] [--words N] [--seed N]

The words are of each name."""
import os
import random
import shutil
import subprocess
import sys
import tempfile
import unicodedata

import lexicons
import measure
from lookup_words import of_a_word
from ports import changed, listed

sys.path.insert(0, os.path.join(measure.ROOT, 'tools'))
import att  # noqa: E402

EXAMPLES = os.path.join(measure.ROOT, 'examples')
SPACE = '@_SPACE_@'
# no path of more arcs is drawn, and so many tries are made for each word that is wanted
LONGEST, TRIES = 40, 8
ENTRIES = 100_000
LOOKED_UP = 4_000


def ran(command, given='', folder=None):
    """What a command writes, and its status."""
    done = subprocess.run(command, input=given.encode(), cwd=folder, stdout=subprocess.PIPE, stderr=subprocess.DEVNULL, check=False)
    return done.returncode, done.stdout.decode()


def write(folder, name, text):
    path = os.path.join(folder, name)
    with open(path, 'w', encoding='utf-8') as out:
        out.write(text)
    return path


def names_of(morph, folder):
    """The names of a project; none where it has a fault."""
    status, said = ran([morph, 'check', folder])
    return said.split()[3:] if status == 0 else []


def symbols_of(morph, folder):
    """The symbols of a project."""
    with open(os.path.join(folder, 'project'), encoding='utf-8') as text:
        end = text.read().count('\n') + 1
    _, said = ran([morph, 'serve', folder], 'put ask.xfst 1\ndefine Sigma ? .x. 0 ;\nsplice project %d 0 1\nxfst ask.xfst\nup Sigma\n' % end)
    lines = said.split('\n')
    at = next(number for number, line in enumerate(lines) if line.startswith('3 '))
    return lines[at + 1:at + 1 + int(lines[at].split()[1])]


def cut(word, symbols):
    """The symbols into which a word is cut, the longest at each place, up to a place where none begins."""
    found, at = [], 0
    while at < len(word):
        symbol = max((it for it in symbols if word.startswith(it, at)), key=len, default=None)
        if symbol is None:
            break
        found.append(symbol)
        at += len(symbol)
    return found


def some_words(arcs, finals, count, dice):
    """Lower words of paths that are drawn from a network, each once."""
    leaving, ends, found = {}, set(finals), {}
    for start, end, _, low in arcs:
        leaving.setdefault(start, []).append((end, low or ''))
    for _ in range(TRIES * count):
        state, word = '0', ''
        for _ in range(LONGEST):
            if state in ends and (state not in leaving or dice.random() < 0.3):
                found[word] = None
                break
            if state not in leaving:
                break
            state, low = dice.choice(leaving[state])
            word += low
        if len(found) == count:
            break
    return [word for word in found if word and '\n' not in word]


def answers(replies):
    """The analyses of each line, from replies in their order, `None` where they have no end or are too many."""
    lines, found = iter(replies.split('\n')[:-1]), []
    for line in lines:
        kind = line.split(' ')[1]
        texts = [next(lines) for _ in range(int(kind) if kind.isdigit() else 3 if kind == 'loop' else 0)]
        found.append(None if kind in ('loop', 'more') else set(texts) if kind.isdigit() else set())
    return found


def has_accent(word):
    """Whether an accent is a character of the word, by itself."""
    return any(map(unicodedata.combining, word))


def by_foma(folder, text):
    """foma's network of a text, as a file for flookup, and the text that it writes of it."""
    path, network, back = write(folder, 'ours.att', text), os.path.join(folder, 'n.foma'), os.path.join(folder, 'foma.att')
    ran(['foma', '-p'], 'read att %s\nsave stack %s\nwrite att %s\n' % (path, network, back))
    with open(back, encoding='utf-8') as it:
        return ['flookup', network], it.read()


def by_hfst(folder, text):
    """hfst's network of a text, as a file for hfst-lookup, which looks up the upper side, and the text that it writes of it."""
    path, network = write(folder, 'ours.att', text.replace(' ', SPACE)), os.path.join(folder, 'n.hfst')
    ran(['sh', '-c', 'hfst-txt2fst -i "$1" -o "$2.up" && hfst-invert -i "$2.up" -o "$2"', 'sh', path, network])
    _, back = ran(['hfst-fst2txt', '-D', '-i', network + '.up'])
    return ['hfst-lookup', '-q', network], back.replace(SPACE, ' ')


TOOLS = (('foma', ('foma', 'flookup'), by_foma), ('hfst', ('hfst-txt2fst', 'hfst-invert', 'hfst-fst2txt', 'hfst-lookup'), by_hfst))


def told_apart(name, which, words, ours, theirs):
    """The words of which others are told, and a line about the first."""
    apart = [word for word, want, it in zip(words, ours, theirs) if want != it]
    if apart:
        at = words.index(apart[0])
        print('%s: %d of %d words by %s, first %r: %s by up, and %s' % (name, len(apart), len(words), which, apart[0], sorted(ours[at]), theirs[at] and sorted(theirs[at])))
    return len(apart)


def compare(morph, folder, net, symbols, tools, count, dice):
    """Compares the words of a name by all ways: how many words there are, and how many of them are answered otherwise by each way."""
    name = '%s %s' % (os.path.basename(folder), net)
    status, text = ran([morph, 'att', folder, net])
    arcs, finals, fault = att.read(text)
    if status or fault or text and not text.startswith('0') or any(len(line.split('\t')) not in (1, 4) for line in text.split('\n')[:-1]):
        raise SystemExit('%s: att ends with status %d, and its text has a fault: line %s' % (name, status, fault))
    own = sorted({symbol for _, _, up, low in arcs for symbol in (up, low) if symbol})
    words = some_words(arcs, finals, count, dice)
    words = changed(words, len(words)) if len(set(''.join(words))) > 1 else words
    words = [word for word in words if cut(word, symbols) == cut(word, own) and ''.join(cut(word, own)) == word]
    ours = answers(ran([morph, 'up', folder, net], ''.join(word + '\n' for word in words))[1])
    words, ours = [word for word, it in zip(words, ours) if it is not None], [it for it in ours if it is not None]
    if not words:
        return 0, {}
    given, apart = ''.join(word + '\n' for word in words), {}
    with tempfile.TemporaryDirectory() as place:
        texts = {'attup': text}
        for tool, _, made in tools:
            command, texts['attup of the text of ' + tool] = made(place, text)
            found = listed(ran(command, given)[1].replace(SPACE, ' '), '+?')
            theirs = [want if tool == 'foma' and has_accent(word) else found.get(word, set()) for word, want in zip(words, ours)]
            apart[tool] = told_apart(name, tool, words, ours, theirs)
        for which, it in texts.items():
            write(place, 'n.att', it)
            apart[which] = told_apart(name, which, words, ours, answers(ran([morph, 'attup', place, 'n.att'], given)[1]))
    return len(words), apart


def compare_all(morph, asked):
    tools = [tool for tool in TOOLS if all(map(shutil.which, tool[1]))]
    print('beside %s' % (' and '.join(tool[0] for tool in tools) or 'no other tool: foma and hfst are not installed'))
    dice, names, words, apart = random.Random(asked.seed), 0, 0, {}
    for example in sorted(os.listdir(EXAMPLES)):
        folder = os.path.join(EXAMPLES, example)
        if not os.path.isdir(folder):
            continue
        nets = names_of(morph, folder)
        symbols = symbols_of(morph, folder) if nets else []
        for net in nets:
            count, differ = compare(morph, folder, net, symbols, tools, asked.words, dice)
            names, words = names + 1, words + count
            for which, number in differ.items():
                apart[which] = apart.get(which, 0) + number
    print('%d names, %d words: %s' % (names, words, ', '.join('%d differ by %s' % (number, which) for which, number in apart.items())), flush=True)


def figures(morph):
    """Prints what a lexicon takes that is compiled, and what its text takes."""
    text, word = lexicons.plain(ENTRIES)
    dice = random.Random(lexicons.SEED)
    words = [word(dice)[::1 if number % 3 else -1] for number in range(LOOKED_UP)]
    with tempfile.TemporaryDirectory() as folder:
        write(folder, 'n.lexc', text)
        write(folder, 'project', 'lexc Lex n.lexc\n')
        seconds, memory = measure.spent([morph, 'att', folder, 'Lex'], b'', 600)
        _, written = ran([morph, 'att', folder, 'Lex'])
        write(folder, 'n.att', written)
        print('%d entries; their text has %.1f MiB and takes %.3f s, %.1f MiB' % (ENTRIES, len(written.encode()) / 2 ** 20, seconds, memory / 2 ** 20))
        ways = [('up, compiling', [morph, 'up', folder, 'Lex']), ('attup', [morph, 'attup', folder, 'n.att'])]
        if shutil.which('foma') and shutil.which('flookup'):
            network = os.path.join(folder, 'n.foma')
            ran(['foma', '-p'], 'read lexc %s\nsave stack %s\n' % (os.path.join(folder, 'n.lexc'), network))
            ways.append(('flookup, binary', ['flookup', '-b', network]))
        if shutil.which('hfst-txt2fst') and shutil.which('hfst-optimized-lookup'):
            ran(['sh', '-c', 'hfst-txt2fst -i n.att | hfst-invert | hfst-fst2fst -f olw -o n.ol'], folder=folder)
            ways.append(('hfst-optimized-lookup', ['hfst-optimized-lookup', '-q', os.path.join(folder, 'n.ol')]))
        for name, command in ways:
            print('%24s %s' % (name, of_a_word(command, folder, words)), flush=True)


def main():
    morph, asked = measure.program_of_walk(__doc__, words=40)
    compare_all(morph, asked)
    figures(morph)


if __name__ == '__main__':
    main()
