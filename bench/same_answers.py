#!/usr/bin/env python3
"""Compares two programs, say that of an earlier text and today's, on cascades of rules made by chance: `up` and `down` of all words of at
most four symbols. Which parts of a loop are shown may differ, and nothing else.

usage: bench/same_answers.py EARLIER PROGRAM [--cascades N] [--seed N]
"""
import argparse
import itertools
import random
import subprocess
import sys
import tempfile

from measure import write_project

LETTERS = 'abc'
MOST = 4
SIDES = ('||', '//', '\\\\', '\\/')


def part(chance, empty=True):
    """A small language: a word, a choice, or any symbol."""
    kinds = ['word', 'word', 'choice', 'any', 'star'] + (['empty'] if empty else [])
    kind = chance.choice(kinds)
    if kind == 'empty':
        return '0'
    if kind == 'any':
        return '?'
    if kind == 'word':
        return '[%s]' % ' '.join(chance.choices(LETTERS, k=chance.randint(1, 2)))
    if kind == 'choice':
        return '[%s]' % ' | '.join(chance.sample(LETTERS, 2))
    return '[%s %s*]' % (chance.choice(LETTERS), chance.choice(LETTERS))


def contexts(chance):
    """No contexts, or one or two, read on sides by chance."""
    if chance.random() < .3:
        return ''
    sides = ['%s %s _ %s %s' % ('.#.' if chance.random() < .15 else '', part(chance) if chance.random() < .6 else '',
                                part(chance) if chance.random() < .6 else '', '.#.' if chance.random() < .15 else '')
             for _ in range(chance.randint(1, 2))]
    return ' %s %s' % (chance.choice(SIDES), ' , '.join(sides))


def rule(chance):
    """A rule of any kind."""
    arrow = chance.choice(('->', '->', '->', '(->)'))
    kind = chance.random()
    if kind < .12:
        return '[..] %s %s%s' % (arrow, part(chance, empty=False), contexts(chance))
    if kind < .2:
        return '%s => %s _ %s' % (part(chance, empty=False), part(chance), part(chance))

    def mapping():
        centre = part(chance, empty=False)
        if chance.random() < .15:
            return '%s %s %s ... %s' % (centre, arrow, part(chance), part(chance))
        return '%s %s %s' % (centre, arrow, part(chance))

    def group():
        return ' , '.join(mapping() for _ in range(chance.randint(1, 2))) + contexts(chance)

    return ' ,, '.join(group() for _ in range(1 if chance.random() < .8 else 2))


def cascade(chance):
    """The definition of one to five rules that are composed."""
    return 'define N %s ;\n' % ' .o. '.join('[%s]' % rule(chance) for _ in range(chance.randint(1, 5)))


def answers(ran, folder, way, words, net='N'):
    """The replies to the words, without the parts of loops, and the status."""
    done = subprocess.run([ran, way, folder, net], input='\n'.join(words + ['']).encode(), stdout=subprocess.PIPE, check=False)
    lines, replies = iter(done.stdout.decode().split('\n')), []
    for line in lines:
        fields = line.split(' ')
        if len(fields) > 1 and fields[1] == 'loop':
            replies.append((line, [next(lines) is None for _ in range(3)]))
        elif len(fields) > 1 and fields[1].isdigit():
            replies.append((line, [next(lines) for _ in range(int(fields[1]))]))
        else:
            replies.append((line, []))
    return done.returncode, replies


def main():
    asked = argparse.ArgumentParser(description=__doc__.split('\n', maxsplit=1)[0])
    asked.add_argument('earlier')
    asked.add_argument('program')
    asked.add_argument('--cascades', type=int, default=1000)
    asked.add_argument('--seed', type=int, default=1)
    asked = asked.parse_args()
    words = [''.join(word) for length in range(MOST + 1) for word in itertools.product(LETTERS, repeat=length)]
    chance, looks, loops, apart = random.Random(asked.seed), 0, 0, 0
    for _ in range(asked.cascades):
        source = cascade(chance)
        with tempfile.TemporaryDirectory() as folder:
            write_project(folder, source, LETTERS)
            for way in ('up', 'down'):
                before, after = (answers(ran, folder, way, words) for ran in (asked.earlier, asked.program))
                looks += len(words)
                loops += sum(' loop ' in reply[0] for reply in before[1])
                if before != after:
                    apart += 1
                    print('%s: %s' % (way, source), end='')
    print('%d cascades, %d look-ups, %d of them loops: %d differ' % (asked.cascades, looks, loops, apart))
    sys.exit(1 if apart else 0)


if __name__ == '__main__':
    main()
