#!/usr/bin/env python3
"""Compares two programs on lexicons with flags that are made by chance: one that resolves all flags into states, and one that keeps them all in its
networks. They are this repository's program, built with another budget in network_lexicons (src/flags.rt): without end, and nothing. Each lexicon
is looked up by itself, inverted, united with another, by its lower side, and composed with rules before and behind it and with itself; `up` and `down` of all
words of at most four symbols. What the lexicon itself relates is also listed by the definition, on strings, as bench/lexicon_rows.py does. Which parts of a
loop are shown may differ, and nothing else.

usage: bench/kept_flags.py RESOLVING KEEPING [--lexicons N] [--seed N]
"""
import argparse
import itertools
import os
import random
import sys
import tempfile

from lexicon_rows import Project, some_lexicons
from same_answers import answers

MOST = 4
NETS = {
    'Inverse': 'Lex.i',
    'Either': 'Lex | Other',
    'Lower': 'Lex.l',
    'Behind': 'Lex .o. a -> b || _ a .o. b (->) a',
    'Before': 'a -> b || _ b .o. Lex',
    'Around': 'a (->) b .o. Lex .o. "+N" -> a',
    'Twice': 'Lex .o. Lex',
    'Joined': 'Lex Other',
    'Starred': '[Lex | a:b]*',
}


def write(folder, name, text):
    with open(os.path.join(folder, name), 'w', encoding='utf-8') as out:
        out.write(text)


def listed(project, way, words):
    """The replies to words by the definition, as far as it lists them; else None."""
    found = []
    for word in words:
        reply = project.reply(way, 'Lex', word)
        lines = reply.split('\n')[:-1]
        # long answers may be endless, which a list can't say
        long = any(len(line) > 2 * MOST for line in lines[1:])
        found.append(None if long else (lines[0], lines[1:]))
    return found


def main():
    asked = argparse.ArgumentParser(description=__doc__.split('\n', maxsplit=1)[0])
    asked.add_argument('resolving')
    asked.add_argument('keeping')
    asked.add_argument('--lexicons', type=int, default=2000)
    asked.add_argument('--seed', type=int, default=1)
    asked = asked.parse_args()
    words = [''.join(word) for length in range(MOST + 1) for word in itertools.product('ab', repeat=length)]
    words += ['+N', 'a+N', 'b+N', 'ab+N', 'aab+N']
    dice, looks, loops, by_list, apart = random.Random(asked.seed), 0, 0, 0, 0
    for _ in range(asked.lexicons):
        lexicons, others = some_lexicons(dice), some_lexicons(dice)
        defined = ''.join('define %s %s ;\n' % net for net in NETS.items())
        files = {'project': 'lexc Lex n.lexc\nlexc Other m.lexc\nxfst r.xfst\nalphabet a b\n', 'n.lexc': lexicons, 'm.lexc': others, 'r.xfst': defined}
        with tempfile.TemporaryDirectory() as folder:
            for name, text in files.items():
                write(folder, name, text)
            for way in ('up', 'down'):
                for net in ['Lex', *NETS]:
                    told = [answers(ran, folder, way, words, net) for ran in (asked.resolving, asked.keeping)]
                    looks += len(words)
                    loops += sum(' loop ' in reply[0] for reply in told[0][1])
                    if told[0] != told[1]:
                        apart += 1
                        print('%s %s differs:\n%s' % (way, net, lexicons))
                    if net == 'Lex':
                        by_definition = listed(Project({'project': 'lexc Lex n.lexc\nalphabet a b +N', 'n.lexc': lexicons}, MOST), way, words)
                        for wanted, reply in zip(by_definition, told[1][1]):
                            if wanted is not None and ' loop ' not in reply[0]:
                                by_list += 1
                                if wanted != reply:
                                    apart += 1
                                    print('%s Lex: %s and not %s\n%s' % (way, reply, wanted, lexicons))
    print('%d lexicons, %d look-ups, %d of them loops, %d also listed: %d differ' % (asked.lexicons, looks, loops, by_list, apart))
    sys.exit(1 if apart else 0)


if __name__ == '__main__':
    main()
