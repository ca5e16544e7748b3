#!/usr/bin/env python3
"""Times two-level grammars beside hfst-twolc, on the same rules in one run: processor seconds and peak memory of compiling, with one look-up
of ours, and their ratio. What takes more than SECONDS is ended and shown as `inf`.

usage: bench/grammars.py [PROGRAM]
"""
import os
import shutil
import sys
import tempfile

from measure import program, spent

SECONDS = 120


def grammar(symbols, pairs, rules):
    """So many symbols that stay, pairs of two of them, and rules, each about one such pair between two symbols, with two contexts."""
    names = ['s%d' % k for k in range(symbols)]
    changed = ['%s:%s' % (names[k % symbols], names[(k + 1 + k // symbols) % symbols]) for k in range(pairs - symbols)]
    lines = ['Alphabet', ' '.join(names + changed) + ' ;', 'Rules']
    for k in range(rules):
        at = lambda n: names[(3 * k + n) % symbols]
        lines += ['"rule %d"' % k, '%s %s %s _ %s ; %s _ ;' % (changed[k % len(changed)], '<=>' if k % 2 else '=>', at(5), at(7), at(11))]
    return '\n'.join(lines) + '\n', names


def ours(path, folder, source, names):
    with open(os.path.join(folder, 'project'), 'w') as manifest:
        manifest.write('twolc N g.twolc\n')
    with open(os.path.join(folder, 'g.twolc'), 'w') as out:
        out.write(source)
    return spent([path, 'up', folder, 'N'], (names[2] + '\n').encode(), SECONDS)


def main():
    path = program(sys.argv[1:])
    beside = shutil.which('hfst-twolc')
    if not beside:
        print('hfst-twolc is not installed: nothing to compare with')
    for symbols, pairs, rules in (40, 60, 20), (300, 400, 20), (300, 400, 100):
        source, names = grammar(symbols, pairs, rules)
        with tempfile.TemporaryDirectory() as folder:
            seconds, memory = ours(path, folder, source, names)
            line = '%4d rules over %4d pairs %7.2f s %7.1f MiB' % (rules, pairs, seconds, memory / 2 ** 20)
            if beside:
                command = [beside, '-q', '-i', os.path.join(folder, 'g.twolc'), '-o', os.path.join(folder, 'g.hfst')]
                theirs, held = spent(command, b'', SECONDS)
                line += '   hfst-twolc %7.2f s %7.1f MiB   ratio %.2f' % (theirs, held / 2 ** 20, seconds / theirs)
            print(line, flush=True)


if __name__ == '__main__':
    main()
