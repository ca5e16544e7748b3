#!/usr/bin/env python3
"""Times rule sets of replacement whose size is that of many symbols, places or both, by the program worked_rows, each with one look-up.
Prints the seconds and the peak memory of each. What takes more than SECONDS is ended and shown as `inf`.

usage: bench/replacement.py
"""
import os
import subprocess
import tempfile

from measure import ROOT, timed

CRATE = os.path.join(ROOT, 'crates', 'worked_rows')
PROGRAM = os.path.join(CRATE, 'out', 'worked_rows')
SECONDS = 300


def symbols(count):
    return ['s%d' % k for k in range(count)]


def rows():
    """Names, and rows: symbols, rules and a word."""
    forty, many = symbols(40), symbols(400)
    yield 'twelve groups, contexts of one symbol, 40 symbols', forty, ' ,, '.join(
        '%s -> %s || %s _ %s' % (forty[k], forty[k + 1], forty[k + 13], forty[k + 26]) for k in range(12))
    yield 'twelve groups, contexts of many symbols, 40 symbols', forty, ' ,, '.join(
        '%s -> %s || %s _ %s' % (forty[k], forty[k + 1], ' | '.join(forty[k:k + 20]), ' | '.join(forty[k + 10:k + 30])) for k in range(12))
    yield 'one group, nine contexts, 400 symbols', many, '%s -> %s || %s' % (
        many[0], many[1], ' , '.join('%s _ %s' % (many[3 * k + 2], many[3 * k + 3]) for k in range(9)))
    yield '64 mappings in one group, 400 symbols', many, ' , '.join('%s -> %s' % (many[k], many[k + 100]) for k in range(64)) + ' || %s _' % many[399]
    yield '64 mappings in 64 groups, 400 symbols', many, ' ,, '.join(
        '%s -> %s || %s _ %s' % (many[k], many[k + 64], many[k + 128], many[k + 192]) for k in range(64))


def main():
    # a run builds the program again where a source is newer
    subprocess.run(['rt', 'run'], cwd=CRATE, stdin=subprocess.DEVNULL, stdout=subprocess.DEVNULL, check=True)
    for name, over, rules in rows():
        # worked_rows reads the rows of its trials in the folder that it runs in
        with tempfile.TemporaryDirectory() as folder, tempfile.TemporaryFile('w+') as row:
            os.mkdir(os.path.join(folder, 'trials'))
            with open(os.path.join(folder, 'trials', 'networks'), 'w') as rows_of:
                rows_of.write('## replace\n%s ; %s ; down %s\n' % (' '.join(over), rules, ' '.join(over[:3])))
            row.write('trials networks\n')
            row.seek(0)
            seconds, memory = timed([PROGRAM], row, most=SECONDS, cwd=folder)
        print('%-55s %7.2f s  %7.1f MiB' % (name, seconds, memory / 2 ** 20))


if __name__ == '__main__':
    main()
