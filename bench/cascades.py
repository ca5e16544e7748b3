#!/usr/bin/env python3
"""Times cascades of rules of replacement beside foma, on the same definitions in one run: processor seconds and peak memory of compiling,
with one look-up, and their ratio. What takes more than SECONDS is ended and shown as `inf`.

usage: bench/cascades.py [PROGRAM]
"""
import sys
import tempfile

from measure import has_foma, program, spent, write_project

SECONDS = 120


def symbols(count):
    return ['s%d' % k for k in range(count)]


def definitions(over, rules, lexicon=None):
    """A source whose network N is the cascade of these rules behind all words over the symbols, or behind a lexicon."""
    lines = ['define Start %s ;' % (lexicon or '[%s]*' % ' | '.join(over))]
    lines += ['define Rule%d %s ;' % (k, rule) for k, rule in enumerate(rules)]
    lines.append('define N %s ;' % ' .o. '.join(['Start'] + ['Rule%d' % k for k in range(len(rules))]))
    return '\n'.join(lines) + '\n'


def in_context(over, k):
    """Rule k of a cascade: a symbol, another one, and a context of a few symbols on either side."""
    at = lambda n: over[n % len(over)]
    return '%s -> %s || %s | %s _ %s | %s' % (at(k), at(k + 1), at(k + 5), at(k + 11), at(k + 7), at(k + 17))


def words(over, count):
    """A lexicon of so many words of six symbols each."""
    n = len(over)
    return ' | '.join('[%s]' % ' '.join(over[(k * 7 + k // n ** j * 13 + j * 5) % n] for j in range(6)) for k in range(count))


def cases():
    """Names and sources."""
    forty, many = symbols(40), symbols(400)
    yield 'twelve composed rules, 40 symbols', forty, definitions(forty, [in_context(forty, k) for k in range(12)])
    for over in (forty, many):
        contexts = ' , '.join('%s _ %s' % (over[3 * k + 2], over[3 * k + 3]) for k in range(9))
        yield 'one rule, nine contexts, %d symbols' % len(over), over, definitions(over, ['%s -> %s || %s' % (over[0], over[1], contexts)])
    groups = ' ,, '.join('%s -> %s || %s _ %s' % (many[k], many[k + 64], many[k + 128], many[k + 192]) for k in range(64))
    yield '64 mappings in 64 groups, 400 symbols', many, definitions(many, [groups])
    yield 'thirty rules behind 2,000 words', forty, definitions(forty, [in_context(forty, k) for k in range(30)], words(forty, 2000))


def main():
    ours = program(sys.argv[1:])
    beside = has_foma()
    for name, over, source in cases():
        with tempfile.TemporaryDirectory() as folder:
            write_project(folder, source)
            seconds, memory = spent([ours, 'up', folder, 'N'], (over[1] + '\n').encode(), SECONDS)
            line = '%-40s %7.2f s %7.1f MiB' % (name, seconds, memory / 2 ** 20)
            if beside:
                script = source + 'regex N ;\nup %s\n' % over[1]
                theirs, memory = spent(['foma', '-p'], script.encode(), SECONDS)
                line += '   foma %7.2f s %7.1f MiB   %.2f' % (theirs, memory / 2 ** 20, seconds / max(theirs, 0.005))
            print(line, flush=True)


if __name__ == '__main__':
    main()
