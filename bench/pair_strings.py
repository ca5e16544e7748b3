#!/usr/bin/env python3
"""Strings of pairs in small two-level grammars made by chance, and which rule each breaks first by the definition, on strings: every split of a string in
what is before, a pair or nothing, and what is behind is tried. The replies of `pairs` are compared. Then, where HFST is installed, strings of further
grammars beside hfst-pair-test, of which only is asked what both read alike: feasible pairs, no `?` in a context, no two rules about one pair, and
nothing that is put in where a context has the edge. At last the time of lines of several lengths in a grammar of 512 rules.

  pair_strings.py [PROGRAM] [--grammars N] [--strings N] [--beside N] [--seed N]

The strings are of each grammar, and so many, in all, stand beside hfst-pair-test. Says how many were answered so, and the first that wasn't, if there is one."""
import functools
import itertools
import os
import random
import re
import shutil
import subprocess
import tempfile

import grammar_rows
import grammars
import measure

ARROWS = grammar_rows.ARROWS
# what may be written for a symbol; and what is none, or no string of pairs
RUN = r'(?:%[^\t\n]|[^][()|/\\&~$*+^:;_.<>=!"%? \t\n-])+'
ATOM = '%s(?::%s)?' % (RUN, RUN)
LINE = re.compile(r'[ \t]*(?:%s(?:[ \t]+%s)*)?[ \t]*' % (ATOM, ATOM))
FLAG = re.compile(r'@(?:[PNU]\.[^.@ \t]+\.[^.@ \t]+|C\.[^.@ \t]+|[RD]\.[^.@ \t]+(?:\.[^.@ \t]+)?)@')
STRANGE = ['0', '0:0', 'a:', ':b', '?', '?:a', 'a:b:c', '[a]', '"a"', 'a!', '.#.', 'a;', '_', 'a%', '@P%.F%.V@', 'a:@C%.F@', 'a.b', 'a::b', ':', 'a-b', 'a^2']
ELSE = ['%a', 'a:%b', '%0', 'a:%0', 'ab', 'x', 'x:y', '@P%.F@', 'c:a', '0:c', 'b:0', "a'", '%%', '% ', 'ä', '#']
# how many strings are lines of the kinds that may not be used, or that are no strings
ODD, NO_STRING = 0.1, 0.06
LONG = 4_096


def some_grammar(draw, for_hfst=False):
    """A grammar, as grammar_rows has them, in which pairs may put something in by a rule."""
    while True:
        pairs = draw.sample(grammar_rows.PAIRS, draw.randint(3, 6))
        centres = [pair for pair in grammar_rows.PAIRS + ['0:c'] if ':' in pair]
        drawn = draw.sample(centres, draw.randint(1, 3)) if for_hfst else [draw.choice(centres) for _ in range(draw.randint(1, 4))]
        rules = [(centre, draw.choice(ARROWS), [(grammar_rows.some_side(draw, True), grammar_rows.some_side(draw, False)) for _ in range(draw.randint(1, 2))])
                 for centre in drawn]
        atoms = [atom.rstrip('*') for _, _, contexts in rules for atom in itertools.chain(*itertools.chain(*contexts))]
        puts_in = any(pair[0] == '0' for pair in grammar_rows.feasible((pairs, rules)))
        if not for_hfst or '?' not in atoms and not ('.#.' in atoms and puts_in):
            return pairs, rules


@functools.lru_cache(maxsize=1 << 16)
def holds(contexts, before, behind):
    """Whether one of the contexts holds between these strings."""
    return grammar_rows.holds(contexts, list(before), list(behind))


def is_bad(rule, before, pair, behind):
    """Whether a split of a string is one that the rule bars; the pair is `None` where nothing stands between the two parts."""
    centre, arrow = grammar_rows.pair_of(rule[0]), rule[1]
    there = holds(rule[2], before, behind)
    wants = arrow in ('<=', '<=>')
    if pair is None:
        return centre[0] == '0' and wants and there
    if pair == centre:
        return arrow in ('=>', '<=>') and not there or arrow == '/<=' and there
    return pair[0] == centre[0] and wants and there


def first_broken(rules, string):
    """The first rule that has a bad split, and one more than the fewest pairs before such a split, both counted from 1; `None` where there is none."""
    for number, rule in enumerate(rules, 1):
        for at in range(len(string) + 1):
            if is_bad(rule, string[:at], None, string[at:]) or at < len(string) and is_bad(rule, string[:at], string[at], string[at + 1:]):
                return number, at + 1
    return None


def frozen(rules):
    return [(centre, arrow, tuple((tuple(left), tuple(right)) for left, right in contexts)) for centre, arrow, contexts in rules]


def side_of(text):
    """A side as grammar_rows has it: the symbol, and `0` for nothing; `%0` is the digit."""
    symbol = re.sub('%(.)', r'\1', text)
    return '%0' if symbol == '0' and text != '0' else symbol


def pairs_in(line):
    """The pairs of a line, or `None` where it is no string of pairs."""
    if not LINE.fullmatch(line):
        return None
    found = []
    for atom in re.finditer(ATOM, line):
        up, low = re.fullmatch('(%s)(?::(%s))?' % (RUN, RUN), atom[0]).groups()
        pair = (side_of(up), side_of(low if low is not None else up))
        if pair == ('0', '0') or any(FLAG.fullmatch(side) for side in pair):
            return None
        found.append(pair)
    return tuple(found)


def reply(grammar, line):
    """The reply to a line by the definition."""
    if len(line.encode()) > LONG:
        return '1 long'
    string = pairs_in(line)
    if string is None:
        return '1 line'
    may_be = grammar_rows.feasible(grammar)
    strange = [place for place, pair in enumerate(string, 1) if pair not in may_be]
    if strange:
        return '1 pair %d' % strange[0]
    broken = first_broken(frozen(grammar[1]), string)
    return '1 fail %d %d r%d' % (*broken, broken[0] - 1) if broken else '1 pass'


def written(pair):
    return pair[0] if pair[0] == pair[1] else '%s:%s' % pair


def some_line(draw, may_be):
    """A string of feasible pairs, or one in which something else stands."""
    atoms = [written(draw.choice(may_be)) for _ in range(draw.choice((0, 1, 2, 3, 3, 4, 4, 5, 6, 7)))]
    chance = draw.random()
    if chance < ODD + NO_STRING:
        atoms.insert(draw.randint(0, len(atoms)), draw.choice(ELSE if chance < ODD else STRANGE))
    return draw.choice(['', '', ' ', '\t']) + draw.choice([' ', ' ', '  ', '\t']).join(atoms) + draw.choice(['', '', ' '])


def answers(path, folder, lines):
    done = subprocess.run([path, 'pairs', folder, 'N'], input=''.join(line + '\n' for line in lines), stdout=subprocess.PIPE, text=True, check=False)
    return done.stdout.split('\n')[:-1]


def write(folder, grammar_text):
    with open(os.path.join(folder, 'project'), 'w') as manifest:
        manifest.write('twolc N g.twolc\n')
    with open(os.path.join(folder, 'g.twolc'), 'w') as out:
        out.write(grammar_text)


def compared(path, folder, grammar, lines, wanted):
    """Ends where the program answers a line otherwise."""
    said = answers(path, folder, lines)
    for line, want, say in itertools.zip_longest(lines, wanted, said):
        if want != say:
            raise SystemExit('%s\n%r: the program answers %r, and it is %r' % (grammar_rows.text_of(grammar), line, say, want))


def by_definition(path, folder, asked):
    """Compares the replies of `pairs` with those of the definition."""
    draw, kinds = random.Random(asked.seed), {}
    for _ in range(asked.grammars):
        grammar = some_grammar(draw)
        may_be = grammar_rows.feasible(grammar)
        lines = [some_line(draw, may_be) for _ in range(asked.strings)] + ['a ' * (LONG // 2) + ' ']
        wanted = [reply(grammar, line) for line in lines]
        write(folder, grammar_rows.text_of(grammar))
        compared(path, folder, grammar, lines, wanted)
        for want in wanted:
            kinds[want.split()[1]] = kinds.get(want.split()[1], 0) + 1
    print('%d grammars: %d strings, all answered as the definition has it (%s)'
          % (asked.grammars, sum(kinds.values()), ', '.join('%d %s' % (count, kind) for kind, count in sorted(kinds.items()))))


def beside_hfst(path, folder, asked):
    """Compares which strings pass with hfst-pair-test; and whether it names the rule, too, that is told here."""
    draw, count, rejected, apart, unnamed = random.Random(asked.seed + 1), 0, 0, 0, 0
    while count < asked.beside:
        grammar = some_grammar(draw, for_hfst=True)
        may_be = grammar_rows.feasible(grammar)
        lines = sorted({' '.join(written(draw.choice(may_be)) for _ in range(draw.randint(1, 7))) for _ in range(asked.strings)})
        write(folder, grammar_rows.text_of(grammar))
        strings, network = os.path.join(folder, 'strings'), os.path.join(folder, 'g.hfst')
        with open(strings, 'w') as out:
            out.writelines(line + '\n' for line in lines)
        if subprocess.run(['hfst-twolc', '-q', '-D', '-i', os.path.join(folder, 'g.twolc'), '-o', network], stderr=subprocess.DEVNULL).returncode:
            continue
        told = subprocess.run(['hfst-pair-test', '-i', network, '-I', strings], stdout=subprocess.PIPE, text=True).stdout
        names, theirs = set(), {}
        for line in told.split('\n'):
            if line.startswith('Rule "'):
                names.add(re.match('Rule "([^" ]*)', line)[1])
            elif line.startswith('FAIL: '):
                theirs[line[len('FAIL: '):-len(' REJECTED')].strip()] = names
                names = set()
        for line, say in zip(lines, answers(path, folder, lines)):
            count += 1
            rejected += line in theirs
            if (say == '1 pass') != (line not in theirs):
                apart += 1
                print('%s%s: %s here, %s there' % (grammar_rows.text_of(grammar), line, say, 'rejected' if line in theirs else 'passed'))
            elif line in theirs and say.split(' ')[4] not in theirs[line]:
                unnamed += 1
    print('%d strings beside hfst-pair-test, of which it rejects %d: %d differ; of %d it names other rules' % (count, rejected, apart, unnamed))


def long_lines(path, folder):
    """Prints what lines take in a grammar of 512 rules."""
    source, names = grammars.grammar(40, 60, 512)
    write(folder, source)
    empty, _ = measure.spent([path, 'pairs', folder, 'N'], b'', 600)
    for length in (1_000, 2_000, 4_000):
        draw = random.Random(length)
        line = ''
        while len(line) < length - 4:
            line += draw.choice(names) + ' '
        lines, count = (line.strip() + '\n').encode(), 100
        seconds, memory = measure.spent([path, 'pairs', folder, 'N'], lines * count, 600)
        print('512 rules, a line of %4d bytes: %8.2f ms, %5.1f MiB' % (length, (seconds - empty) / count * 1e3, memory / 2 ** 20), flush=True)


def main():
    path, asked = measure.program_of_walk(__doc__, grammars=50, strings=200, beside=10_000)
    with tempfile.TemporaryDirectory() as folder:
        by_definition(path, folder, asked)
        if shutil.which('hfst-twolc') and shutil.which('hfst-pair-test'):
            beside_hfst(path, folder, asked)
        else:
            print('hfst-twolc and hfst-pair-test are not installed: nothing to compare with')
        long_lines(path, folder)


if __name__ == '__main__':
    main()
