#!/usr/bin/env python3
"""Small two-level grammars made by chance, and what they relate by the definition, on strings of pairs: every string of feasible pairs with a
side that is the word is listed, and kept where each rule holds at each of its places. Without pairs that put something in on the side that is
looked up, there are finitely many.

  grammar_rows.py [PROGRAM] [--grammars N] [--seed N]

Says how many look-ups were answered so, and the first that wasn't, if there is one."""
import itertools
import os
import random
import subprocess
import tempfile

import measure

SYMBOLS = 'abc'
PAIRS = ['a', 'b', 'c', 'a:b', 'a:c', 'b:c', 'a:0', 'c:0', '0:b', 'b:a']
ATOMS = ['a', 'b', 'c', 'a:', ':b', ':c', 'b:', '?', 'a:b', 'b:c']
ARROWS = ['=>', '<=', '<=>', '/<=']
WORDS = [''.join(word) for length in range(4) for word in itertools.product(SYMBOLS, repeat=length)]


def pair_of(text):
    up, _, low = text.partition(':')
    return (up, low) if ':' in text else (up, up)


def some_side(draw, edge_first):
    """A part of a context: a few atoms, some of them any number of times, and perhaps the edge of the word outside."""
    atoms = [draw.choice(ATOMS) + draw.choice(['', '', '*']) for _ in range(draw.randint(0, 2))]
    if draw.random() < 0.2:
        atoms = ['.#.'] + atoms if edge_first else atoms + ['.#.']
    return atoms


def some_grammar(draw):
    """The pairs of its alphabet, and rules, each with its centre, its arrow and its contexts."""
    pairs = draw.sample(PAIRS, draw.randint(3, 6))
    centres = [pair for pair in PAIRS if ':' in pair and not pair.startswith('0')]
    rules = [(draw.choice(centres), draw.choice(ARROWS), [(some_side(draw, True), some_side(draw, False)) for _ in range(draw.randint(1, 2))])
             for _ in range(draw.randint(1, 2))]
    return pairs, rules


def text_of(grammar):
    pairs, rules = grammar
    lines = ['Alphabet %s ;' % ' '.join(pairs), 'Rules']
    for number, (centre, arrow, contexts) in enumerate(rules):
        lines.append('"r%d" %s %s %s' % (number, centre, arrow, ' '.join('%s _ %s ;' % (' '.join(left), ' '.join(right)) for left, right in contexts)))
    return '\n'.join(lines) + '\n'


def feasible(grammar):
    pairs, rules = grammar
    found = {pair_of(pair) for pair in pairs} | {pair_of(centre) for centre, _, _ in rules}
    for _, _, contexts in rules:
        for atom in itertools.chain(*itertools.chain(*contexts)):
            atom = atom.rstrip('*')
            if atom not in ('?', '.#.') and atom[0] != ':' and atom[-1] != ':':
                found.add(pair_of(atom))
    return sorted(found)


def may_be(atom, pair):
    if atom == '?':
        return pair != '#'
    if atom == '.#.' or pair == '#':
        return atom == '.#.' and pair == '#'
    up, low = atom.split(':') if ':' in atom else (atom, atom)
    return (up == '' or up == pair[0]) and (low == '' or low == pair[1])


def matches(atoms, string):
    """Whether the atoms, one after another, are the whole string."""
    if not atoms:
        return not string
    if atoms[0].endswith('*'):
        atom = atoms[0][:-1]
        return matches(atoms[1:], string) or bool(string) and may_be(atom, string[0]) and matches(atoms, string[1:])
    return bool(string) and may_be(atoms[0], string[0]) and matches(atoms[1:], string[1:])


def holds(contexts, before, behind):
    before, behind = ['#'] + before, behind + ['#']
    return any(any(matches(left, before[at:]) for at in range(len(before) + 1)) and any(matches(right, behind[:at]) for at in range(len(behind) + 1))
               for left, right in contexts)


def keeps(rule, string):
    centre, arrow, contexts = pair_of(rule[0]), rule[1], rule[2]
    for at, pair in enumerate(string):
        there = holds(contexts, string[:at], string[at + 1:])
        if pair == centre and (arrow in ('=>', '<=>') and not there or arrow == '/<=' and there):
            return False
        if pair[0] == centre[0] and pair[1] != centre[1] and arrow in ('<=', '<=>') and there:
            return False
    return True


def strings_of(pairs, word, side):
    """The strings of pairs whose side is the word; none of the pairs has a zero there."""
    return (list(string) for string in itertools.product(*[[pair for pair in pairs if pair[side] == letter] for letter in word]))


def related(grammar, word, side):
    found = set()
    for string in strings_of(feasible(grammar), word, side):
        if all(keeps(rule, string) for rule in grammar[1]):
            found.add(''.join(pair[1 - side] for pair in string if pair[1 - side] != '0'))
    return sorted(found)


def wanted(grammar, side):
    """The replies to all words, or `None` where something may be put in on that side without end."""
    if any(pair[side] == '0' for pair in feasible(grammar)):
        return None
    symbols = {letter for pair in feasible(grammar) for letter in pair} | {letter for _, _, contexts in grammar[1]
               for atom in itertools.chain(*itertools.chain(*contexts)) for letter in atom if letter in SYMBOLS}
    lines = []
    for word in WORDS:
        strange = [at + 1 for at, letter in enumerate(word) if letter not in symbols]
        if strange:
            lines.append('1 symbol %d %s' % (strange[0], word))
        else:
            texts = related(grammar, word, side)
            lines += ['1 %d %s' % (len(texts), word)] + texts
    return '\n'.join(lines) + '\n'


def main():
    path, asked = measure.program_of_walk(__doc__, grammars=50)
    draw, looked = random.Random(asked.seed), 0
    with tempfile.TemporaryDirectory() as folder:
        with open(os.path.join(folder, 'project'), 'w') as manifest:
            manifest.write('twolc N g.twolc\n')
        for _ in range(asked.grammars):
            grammar = some_grammar(draw)
            with open(os.path.join(folder, 'g.twolc'), 'w') as out:
                out.write(text_of(grammar))
            for side, direction in enumerate(['down', 'up']):
                listed = wanted(grammar, side)
                if listed is None:
                    continue
                done = subprocess.run([path, direction, folder, 'N'], input='\n'.join(WORDS) + '\n', stdout=subprocess.PIPE, text=True, check=False)
                if done.stdout != listed:
                    raise SystemExit('%s\n%s: the program answers\n%s\nand it is\n%s' % (text_of(grammar), direction, done.stdout, listed))
                looked += len(WORDS)
    print('%d grammars: %d look-ups, all answered as the definition has it' % (asked.grammars, looked))


if __name__ == '__main__':
    main()
