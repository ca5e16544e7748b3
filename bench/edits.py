#!/usr/bin/env python3
"""A random walk through edits: what `serve` answers beside what the same files answer from nothing.

  edits.py [PROGRAM] [--edits N] [--seed N]

Puts, splices and drops, with and without faults, are sent to `serve` one after another, each by itself or up to four in a batch, which is
committed, dropped or lost. After each change the reply must be the one that the definitions give: `refused` with the fault that `check` names in
the files that it makes, or that one of its edits has, and nothing is changed; or `ok`, the next number, and just the names that the change
touches, which are worked out here by their definition. Then each network is looked up in both directions, also before a batch ends, and the
replies must be those of `up` and `down` on the same files, at the version's number. Prints how many changes were accepted, refused and given up,
and the first difference, if there is one."""
import os
import random
import re
import subprocess
import tempfile

import measure

MANIFESTS = [
    ['xfst r.xfst', 'xfst s.xfst', 'lexc Lex l.lexc', 'twolc Two g.twolc'],
    ['lexc Lex l.lexc', 'xfst s.xfst', 'twolc Two g.twolc', 'xfst r.xfst', 'alphabet z'],
    ['twolc Two g.twolc', 'xfst r.xfst', 'lexc Lex l.lexc', 'xfst s.xfst', 'require A'],
    ['xfst r.xfst', 'alphabet z y', 'lexc Lex l.lexc', 'twolc Two g.twolc'],
    ['xfst r.xfst', 'xfst t.xfst', 'twolc A g.twolc'],
    ['lexc Lex l.lexc', 'require Q'],
    ['xfst r.xfst', 'xfts s.xfst'],
]
NAMES = ['A', 'B', 'C', 'D']
BODIES = ['a b', 'a | b', 'a:b c', 'c*', 'A b', 'B | a', 'C', 'a D', 'Lex', 'Lex .o. a -> b', 'Lex .o. Two', 'Two', '? b', '~ a & ? ?', 'a -> c', 'b:0 B', 'E', '{ab} | c']
FAULTY = ['define A', 'define A b', 'define A [ b ;', 'define A a^256 ;', 'define a b ;', 'A b ;']
ENTRIES = ['a Next ;', 'ab # ;', 'c:b Next ;', 'b # ;', '# ;', 'abc:c # ;']
FAULTY_ENTRIES = ['a Nowhere ;', 'a Next', 'a:b:c # ;']
ALPHABETS = ['Alphabet a b c a:b c:0 ;', 'Alphabet a b c z a:b a:c 0:b ;', 'Alphabet a:b b c:b ;', 'Alphabet a b ;']
SETS = ['S = a b ;', 'S = b c ;', 'T = a ;']
PAIR_NAMES = ['P = a | b: ;', 'P = [ :b ]* c ;', 'Q = P S ;', 'Q = ~ [ a b ] ;']
RULES = ['"r" a:b => _ c ;', '"r" a:b <=> c _ ; .#. _ .#. ;', '"s" c:0 <= a: _ ;', '"s" 0:b /<= S: _ [ c | P ] ;', '"t" a:c => P _ \\ b ;', '"t" a:b <= _ ;']
FAULTY_RULES = ['"r" a:b -> _ c ;', '"r" S:b => _ c ;', 'r a:b => _ c ;', '"r" a:b => _ c']
FILES = ['project', 'r.xfst', 's.xfst', 'l.lexc', 'g.twolc', 't.xfst']
WORDS = ['', 'a', 'b', 'c', 'ab', 'bc', 'cb', 'abc', 'az', 'zz', 'E']


def lines_of(content):
    return content.split('\n')[:-1] if content.endswith('\n') else content.split('\n') if content else []


def joined(lines):
    return ''.join(line + '\n' for line in lines)


def some_line(random, file):
    """A line for the file, as a rule one without fault."""
    if file == 'project':
        return random.choice(random.choice(MANIFESTS))
    if file == 'l.lexc':
        return random.choice(FAULTY_ENTRIES if random.random() < 0.1 else ENTRIES)
    if file == 'g.twolc':
        return random.choice(FAULTY_RULES if random.random() < 0.1 else RULES if random.random() < 0.8 else SETS + PAIR_NAMES)
    if random.random() < 0.1:
        return random.choice(FAULTY)
    return 'define %s %s ;' % (random.choice(NAMES), random.choice(BODIES))


def some_content(random, file):
    if file == 'project':
        lines = random.choice(MANIFESTS[:5] if random.random() < 0.8 else MANIFESTS)
    elif file == 'l.lexc':
        entries = [some_line(random, file) for _ in range(random.randint(1, 3))]
        lines = ['LEXICON Root'] + entries + ['LEXICON Next', random.choice(ENTRIES[1:2] + ENTRIES[3:])]
    elif file == 'g.twolc':
        lines = [random.choice(ALPHABETS)]
        lines += ['Sets'] + random.sample(SETS, random.randint(1, 2)) if random.random() < 0.6 else []
        lines += ['Definitions'] + random.sample(PAIR_NAMES, random.randint(1, 2)) if random.random() < 0.6 else []
        lines += ['Rules'] + [some_line(random, file) for _ in range(random.randint(1, 3))]
    else:
        names = random.sample(NAMES, random.randint(0, 2))
        lines = ['define %s %s ;' % (name, random.choice(BODIES)) for name in names]
        if random.random() < 0.15:
            lines.append(some_line(random, file))
    content = joined(lines)
    return content[:-1] if content and random.random() < 0.1 else content


def fault_of(files, edit):
    """The fault of an edit by itself, as FILE LINE WHY, or what the files are after it."""
    kind, file = edit[:2]
    after = dict(files)
    if kind == 'put':
        after[file] = joined(edit[2])
        return None, after
    if file not in files:
        return '%s 0 no-file' % file, files
    if kind == 'drop':
        del after[file]
        return None, after
    start, count, new = edit[2:]
    old = lines_of(files[file])
    if start == 0 or start > len(old) + 1 or start + count - 1 > len(old):
        return '%s %d bad-splice' % (file, start), files
    after[file] = joined(old[:start - 1] + new + old[start - 1 + count:])
    return None, after


def some_edit(random, files):
    kind = random.choice(['put', 'put', 'splice', 'splice', 'splice', 'drop'] if random.random() < 0.3 else ['put', 'splice'])
    file = random.choice(FILES if random.random() < 0.3 else ['r.xfst', 's.xfst', 'l.lexc', 'g.twolc'])
    if kind == 'put':
        return ('put', file, lines_of(some_content(random, file)))
    if kind == 'drop':
        return ('drop', file)
    many = len(lines_of(files.get(file, '')))
    start = random.randint(0, many + 2) if random.random() < 0.2 else random.randint(1, many + 1)
    count = random.randint(0, 2) if start <= many else random.randint(0, 1)
    return ('splice', file, start, count, [some_line(random, file) for _ in range(random.randint(0, 2))])


def some_change(random, files):
    """Edits of a batch, each of the files that those before it leave."""
    change = []
    for _ in range(random.randint(0, 4)):
        change.append(some_edit(random, files))
        files = fault_of(files, change[-1])[1]
    return change


def fault_of_change(files, change):
    """The first fault of edits, one after another, as FILE LINE WHY, or what the files are after them."""
    after = files
    for edit in change:
        fault, after = fault_of(after, edit)
        if fault is not None:
            return fault, files
    return None, after


def command_of(edit):
    if edit[0] == 'drop':
        return 'drop %s\n' % edit[1]
    if edit[0] == 'put':
        return 'put %s %d\n%s' % (edit[1], len(edit[2]), joined(edit[2]))
    return 'splice %s %d %d %d\n%s' % (edit[1], edit[2], edit[3], len(edit[4]), joined(edit[4]))


def grammar_of(content):
    """The tokens of a twolc file without fault, each with its section."""
    found, section = [], None
    for token in content.split():
        if token in ('Alphabet', 'Sets', 'Definitions', 'Rules'):
            section = token
        else:
            found.append((section, token))
    return found


def symbols_of(statements):
    """The symbols that stand in such a file: the sides of its atoms, but for the names of sets and definitions that stand above."""
    found, named, statement = set(), set(), []
    for section, token in statements:
        statement.append(token)
        if token != ';':
            continue
        declared = {statement[0]} if section in ('Sets', 'Definitions') else set()
        tokens = statement[2:] if declared else statement
        sides = {side for token in tokens if re.fullmatch(r'\w*:?\w*', token) for side in token.split(':')}
        found |= sides if section in ('Alphabet', 'Sets') else sides - named
        named |= declared
        statement = []
    return found - {'', '0', '_'}


def meaning_of(files):
    """The definitions of files without fault, each a name with its body, whose leaves are resolved, the names in it and whether it uses the
    alphabet; and the alphabet."""
    found, lexicons, grammars, alphabet = {}, {}, {}, set()
    for line in lines_of(files['project']):
        words = line.split()
        if words[0] == 'alphabet':
            alphabet |= set(words[1:])
        elif words[0] == 'lexc':
            lexicons[words[1]] = [line.split() for line in lines_of(files[words[2]])]
        elif words[0] == 'twolc':
            grammars[words[1]] = grammar_of(files[words[2]])
        elif words[0] == 'xfst':
            text = ' '.join(lines_of(files[words[1]]))
            for name, body in re.findall(r'define +(\w+) +([^;]*) ;', text):
                found[name] = re.findall(r'\{\w+\}|->|\.o\.|[A-Za-z]\w*|0|\S', body)
    names = set(found) | set(lexicons) | set(grammars)
    definitions = {}
    for name, tokens in found.items():
        body = [('name' if token in names else 'text', token) for token in tokens]
        for kind, token in body:
            if kind == 'text' and re.fullmatch(r'\w+', token) and token != '0':
                alphabet.add(token)
            if token.startswith('{'):
                alphabet |= set(token[1:-1])
        used = {token for kind, token in body if kind == 'name'}
        definitions[name] = (body, used, any(token in ('?', '~', '->') for token in tokens))
    for name, lines in lexicons.items():
        for words in lines:
            if words[0] not in ('LEXICON', '#'):
                alphabet |= set(words[0]) - {':', '0'}
        definitions[name] = (lines, set(), False)
    for name, statements in grammars.items():
        alphabet |= symbols_of(statements)
        definitions[name] = (statements, set(), False)
    return definitions, alphabet


def touched(old, new):
    """The names that a change touches, by their bytes."""
    (before, symbols), (after, others) = old, new
    found = {name for name, (body, _, uses) in after.items()
             if name not in before or before[name][0] != body or (uses and symbols != others)}
    while True:
        more = {name for name, (_, used, _) in after.items() if used & found} - found
        if not more:
            return sorted(found)
        found |= more


class Walk:
    def __init__(self, program, folder):
        self.program, self.folder, self.version = program, folder, 1

    def write(self, files):
        for name in os.listdir(self.folder):
            os.remove(os.path.join(self.folder, name))
        for name, content in files.items():
            with open(os.path.join(self.folder, name), 'w') as out:
                out.write(content)

    def run(self, words, text=''):
        done = subprocess.run([self.program, *words], input=text, stdout=subprocess.PIPE, text=True, check=False)
        return done.stdout

    def ask(self, serve, text, lines=1):
        serve.stdin.write(text)
        serve.stdin.flush()
        return ''.join(serve.stdout.readline() for _ in range(lines))

    def look_up(self, serve, names):
        """The first look-up whose replies differ, if there is one."""
        for name in [*names, 'Q']:
            for direction in 'up', 'down':
                fresh = self.run([direction, self.folder, name], joined(WORDS))
                wanted = re.sub(r'(?m)^1 ', '%d ' % self.version, fresh)
                order = ''.join('%s %s %s\n' % (direction, name, word) for word in WORDS)
                got = self.ask(serve, order, len(lines_of(wanted)))
                if got != wanted:
                    return '%s %s: serve answers\n%s\nand from nothing it is\n%s' % (direction, name, got, wanted)
        return None


def walk(program, edits, seed, folder):
    draw = random.Random(seed)
    files = {'project': joined(MANIFESTS[0]), 'r.xfst': 'define A a b ;\n', 's.xfst': 'define B A c ;\n', 'l.lexc': 'LEXICON Root\nab # ;\n',
             'g.twolc': 'Alphabet a b c a:b ;\nRules\n"r" a:b => _ c ;\n'}
    walk = Walk(program, folder)
    walk.write(files)
    accepted = refused = given_up = 0
    with subprocess.Popen([program, 'serve', folder], stdin=subprocess.PIPE, stdout=subprocess.PIPE, text=True) as serve:
        first = serve.stdout.readline()
        if first != 'ok 1 rebuilt A B Lex Two\n':
            return 'the first line is %r' % first
        meaning = meaning_of(files)
        for number in range(edits):
            in_batch = draw.random() < 0.3
            change = some_change(draw, files) if in_batch else [some_edit(draw, files)]
            ends = draw.choice(['commit'] * 6 + ['abandon', 'look']) if in_batch else 'commit'
            if in_batch:
                said = walk.ask(serve, 'begin\n' + ''.join(map(command_of, change)), 1 + len(change))
                if said != 'begun\n' + 'held\n' * len(change):
                    return 'change %d, %r: serve answers %r' % (number, change, said)
                found = walk.look_up(serve, draw.sample(sorted(meaning[0]), min(1, len(meaning[0]))))
                if found:
                    return 'in batch %d, %r: %s' % (number, change, found)
            fault, after = fault_of_change(files, change)
            if fault is None and ends == 'commit':
                walk.write(after)
                told = walk.run(['check', folder])
                if told.startswith('refused '):
                    fault = told[len('refused '):-1]
            if ends == 'abandon':
                order, wanted = 'abandon\ncommit\n', 'dropped\nnone\n'
                given_up += 1
            elif ends == 'look':
                order, wanted = 'look\n' + ''.join(map(command_of, change)) + 'begin\ncommit\n', 'bad\n' + 'lost\n' * len(change) + 'open\nlost\n'
                given_up += 1
            else:
                order = 'commit\n' if in_batch else command_of(change[0])
                if fault is not None:
                    wanted = 'refused %s\n' % fault
                    refused += 1
                else:
                    new = meaning_of(after)
                    names = touched(meaning, new)
                    files, meaning, accepted = after, new, accepted + 1
                    walk.version += 1
                    wanted = ' '.join(['ok %d rebuilt' % walk.version, *names]) + '\n'
            got = walk.ask(serve, order, len(lines_of(wanted)))
            if got != wanted:
                return 'change %d, %r, %s: serve answers %r, and it is %r; the files are %r' % (number, change, ends, got, wanted, after)
            walk.write(files)
            found = walk.look_up(serve, meaning[0])
            if found:
                return 'after change %d, %r: %s' % (number, change, found)
        serve.stdin.write('end\n')
        serve.stdin.close()
    print('%d changes: %d accepted, %d refused, %d given up, all answered as from nothing' % (edits, accepted, refused, given_up))
    return None


def main():
    program, asked = measure.program_of_walk(__doc__, edits=2000)
    with tempfile.TemporaryDirectory() as folder:
        found = walk(program, asked.edits, asked.seed, folder)
    if found:
        raise SystemExit(found)


if __name__ == '__main__':
    main()
