#!/usr/bin/env python3
"""Writes thirty rows of worked_rows in which an editor is served, behind their heading in its file stdin: projects, edits and look-ups made by
chance, whose replies are worked out here by the definitions. A definition is a tree over letters and names; a word is in it or not by
trying each way to cut the word; an edit has its own first fault, or that of the files that it makes, or makes the next version, and touches the
names whose definition, resolved to names and letters, is new, or uses the alphabet where that changed, or refers to a touched name.

usage: bench/edit_rows.py
"""
import os
import random

from measure import ROOT

PATH = os.path.join(ROOT, 'crates', 'worked_rows', 'stdin')
HEADING = '# Edits by chance, whose replies bench/edit_rows.py works out by the definitions'
SEED, COUNT, MOST_SHOWN = 1995, 30, 300
# which names a file defines; a name refers to those before it, so that none comes back to itself
FILES = {'r.xfst': ['A', 'B'], 's.xfst': ['C', 'D']}
ORDER = 'ABCD'
LETTERS = 'abc'


def some_tree(dice, name, depth=0):
    kind = dice.choice(['text', 'text', 'name', 'or', 'side', 'not'] if depth < 2 else ['text', 'name'])
    before = ORDER[:ORDER.index(name)]
    if kind == 'name' and before:
        return ('name', dice.choice(before))
    if kind in ('or', 'side'):
        return (kind, some_tree(dice, name, depth + 1), some_tree(dice, name, depth + 1))
    if kind == 'not':
        return (kind, some_tree(dice, name, depth + 1))
    return ('text', ''.join(dice.choices(LETTERS, k=dice.randint(1, 2))))


def written(tree):
    kind, *parts = tree
    if kind in ('text', 'name'):
        return '{%s}' % parts[0] if kind == 'text' else parts[0]
    if kind == 'not':
        return '~[%s]' % written(parts[0])
    return '[%s %s %s]' % (written(parts[0]), '|' if kind == 'or' else '', written(parts[1]))


def leaves(tree):
    return [tree] if tree[0] in ('text', 'name') else [leaf for part in tree[1:] for leaf in leaves(part)]


def has_not(tree):
    return tree[0] == 'not' or (tree[0] not in ('text', 'name') and any(has_not(part) for part in tree[1:]))


def has(trees, tree, word):
    kind, *parts = tree
    if kind == 'text':
        return word == parts[0]
    if kind == 'name':
        return has(trees, trees[parts[0]], word) if parts[0] in trees else word == parts[0]
    if kind == 'or':
        return any(has(trees, part, word) for part in parts)
    if kind == 'not':
        return not has(trees, parts[0], word)
    return any(has(trees, parts[0], word[:at]) and has(trees, parts[1], word[at:]) for at in range(len(word) + 1))


class Sources:
    """The lines of the manifest, and those of each file: a name with its tree."""

    def __init__(self, manifest, files):
        self.manifest, self.files = manifest, files

    def fault(self):
        for number, words in enumerate(self.manifest, 1):
            if words[0] == 'xfst' and words[1] not in self.files:
                return 'project %d no-file' % number
        for number, words in enumerate(self.manifest, 1):
            if words[0] == 'require' and any(name not in self.trees() for name in words[1:]):
                return 'project %d unknown-name' % number
        return None

    def trees(self):
        return {name: tree for words in self.manifest if words[0] == 'xfst' for name, tree in self.files[words[1]]}

    def alphabet(self):
        trees = self.trees()
        found = {letter for words in self.manifest if words[0] == 'alphabet' for letter in words[1:]}
        for tree in trees.values():
            for kind, text in leaves(tree):
                found |= set(text) if kind == 'text' else set() if text in trees else {text}
        return found

    def meant(self):
        """Each name with its tree, whose leaves are told apart as names and letters."""
        trees = self.trees()

        def resolved(tree):
            if tree[0] == 'name':
                return (*tree, tree[1] in trees)
            return tree if tree[0] == 'text' else (tree[0], *map(resolved, tree[1:]))
        return {name: resolved(tree) for name, tree in trees.items()}


def touched(old, new):
    before, after, trees = old.meant(), new.meant(), new.trees()
    changed = old.alphabet() != new.alphabet()
    found = {name for name in after if before.get(name) != after[name] or (changed and has_not(trees[name]))}
    for name in ORDER:
        if name in trees and any(kind == 'name' and text in found for kind, text in leaves(trees[name])):
            found.add(name)
    return sorted(found)


def line(name, tree):
    return 'define %s %s ;' % (name, written(tree))


def some_lines(dice, file):
    names = [name for name in FILES[file] if dice.random() < 0.8]
    return [(name, some_tree(dice, name)) for name in names]


def some_edit(dice, sources):
    """An edit's command with its lines, the fault that it has by itself, and the sources that it makes."""
    file = dice.choice(list(FILES))
    kind = dice.choice(['put', 'splice', 'splice', 'splice', 'drop'])
    files = dict(sources.files)
    if kind == 'drop':
        file = dice.choice([file, 't.xfst'])
        fault = None if file in files else '%s 0 no-file' % file
        files.pop(file, None)
        return 'drop %s\n' % file, fault, Sources(sources.manifest, files)
    lines = some_lines(dice, file)
    if kind == 'put':
        files[file] = lines
        return 'put %s %d\n' % (file, len(lines)) + ''.join(line(*each) + '\n' for each in lines), None, Sources(sources.manifest, files)
    if file not in files:
        return 'splice %s 1 0 0\n' % file, '%s 0 no-file' % file, sources
    old = files[file]
    start, count = dice.randint(0, len(old) + 2), dice.randint(0, 1)
    kept = [name for at, (name, _) in enumerate(old) if not start - 1 <= at < start - 1 + count]
    lines = [each for each in lines if each[0] not in kept]
    command = 'splice %s %d %d %d\n' % (file, start, count, len(lines)) + ''.join(line(*each) + '\n' for each in lines)
    if start == 0 or start > len(old) + 1 or start + count - 1 > len(old):
        return command, '%s %d bad-splice' % (file, start), sources
    files[file] = old[:start - 1] + lines + old[start - 1 + count:]
    return command, None, Sources(sources.manifest, files)


def looked_up(dice, sources, version):
    name, word = dice.choice(ORDER), ''.join(dice.choices(LETTERS + 'z', weights=[4, 4, 4, 1], k=dice.randint(0, 3)))
    command = '%s %s %s\n' % (dice.choice(['up', 'down']), name, word)
    trees, alphabet = sources.trees(), sources.alphabet()
    if name not in trees:
        return command, '%d net %s\n' % (version, name)
    for at, letter in enumerate(word, 1):
        if letter not in alphabet:
            return command, '%d symbol %d %s\n' % (version, at, word)
    if has(trees, trees[name], word):
        return command, '%d 1 %s\n%s\n' % (version, word, word)
    return command, '%d 0 %s\n' % (version, word)


def some_row(dice, number):
    manifest = [['xfst', 'r.xfst'], ['xfst', 's.xfst']]
    if dice.random() < 0.3:
        manifest.append(['require', 'A'])
    if dice.random() < 0.3:
        manifest.append(['alphabet', 'z'])
    dice.shuffle(manifest)
    files = {file: some_lines(dice, file) for file in FILES}
    for file, name in (('r.xfst', 'A'),):
        if name not in [each for each, _ in files[file]]:
            files[file].insert(0, (name, some_tree(dice, name)))
    sources = Sources(manifest, files)
    texts = [('project', ''.join(' '.join(words) + '\n' for words in manifest))]
    texts += [(file, ''.join(line(*each) + '\n' for each in files[file])) for file in FILES]
    version, commands, replies = 1, '', ' '.join(['ok 1 rebuilt', *sorted(sources.trees())]) + '\n'
    for _ in range(4):
        command, fault, new = some_edit(dice, sources)
        fault = fault or new.fault()
        commands += command
        if fault:
            replies += 'refused %s\n' % fault
        else:
            version += 1
            replies += ' '.join(['ok %d rebuilt' % version, *touched(sources, new)]) + '\n'
            sources = new
        for _ in range(2):
            command, reply = looked_up(dice, sources, version)
            commands, replies = commands + command, replies + reply
    if len(replies) > MOST_SHOWN:
        return some_row(dice, number)
    shown = [('row', 'edits_by_chance_%d' % number)] + [('file', '%s %s' % each) for each in texts] + [('words', 'serve d'), ('input', commands), ('run', '0 ' + replies)]
    return ''.join('%s %s\n' % (field, value.replace('\n', '\\n')) for field, value in shown)


def main():
    with open(PATH, encoding='utf-8') as rows:
        text = rows.read()
    text, _, rest = text.partition('\n' + HEADING)
    _, heading, later = rest.partition('\n# ')
    dice = random.Random(SEED)
    rows = '\n'.join(some_row(dice, number) for number in range(1, COUNT + 1))
    with open(PATH, 'w', encoding='utf-8') as out:
        out.write('%s\n%s\n\n%s%s' % (text, HEADING, rows, heading + later))


if __name__ == '__main__':
    main()
