#!/usr/bin/env python3
"""Writes the tables of docs/PROOFS.md, between its two marker lines: of each crate the first sentence of its root (src/lib.rt, or
src/main.rt of a program), and what it hands on (`pub use`), in the order and under the headings of crates.txt. A call whose body does
nothing is a law. A call without an `ensures` is told below the tables.

usage: bench/proofs.py             writes the tables
       bench/proofs.py --check     changes nothing; says whether the page has them, and ends with 1 where it hasn't
"""
import os
import re
import sys

ROOT = os.path.dirname(os.path.dirname(os.path.abspath(__file__)))
PAGE = os.path.join(ROOT, 'docs', 'PROOFS.md')
BEGIN = '<!-- from here on bench/proofs.py writes -->'
END = '<!-- up to here bench/proofs.py writes -->'
# a line of a root that hands something on: the module, or another crate, and a name or names in braces
HANDED_ON = re.compile(r'^pub use ([\w:]+)::(?:\{([^}]*)\}|(\w+));', re.M)


def read(path):
    with open(path, encoding='utf-8') as text:
        return text.read()


def crates():
    """The headings of crates.txt, each with its crates, in their order."""
    groups = []
    for line in read(os.path.join(ROOT, 'crates.txt')).split('\n'):
        if line.startswith('## '):
            groups.append((line[3:], []))
        elif line and not line.startswith('#'):
            groups[-1][1].append(line.split(':')[0].split()[0])
    return groups


def first_sentence(root):
    """The first sentence of the comment at the head of a root, its links without brackets, and without references, which have a year."""
    lines = []
    for line in root.split('\n'):
        if not line.startswith('//!') or not line[3:].strip():
            break
        lines.append(line[3:].strip())
    sentence = re.split(r'(?<=\.)\s', ' '.join(lines), maxsplit=1)[0]
    sentence = re.sub(r'\s\([^()]*\b(?:19|20)\d\d\b[^()]*\)', '', sentence)
    return re.sub(r'\[(`[^`]*`)\]', r'\1', sentence).rstrip('.').replace('|', '\\|')


def handed_on(folder, root):
    """The modules, or crates, and the names of what a root hands on, by itself and by its public modules."""
    texts = [root] + [read(os.path.join(folder, module + '.rt')) for module in re.findall(r'^pub mod (\w+);', root, re.M)]
    for module, several, one in HANDED_ON.findall('\n'.join(texts)):
        for name in several.split(',') if several else [one]:
            if name.strip():
                yield module, name.strip()


def call(source, name):
    """Whether a call has an `ensures`, and whether its body does nothing but prove."""
    found = re.search(r'^pub (?:const |unsafe |extern "C" )*fn %s\b' % name, source, re.M)
    if not found:
        raise SystemExit('the file that hands %s on has no such call' % name)
    text = source[found.start():]
    body = re.search(r'^\{(\}|.*?^\})|\{$.*?^\}', text, re.M | re.S)
    done = re.sub(r'\s|prove!\([^;]*\);', '', body[0])
    return 'ensures' in text[:body.start()], done == '{}'


def row_of(crate):
    """The row of a crate, and its calls that have no `ensures`."""
    folder = os.path.join(ROOT, 'crates', crate, 'src')
    if not os.path.exists(os.path.join(folder, 'lib.rt')):
        return (crate, first_sentence(read(os.path.join(folder, 'main.rt'))), 'a program', ''), []
    root = read(os.path.join(folder, 'lib.rt'))
    calls, types, laws, bare = [], [], [], []
    for module, name in handed_on(folder, root):
        path = os.path.join(folder, *module.split('::')) + '.rt'
        if not name[0].islower():
            types.append(name)
        elif not os.path.exists(path):
            calls.append(name)
        else:
            has_ensures, is_law = call(read(path), name)
            (laws if is_law else calls).append(name)
            if not has_ensures:
                bare.append('`%s` (%s)' % (name, crate))
    listed = lambda names: ', '.join('`%s`' % name for name in sorted(set(names)))
    parts = '; '.join(listed(names) for names in (calls, types) if names)
    return (crate, first_sentence(root), parts, listed(laws)), bare


def tables():
    """The text between the two marker lines."""
    told, bare = [], []
    for heading, names in crates():
        told += ['', '### ' + heading, '', '| crate | what it is | hands on | laws |', '|---|---|---|---|']
        for name in names:
            row, without = row_of(name)
            told.append('| %s | %s | %s | %s |' % row)
            bare += without
    told += ['', 'Calls in these tables without an `ensures`: %s.' % (', '.join(bare) or 'none'), '']
    return '\n'.join(told)


def main(words):
    page = read(PAGE)
    before, _, rest = page.partition(BEGIN + '\n')
    _, _, behind = rest.partition(END + '\n')
    made = before + BEGIN + '\n' + tables() + END + '\n' + behind
    if words == ['--check']:
        print('docs/PROOFS.md %s' % ('is up to date' if made == page else "isn't up to date: run bench/proofs.py"))
        return 0 if made == page else 1
    if made != page:
        with open(PAGE, 'w', encoding='utf-8') as out:
            out.write(made)
        print('docs/PROOFS.md is written anew')
    return 0


if __name__ == '__main__':
    sys.exit(main(sys.argv[1:]))
