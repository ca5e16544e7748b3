#!/usr/bin/env python3
"""Copies the documents that crates/worked_rows/stdin names (lines `document FILE`) and examples/ to where the gate tries the documents' commands,
crates/worked_rows/data, and writes what that program must print of them. One of them, examples/TESTS.md, is first made from the files of tests of
the examples. Says what changed: where nothing did, the gate tries what the documents have.

usage: bench/documents.py
"""
import os
import shutil
import sys

ROOT = os.path.dirname(os.path.dirname(os.path.abspath(__file__)))
sys.dont_write_bytecode = True
sys.path.insert(0, os.path.join(ROOT, 'tools'))
import sources  # noqa: E402
import tests  # noqa: E402

TESTS = 'examples/TESTS.md'
# Tests of this project are wanted to fail, as docs/CHECKING.md shows.
FAILS = 'warnings'
HEAD = """# Tests of the examples

The words of the files `.expect` of these projects, as commands with the replies that the files want, so that the gate tries them: bench/documents.py
makes this page. Left out are words of which a file says only a part, and those with an apostrophe, which no text in quotes has.
"""
CRATE = os.path.join(ROOT, 'crates', 'worked_rows')
PROMPT = '    $ '
FIELD = 'document '
BEHIND = 'trials texts'


def read(path):
    with open(path, encoding='utf-8') as text:
        return text.read()


def write(path, text):
    """Writes a file where its text is another, and says so."""
    if not os.path.exists(path) or read(path) != text:
        with open(path, 'w', encoding='utf-8') as out:
            out.write(text)
        print('%s is written anew' % os.path.relpath(path, ROOT))


def copy_examples():
    """Copies the projects of examples/ without their scripts, and removes those that are there no more."""
    source, target = os.path.join(ROOT, 'examples'), os.path.join(CRATE, 'data', 'examples')
    # (embed has programs, and no project)
    projects = {name for name in os.listdir(source) if os.path.isdir(os.path.join(source, name))} - {'embed'}
    for name in set(os.listdir(target)) - projects:
        if os.path.isdir(os.path.join(target, name)):
            shutil.rmtree(os.path.join(target, name))
    for name in sorted(projects):
        os.makedirs(os.path.join(target, name), exist_ok=True)
        for file in os.listdir(os.path.join(source, name)):
            if file.endswith('.sh'):
                continue
            write(os.path.join(target, name, file), read(os.path.join(source, name, file)))


def symbols_of(project):
    """The symbols of a project."""
    found = {sources.unescaped(it) for it in project.alphabet}
    for _, tokens in project.expressions():
        for before, token in zip([None, *tokens], tokens):
            if token.kind == 'braced':
                found |= set(sources.unescaped(token.text[1:-1]))
            elif token.kind == 'quoted' or token.kind == 'run' and not (token.is_plain and (token.text in project.names or token.text == '0')):
                found |= {token.symbol} if before is None or before.text != '^' else set()
    for it in project.lexc:
        found |= {text for text, _ in it.declared if not sources.FLAG.fullmatch(text)}
        found |= {text for _, _, form in it.forms() for kind, text in form if kind != 'flag'}
    for it in project.twolc:
        bodies = [it.alphabet, *it.sets.values(), *it.definitions.values(), *(body for _, body in it.rules)]
        names = {*it.sets, *it.definitions}
        sides = [side for body in bodies for token in body if token.kind == 'atom' for side in sources.sides_of(token.text) if side]
        found |= {text for text, is_plain in sides if not (is_plain and (text in names or text in '0?'))}
    return found - {''}


def no_answer(word, symbols):
    """The reply to a word that has no answer."""
    at = 0
    while at < len(word):
        symbol = max((it for it in symbols if word.startswith(it, at)), key=len, default='')
        if not symbol:
            return '1 symbol %d %s' % (at + 1, word)
        at += len(symbol)
    return '1 0 ' + word


def tried(folder, file):
    """The lines of a file of tests as commands with their replies."""
    words, _ = tests.read(os.path.join(folder, file))
    symbols, looks = symbols_of(sources.Project(folder)), {}
    for it in words:
        if "'" in it.word or '\\' in it.word or it.others or it.barred and not it.wanted:
            continue
        reply = ['1 %d %s' % (len(it.wanted), it.word), *sorted(it.wanted, key=str.encode)] if it.wanted else [no_answer(it.word, symbols)]
        looks.setdefault(it.look, []).append((it.word, reply))
    for look, found in looks.items():
        direction, net = look.split(' ')
        yield PROMPT + "printf '%s' | ./morph %s %s %s" % (''.join(word + '\\n' for word, _ in found), direction, os.path.relpath(folder, ROOT), net)
        yield from ('    ' + line for _, reply in found for line in reply)


def write_tests():
    """The page of the files of tests."""
    lines, examples = [HEAD], os.path.join(ROOT, 'examples')
    for name in sorted(os.listdir(examples)):
        folder = os.path.join(examples, name)
        for file in sorted(os.listdir(folder)) if os.path.isdir(folder) and name != FAILS else ():
            if file.endswith('.expect'):
                lines += ['## %s/%s' % (name, file), '', *tried(folder, file), '']
    write(os.path.join(ROOT, TESTS), '\n'.join(lines))


def main():
    write_tests()
    copy_examples()
    told = []
    rows = read(os.path.join(CRATE, 'stdin')).split('\n')
    for document in [row[len(FIELD):] for row in rows if row.startswith(FIELD)]:
        write(os.path.join(CRATE, 'data', document), read(os.path.join(ROOT, document)))
        told.append(document)
        for line in read(os.path.join(CRATE, 'data', document)).split('\n'):
            if line.startswith(PROMPT):
                told += [line[len(PROMPT):], '    as written']
    wanted = read(os.path.join(CRATE, 'stdout'))
    write(os.path.join(CRATE, 'stdout'), '\n'.join(told) + '\n' + wanted[wanted.index(BEHIND):])


if __name__ == '__main__':
    main()
