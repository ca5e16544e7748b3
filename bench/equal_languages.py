#!/usr/bin/env python3
"""Pairs of small expressions made by chance, compared by `equal` and `within`, and by the definition, on words: which of the words of a and b, up to seven
letters, are in each is listed, and a word that the program shows must be in one alone, with no shorter one that is. A third of the pairs is an
expression and another way to write it. Then the time and memory of two pairs of automata of 20,000 states, or so many, that differ in their longest words alone.

  equal_languages.py [PROGRAM] [--pairs N] [--states N] [--seed N]

Says how many pairs were answered so, and the first that wasn't, if there is one."""
import functools
import itertools
import os
import random
import subprocess
import tempfile

import measure

LETTERS = 'ab'
MOST = 7
WORDS = [''.join(word) for length in range(MOST + 1) for word in itertools.product(LETTERS, repeat=length)]
# forms with so many operands, as they are written
FORMS = {'{0} {1}': 2, '{0} | {1}': 2, '{0} & {1}': 2, '{0} - {1}': 2, '{0}*': 1, '{0}+': 1, '({0})': 1, '{0}^2': 1, '~{0}': 1, '${0}': 1, '\\{0}': 1,
         '{0} / {1}': 2, '{0}.r': 1, '{0} => {1} _ {2}': 3, '{0} => .#. {1} _ , _ {2} .#.': 3}
LEAVES = {'a': {'a'}, 'b': {'b'}, '?': set(LETTERS), '[]': {''}, '{ab}': {'ab'}, '[a - a]': set()}
# other ways to write an expression
SAME = ['~[~{0}]', '{0}.r.r', '[{0} | {0}]', '[{0} & ?*]', '[{0} - [a - a]]', '[[] {0}]', '~[~{0} | ~{0}]', '[?* - ~{0}]', '[{0} | [{0} & a*]]', '{0}^1']


def some_expression(draw, depth):
    """An expression: the text of a leaf, or a form with its operands."""
    if depth == 0 or draw.random() < 0.15:
        return draw.choice(['a', 'b', 'a', 'b', '?', '[]', '{ab}', '[a - a]'])
    form = draw.choice(list(FORMS))
    return (form, *(some_expression(draw, depth - 1) for _ in range(FORMS[form])))


def text_of(it):
    return it if isinstance(it, str) else '[%s]' % it[0].format(*map(text_of, it[1:]))


def without(word, put_in):
    """The words that are left of a word when words that pass the test are taken out of it, any number of them and at any places."""
    if not word:
        return {''}
    found = {word[0] + rest for rest in without(word[1:], put_in)}
    for end in range(1, len(word) + 1):
        if put_in(word[:end]):
            found |= without(word[end:], put_in)
    return found


def stands(before, behind, it):
    """Whether one of the contexts of a restriction holds between these words."""
    left, right = (lambda word: has(it[2], word)), (lambda word: has(it[3], word))
    if it[0] == '{0} => {1} _ {2}':
        return any(left(before[at:]) for at in range(len(before) + 1)) and any(right(behind[:at]) for at in range(len(behind) + 1))
    return left(before) or right(behind)


@functools.lru_cache(maxsize=1 << 20)
def has(it, word):
    """Whether the expression has the word, by what its form says."""
    if isinstance(it, str):
        return word in LEAVES[it]
    form, parts = it[0], it[1:]
    own = [lambda other, part=part: has(part, other) for part in parts]
    cuts = [(word[:at], word[at:]) for at in range(len(word) + 1)]
    if form == '{0} {1}':
        return any(own[0](x) and own[1](y) for x, y in cuts)
    if form in ('{0} | {1}', '{0} & {1}', '{0} - {1}'):
        first, second = own[0](word), own[1](word)
        return first or second if '|' in form else first and second if '&' in form else first and not second
    if form in ('{0}*', '{0}+'):
        return not word and (form == '{0}*' or own[0](word)) or any(x and own[0](x) and (not y or has(it, y)) for x, y in cuts)
    if form == '({0})':
        return not word or own[0](word)
    if form == '{0}^2':
        return any(own[0](x) and own[0](y) for x, y in cuts)
    if form == '~{0}':
        return not own[0](word)
    if form == '\\{0}':
        return len(word) == 1 and not own[0](word)
    if form == '{0}.r':
        return own[0](word[::-1])
    if form == '{0} / {1}':
        return any(own[0](rest) for rest in without(word, own[1]))
    parts_of = [(x, y[:at], y[at:]) for x, y in cuts for at in range(len(y) + 1)]
    if form == '${0}':
        return any(own[0](y) for _, y, _ in parts_of)
    return all(stands(x, z, it) for x, y, z in parts_of if own[0](y))


def asked_of(path, folder, command, first, second):
    done = subprocess.run([path, command, folder, first, second], stdin=subprocess.DEVNULL, stdout=subprocess.PIPE, text=True, check=False)
    return done.stdout if done.returncode == 0 else 'status %d: %s' % (done.returncode, done.stdout)


def is_right(said, words, sides):
    """Whether the answer is that of the definition: the words and, of each, the numbers of the sides that may be shown of it. The answer shows none
    where there is none, and else a word with one of its sides, than which no word is shorter."""
    if said in ('1 same\n', '1 within\n'):
        return not words
    number, kind, *rest = said[:-1].split(' ')
    if number != '1' or kind != ('differ' if sides else 'outside') or not said.endswith('\n') or len(rest) != 2 + sides:
        return False
    side, length, word = (rest if sides else ['1', *rest])
    if length != str(len(word)) or any(len(it) < len(word) for it in words):
        return False
    return word in words and words[word] == side


def compare(path, folder, first, second, texts):
    """Compares the answers about two expressions, and ends where one isn't as the definition has it. Says whether they are the same as far as words
    are listed."""
    measure.write_project(folder, 'define A %s ;\ndefine B %s ;\n' % texts, LETTERS)
    in_one = {word: '1' if has(first, word) else '2' for word in WORDS if has(first, word) != has(second, word)}
    only = [{word: '1' for word, side in in_one.items() if side == number} for number in '12']
    for command, names, words in ('equal', 'AB', in_one), ('within', 'AB', only[0]), ('within', 'BA', only[1]):
        said = asked_of(path, folder, command, *names)
        longer = said.split(' ')[1] in ('differ', 'outside') and len(said.split(' ')[-1]) - 1 > MOST
        if longer:
            # a word beyond the list is right where it is in one alone, and no word of the list is
            word = said[:-1].split(' ')[-1]
            words = {**words, word: '1' if has(first if names == 'AB' else second, word) else '2'} if has(first, word) != has(second, word) else words
        if not is_right(said, words, command == 'equal'):
            raise SystemExit('A is %s\nB is %s\n%s %s %s: the program answers %r, and the words are %s'
                             % (*texts, command, *names, said, sorted(words, key=len)[:5]))
    return not in_one


# two languages of some states more than N: all words that are shorter than N letters, and those that aren't longer
LONG = 'define A [{0}]* - [[[{0}]^100]^{1} [{0}]*] ;\ndefine B [{0}]* - [[[{0}]^100]^{1} [{0}]+] ;\n'


def timed(command):
    """What a command writes, and its processor seconds and peak memory in bytes."""
    with tempfile.TemporaryFile() as out:
        child = subprocess.Popen(command, stdin=subprocess.DEVNULL, stdout=out)
        _, status, usage = os.wait4(child.pid, 0)
        child.returncode = os.waitstatus_to_exitcode(status)
        out.seek(0)
        return out.read().decode(), usage.ru_utime + usage.ru_stime, usage.ru_maxrss * 1024


def large(path, folder, states):
    """Prints what comparing two large automata takes."""
    for letters in ('a', 'a | b'):
        measure.write_project(folder, LONG.format(letters, states // 100), LETTERS)
        _, alone, _ = timed([path, 'up', folder, 'B'])
        for command, names, head in ('equal', 'AB', '1 differ 2 %d ' % states), ('within', 'AB', '1 within\n'), ('within', 'BA', '1 outside %d ' % states):
            said, seconds, memory = timed([path, command, folder, *names])
            word = said[len(head):-1]
            if not said.startswith(head) or head.endswith(' ') and (len(word) != states or set(word) - set(letters)):
                raise SystemExit('%s %s %s: the program answers %s' % (command, *names, said[:60]))
            print('%d states over %d letters, %s %s: %8.3f s, %6.1f MiB; compiling for `up` is %.3f s'
                  % (states, len(letters.split(' | ')), command, ' '.join(names), seconds, memory / 2 ** 20, alone), flush=True)


def main():
    path, asked = measure.program_of_walk(__doc__, pairs=200, states=20_000)
    draw, same = random.Random(asked.seed), 0
    with tempfile.TemporaryDirectory() as folder:
        for number in range(asked.pairs):
            first = some_expression(draw, 2)
            other = draw.choice(SAME).format(text_of(first))
            second = first if number % 3 == 0 else some_expression(draw, draw.choice((1, 2)))
            texts = text_of(first), other if number % 3 == 0 else text_of(second)
            same += compare(path, folder, first, second, texts)
        print('%d pairs of expressions, of which %d are the same: all answered as the definition has it' % (asked.pairs, same))
        large(path, folder, asked.states)


if __name__ == '__main__':
    main()
