#!/usr/bin/env python3
"""Runs `attup` on every prefix of an AT&T text with all forms, on so many changes of it by one byte, from a fixed seed, and on texts at each limit and one
beyond. What is refused and what is answered is told by the definition: the first fault, line by line, or the paths of the text, one after
another. Prints what isn't so, and how many were refused for what.

usage: bench/att_bytes.py [PROGRAM [CHANGES]]
"""
import collections
import os
import re
import sys
import tempfile
import unicodedata

from lexicon_bytes import run, variants
from measure import program

CHANGES, MOST, SYMBOLS = 5_000, 67_108_864, 1_024
# a program with checks that run takes long over the largest text
SECONDS = 1_200
WORDS = ['', 'cat', 'cats', 'y', 'z', 'q', 'ä ', 'äx ', 'äxx ', 'ca', 'catt', 'é', 'ab', 'a', 'xy', '@P']
TEXT = '''0\t1\tc
1\t2\ta\ta
2\t3\tt\tt\r
3\t4\t+N\t@0@
4\t5\t+Sg\t@0@
4\t5\t+Pl\ts
0\t6\tä
6\t6\t@0@\tx
6\t5\ta b\t\x20
7\t0\tq
0\t8\t@0@
8\t8\to\t@0@
8\t5\ty
0\t5\te\u0301
0\t18446744073709551615\t@P
18446744073709551615
5
'''
OPEN = ('@_IDENTITY_SYMBOL_@', '@_UNKNOWN_SYMBOL_@')
STATE = re.compile('0|[1-9][0-9]*')
FLAG = re.compile(r'@(?:[PNU]\.[^.@ \t\n]+\.[^.@ \t\n]+|C\.[^.@ \t\n]+|[RD]\.[^.@ \t\n]+(?:\.[^.@ \t\n]+)?)@')


def text_of(data):
    """The text of the bytes; or `None`, and the line and the reason of their fault."""
    if len(data) > MOST:
        return None, (0, 'limit-file')
    try:
        text = data.decode()
    except UnicodeDecodeError as error:
        return None, (data.count(b'\n', 0, error.start) + 1, 'not-utf8')
    text = (text[1:] if text.startswith('\ufeff') else text).replace('\r\n', '\n')
    control = re.search('[\0-\x08\x0b-\x1f\x7f-\x9f]', text)
    if control:
        return None, (text.count('\n', 0, control.start()) + 1, 'control')
    return unicodedata.normalize('NFC', text), None


def is_state(field):
    return STATE.fullmatch(field) is not None and int(field) < 2 ** 64


def read(text):
    """The arcs and the final states of a text, and the line and the reason of its first fault, if there is one."""
    arcs, finals, symbols = [], set(), set()
    lines = text.split('\n')
    for number, line in enumerate(lines if lines[-1] else lines[:-1], 1):
        fields = line.split('\t')
        if len(fields) == 1 and is_state(line):
            finals.add(line)
            continue
        if len(fields) not in (3, 4) or not all(map(is_state, fields[:2])) or not all(fields[2:]):
            return [], finals, (number, 'statement')
        sides = [None if side == '@0@' else side for side in (fields[2], fields[-1])]
        if any(side and FLAG.fullmatch(side) for side in sides):
            return [], finals, (number, 'flag')
        if any(side in OPEN for side in sides):
            return [], finals, (number, 'open-symbol')
        symbols |= {side for side in sides if side}
        if len(symbols) > SYMBOLS:
            return [], finals, (number, 'limit-symbols')
        arcs.append((*fields[:2], *sides))
    return arcs, finals, None


def cut(word, symbols):
    """The symbols of a word, and the character at which none begins, counted from 1, if there is one."""
    found, at = [], 0
    while at < len(word):
        symbol = max((it for it in symbols if word.startswith(it, at)), key=len, default='')
        if not symbol:
            return found, at + 1
        found.append(symbol)
        at += len(symbol)
    return found, None


class Paths:
    """The paths of a text whose lower side is a word: configurations of a state and a place in the word, from the start, and the moves that lead to an end."""

    def __init__(self, arcs, finals, word):
        self.end, self.moves, todo = None, {}, [('0', 0)]
        while todo:
            here = todo.pop()
            if here in self.moves:
                continue
            self.moves[here] = [(up or '', (end, here[1] + (low is not None))) for start, end, up, low in arcs
                                if start == here[0] and (low is None or here[1] < len(word) and word[here[1]] == low)]
            todo += [there for _, there in self.moves[here]]
        self.ends = {here for here in self.moves if here[0] in finals and here[1] == len(word)}
        useful, grows = set(self.ends), True
        while grows:
            more = {here for here, moves in self.moves.items() if here not in useful and any(there in useful for _, there in moves)}
            useful, grows = useful | more, bool(more)
        self.moves = {here: [move for move in moves if move[1] in useful] for here, moves in self.moves.items() if here in useful}

    def reached(self, here):
        found, todo = set(), [here]
        while todo:
            for _, there in self.moves[todo.pop()]:
                if there not in found:
                    found.add(there)
                    todo.append(there)
        return found

    def is_endless(self):
        return any(up and here in {there} | self.reached(there) for here, moves in self.moves.items() for up, there in moves)

    def texts(self):
        """The upper texts, where they aren't endless."""
        found, seen, todo = set(), set(), [(('0', 0), '')] if ('0', 0) in self.moves else []
        while todo:
            it = todo.pop()
            if it in seen:
                continue
            seen.add(it)
            here, text = it
            found |= {text} if here in self.ends else set()
            todo += [(there, text + up) for up, there in self.moves[here]]
        return found

    def has(self, text):
        """Whether this is an upper text."""
        seen, todo = set(), [(('0', 0), 0)]
        while todo:
            it = todo.pop()
            if it in seen or it[0] not in self.moves:
                continue
            seen.add(it)
            if it[0] in self.ends and it[1] == len(text):
                return True
            todo += [(there, it[1] + len(up)) for up, there in self.moves[it[0]] if text.startswith(up, it[1])]
        return False


def is_reply(lines, arcs, finals, word):
    """How many lines are the reply to a word; 0 where they are none."""
    symbols = {side for arc in arcs for side in arc[2:] if side}
    found, strange = cut(word, symbols)
    if strange:
        return int(lines[:1] == ['1 symbol %d %s' % (strange, word)])
    paths = Paths(arcs, finals, found)
    if paths.is_endless():
        is_loop = lines[:1] == ['1 loop ' + word] and len(lines) > 3 and lines[2] and all(paths.has(lines[1] + lines[2] * times + lines[3]) for times in range(5))
        return 4 if is_loop else 0
    texts = sorted(paths.texts(), key=str.encode)
    return len(texts) + 1 if lines[:len(texts) + 1] == ['1 %d %s' % (len(texts), word), *texts] else 0


def complaint(morph, folder, data):
    """What is wrong of the answers about these bytes, if anything is; and the fault that they have."""
    text, fault = text_of(data)
    arcs, finals, fault = read(text) if fault is None else ([], set(), fault)
    status, said = run([morph, 'attup', folder, 'n.att'], ''.join(word + '\n' for word in WORDS).encode(), SECONDS)
    if fault:
        wanted = 'refused n.att %d %s\n' % fault
        return None if (status, said) == (2, wanted) else 'status %s, %r for %r' % (status, said[:200], wanted), fault[1]
    lines = said.split('\n')
    for word in WORDS:
        count = is_reply(lines, arcs, finals, unicodedata.normalize('NFC', word))
        if status != 0 or not count:
            return 'status %s, %r: %r' % (status, word, lines[:3]), 'no fault'
        lines = lines[count:]
    return None if lines == [''] else 'status %s, and then %r' % (status, lines[:3]), 'no fault'


def limits():
    """Texts at each limit, and one beyond."""
    for state in 2 ** 64 - 1, 2 ** 64:
        yield 'state %d' % state, ('0\t%d\ta\n%d\n' % (state, state)).encode()
    for count in SYMBOLS, SYMBOLS + 1:
        yield '%d symbols' % count, ''.join('0\t1\t<%d>\t<%d>\n' % (number, number) for number in range(count)).encode()
        yield '%d symbols on two sides' % count, ''.join('0\t1\t<%d>\t<%d>\n' % (number, min(number + 1, count - 1)) for number in range(0, count, 2)).encode()
    for size in MOST, MOST + 1:
        yield '%d bytes' % size, b'0\t1\ta\tb\n0\t1\t' + b'x' * (size - 15) + b'\n1\n'
    yield 'no bytes', b''
    yield 'a mark and a return', '\ufeff0\t1\ta\tcat\r\n1\r\n'.encode()
    yield 'two returns', b'0\t1\ta\tcat\r\r\n1\n'


def main():
    morph = program(sys.argv[1:])
    changes = int(sys.argv[2]) if len(sys.argv) > 2 else CHANGES
    faults, wrong = collections.Counter(), 0
    with tempfile.TemporaryDirectory() as folder:
        for what, data in [*limits(), *variants(TEXT.encode(), changes)]:
            with open(os.path.join(folder, 'n.att'), 'wb') as out:
                out.write(data)
            said, fault = complaint(morph, folder, data)
            faults[fault] += 1
            if said:
                wrong += 1
                print('%s: %s' % (what, said), flush=True)
        os.remove(os.path.join(folder, 'n.att'))
        if run([morph, 'attup', folder, 'n.att']) != (2, 'refused n.att 0 no-file\n'):
            wrong += 1
            print('without a file: %s' % (run([morph, 'attup', folder, 'n.att']),))
    print('%d of %d are as the definition has them' % (sum(faults.values()) + 1 - wrong, sum(faults.values()) + 1))
    for fault, count in faults.most_common():
        print('%6d %s' % (count, fault))


if __name__ == '__main__':
    main()
