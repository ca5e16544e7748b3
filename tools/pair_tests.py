"""Tests of a two-level grammar in comments of its file: strings of pairs that keep its rules, and strings that break one. docs/CHECKING.md says how they
are written."""
import os
import re
import unicodedata

import sources

MARKS = {'!!€': True, '!!$': False}
# what stands for another thing in a string of pairs unless `%` is before it
SIGNS = '[]()|/\\&-~$*+^:;_.<>=!"%? \t'


class Test:
    """A string of pairs with its line, and whether it should keep every rule."""

    def __init__(self, line, is_kept, string):
        self.line, self.is_kept, self.string = line, is_kept, string


def is_string(text):
    """Whether a text is a string of pairs, and no side of one: it has a blank or a colon."""
    return re.search(r'(?:^|[^%])(?:%%)*[: \t]', text) is not None


def symbols_of(grammar):
    """The symbols of a grammar, the longest first."""
    atoms = [token.text for token in grammar.alphabet]
    atoms += [token.text for words in grammar.sets.values() for token in words]
    atoms += [token.text for words in grammar.definitions.values() for token in words if token.kind == 'atom']
    atoms += [token.text for _, words in grammar.rules for token in words if token.kind == 'atom']
    found = {side[0] for atom in atoms for side in sources.sides_of(atom) if side and side != ('0', True)}
    return sorted(found, key=len, reverse=True)


def cut(side, symbols):
    """The symbols of a side, the longest at each place, as they are written in a pair; `0` for nothing. A character that begins none is one."""
    letters = [(match[0][-1], len(match[0]) == 2) for match in re.finditer(r'%.|.', side)]
    text, at, found = ''.join(letter for letter, _ in letters), 0, []
    while at < len(text):
        symbol = next((it for it in symbols if text.startswith(it, at)), text[at])
        found.append('0' if letters[at] == ('0', False) and symbol == '0' else escaped(symbol))
        at += len(symbol)
    return found


def escaped(symbol):
    return '%0' if symbol == '0' else ''.join('%' + c if c in SIGNS else c for c in symbol)


def read(path):
    """The tests of a file, in order, and its first fault, as the line and what is wrong; None where there is no fault."""
    text = sources.text_of(path)
    symbols = symbols_of(sources.Twolc(os.path.basename(path), text))
    found, upper = [], None
    for number, line in enumerate(text.split('\n'), 1):
        mark, test = line.strip(' \t')[:3], line.strip(' \t')[3:].strip(' \t')
        if mark not in MARKS:
            continue
        if upper and (mark != upper[1] or is_string(test)):
            break
        if upper:
            sides = cut(upper[2], symbols), cut(test, symbols)
            if len(sides[0]) != len(sides[1]):
                return [], (number, 'the upper word has %d symbols and the lower one %d' % (len(sides[0]), len(sides[1])))
            found.append(Test(upper[0], MARKS[mark], ' '.join(up + ':' + low for up, low in zip(*sides))))
            upper = None
        elif is_string(test) or not test:
            found.append(Test(number, MARKS[mark], test))
        else:
            upper = number, mark, test
    if upper:
        return [], (upper[0], 'the next line of tests with this mark is the lower word, without blanks and colons')
    return found, None


def name_of(folder, path):
    """The name that the project of a folder gives to the grammar of a file; None where it has no such line."""
    for line in sources.text_of(os.path.join(folder, 'project')).split('\n'):
        words = line.split()
        if len(words) == 3 and words[0] == 'twolc' and words[2] == unicodedata.normalize('NFC', os.path.basename(path)):
            return words[1]
    return None


def differences(tests, replies):
    """What differs of strings that were answered so: the test, what is said of it, and the answer."""
    for test, reply in zip(tests, replies):
        answer = reply.partition(' ')[2]
        kind = answer.split(' ')[0]
        if kind not in ('pass', 'fail'):
            yield test, 'no-answer', answer
        elif (kind == 'pass') != test.is_kept:
            yield test, 'unexpected', answer
