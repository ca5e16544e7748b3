#!/usr/bin/env python3
"""Writes the rows of crates/worked_rows/data/trials/networks below the heading `## replace`, and what is wanted of them: rows that were worked out by hand, and
a hundred small rule sets whose pairs are listed here by the definition. The definition is taken word for word, on strings: every way to
cut a word into copied symbols and replaced centres, of which those are kept whose contexts hold on the sides that are read and, unless
rules are optional, that leave no centre; an insertion is a choice of a word for each place. No automaton is built here.

usage: bench/replacement_rows.py        (writes that section of data/trials/networks and of stdout in crates/worked_rows)
"""
import itertools
import os
import random
import re

from measure import ROOT

SEED = 1995
SETS = 100
OPERATORS = ['||', '//', '\\\\', '\\/']

# rows by hand: symbols, rules, looks with what is wanted
BY_HAND = [
    ('Matches that overlap, of several lengths.', 'a b x', 'a b | b | b a | a b a -> x', [('down a b a', 'ax axa x xa')]),
    ('Which side a context is read on.', 'a b x', 'a b -> x || a b _ a', [('down a b a b a b a', 'abxxa')]),
    (None, 'a b x', 'a b -> x // a b _ a', [('down a b a b a b a', 'abxaba')]),
    (None, 'a b x', 'a b -> x \\\\ a b _ a', [('down a b a b a b a', 'ababxa')]),
    (None, 'a b x', 'a b -> x \\/ a b _ a', [('down a b a b a b a', 'ababxa abxaba')]),
    ('Insertion where the context holds, and where it may stay away.', 's e', '[..] -> e || s _ s', [('down s s s', 'seses')]),
    (None, 's e', '[..] (->) e || s _ s', [('down s s', 'ses ss')]),
    (None, 'a b', '[..] -> b', [('down a', 'bab')]),
    (None, 'a b', '[..] -> b || .#. _ , _ .#.', [('down a a', 'baab'), ('down', 'b')]),
    ('The edge of the word; optional rules; exchange; markup.', 'a b', 'a -> b || .#. _', [('down a a', 'ba'), ('down b a', 'ba')]),
    (None, 'a b', 'a (->) b', [('down a a', 'aa ab ba bb')]),
    (None, 'a b', 'a -> b , b -> a', [('down a b', 'ba')]),
    (None, 'a b < >', 'a -> < ... >', [('down b a', 'b<a>')]),
    ('Each match meets another context; an empty result.', 'a b x', 'a -> b || x _ , _ x', [('down a x a', 'bxb')]),
    (None, 'a b', 'a ->', [('down a a', '0')]),
    ('Groups with contexts of their own.', 'a b x', 'a -> b || x _ ,, b -> a || _ x', [('down x a b x', 'xbax')]),
    ('A choice for one match contradicts the other.', 'a b', 'a -> b \\/ _ a , b _', [('down a a', 'no text')]),
    ('A result that has the centre again.', 'a b', 'a -> a b', [('down a a', 'abab')]),
    ('A copied symbol, the two brackets of a replacement, and its symbol on either side.', 'a', 'a -> a', [('marks 1', '5 marks')]),
    ('A result language without words: only words without a match are left.', 'a b', 'a -> .#.', [('down a', 'no text'), ('down b', 'b')]),
]


class Mapping:
    def __init__(self, centre, result, after=None):
        self.centre, self.result, self.after = centre, result, after

    def text(self, arrow):
        behind = '' if self.after is None else ' ... ' + self.after
        return ('%s %s %s%s' % (self.centre, arrow, self.result, behind)).strip()


class Group:
    def __init__(self, maps, operator, contexts):
        self.maps, self.operator, self.contexts = maps, operator, contexts

    def text(self, arrow):
        rules = ' , '.join(mapping.text(arrow) for mapping in self.maps)
        if self.contexts:
            rules += ' %s %s' % (self.operator, ' , '.join('%s _ %s' % context for context in self.contexts))
        return rules


def pattern(part, symbols):
    """A part as Python's regular expression over words in which the edge is `#`."""
    def atom(text):
        star = '*' if text.endswith('*') and len(text) > 1 else ''
        text = text[:-1] if star else text
        return {'?': '[%s]' % symbols, '.#.': '#'}.get(text, text) + star
    return '(?:%s)' % '|'.join(''.join(atom(text) for text in row.split()) for row in part.split('|'))


def words(part, symbols):
    """The words of a part without `*` and edge."""
    found = set()
    for row in part.split('|'):
        choices = [symbols if text == '?' else text for text in row.split()]
        found |= {''.join(choice) for choice in itertools.product(*choices)}
    return sorted(found)


def holds(context, before, behind, symbols):
    left, right = (pattern(part, symbols) for part in context)
    return bool(re.fullmatch('.*' + left, '#' + before) and re.fullmatch(right + '.*', behind + '#'))


def allows(group, before, behind, symbols):
    """Whether the group asks for no context, or one holds between these pieces, each part read on its side."""
    left = 1 if group.operator in ('//', '\\/') else 0
    right = 1 if group.operator in ('\\\\', '\\/') else 0
    words_round = ''.join(piece[left] for piece in before), ''.join(piece[right] for piece in behind)
    return not group.contexts or any(holds(context, *words_round, symbols) for context in group.contexts)


def is_centre(mapping, word, symbols):
    return word and re.fullmatch(pattern(mapping.centre, symbols), word)


def results(mapping, centre, symbols):
    if mapping.after is None:
        return words(mapping.result, symbols)
    return [before + centre + after for before in words(mapping.result, symbols) for after in words(mapping.after, symbols)]


def cuts(groups, word, symbols):
    """The lists of pieces with this upper word. A piece is its upper side, its lower side, and the group that replaces, if one does."""
    if not word:
        yield []
        return
    firsts = [(word[0], word[0], None)]
    for group in groups:
        for mapping in group.maps:
            for length in range(1, len(word) + 1):
                if is_centre(mapping, word[:length], symbols):
                    firsts += [(word[:length], result, group) for result in results(mapping, word[:length], symbols)]
    for first in firsts:
        for rest in cuts(groups, word[len(first[0]):], symbols):
            yield [first] + rest


def leaves_centre(groups, pieces, symbols):
    """Whether a centre stands in copied symbols where its group's context holds."""
    for start in range(len(pieces)):
        for end in range(start + 1, len(pieces) + 1):
            copied = pieces[start:end]
            if any(piece[2] for piece in copied):
                break
            centre = ''.join(piece[0] for piece in copied)
            for group in groups:
                if any(is_centre(mapping, centre, symbols) for mapping in group.maps) and allows(group, pieces[:start], pieces[end:], symbols):
                    return True
    return False


def rewritten(groups, optional, word, symbols):
    found = set()
    for pieces in cuts(groups, word, symbols):
        in_context = all(piece[2] is None or allows(piece[2], pieces[:at], pieces[at + 1:], symbols) for at, piece in enumerate(pieces))
        if in_context and (optional or not leaves_centre(groups, pieces, symbols)):
            found.add(''.join(piece[1] for piece in pieces))
    return found


def inserted(group, optional, word, symbols):
    """For each place a word is chosen: one of the result where a context holds, and else, or where that may be, the empty one."""
    put = words(group.maps[0].result, symbols)
    found = set()
    for chosen in itertools.product(sorted(set(put) | {''}), repeat=len(word) + 1):
        right = True
        for place, insertion in enumerate(chosen):
            before = [(word[k], chosen[k] + word[k]) for k in range(place)]
            behind = [(word[k], word[k] + chosen[k + 1]) for k in range(place, len(word))]
            held = allows(group, before, behind, symbols)
            right = right and (insertion in put or optional and not insertion if held else not insertion)
        if right:
            found.add(''.join(chosen[k] + word[k] for k in range(len(word))) + chosen[-1])
    return found


def some_words(chosen, symbols, most, empty):
    """One or two words of few symbols, as a part."""
    lengths = ([0] if empty else []) + [1, 1, 2][:most + 1]
    rows = {' '.join(chosen.choices(symbols, k=chosen.choice(lengths))) for _ in range(chosen.choice([1, 1, 2]))}
    return ' | '.join(sorted(rows, key=lambda row: (len(row), row)))


def some_side(chosen, symbols, edge_first):
    atoms = chosen.choices(list(symbols) + ['?', chosen.choice(symbols) + '*'], k=chosen.choice([0, 1, 1, 1, 2]))
    if chosen.random() < 0.2:
        atoms = ['.#.'] + atoms if edge_first else atoms + ['.#.']
    return ' '.join(atoms)


def some_contexts(chosen, symbols, counts):
    return [(some_side(chosen, symbols, True), some_side(chosen, symbols, False)) for _ in range(chosen.choice(counts))]


def some_mapping(chosen, symbols):
    centre = some_words(chosen, symbols, 2, False)
    if chosen.random() < 0.15:
        centre = '%s %s*' % tuple(chosen.choices(symbols, k=2))
    if chosen.random() < 0.2:
        return Mapping(centre, some_words(chosen, symbols, 1, True), some_words(chosen, symbols, 1, True))
    return Mapping(centre, some_words(chosen, symbols, 2, True))


def some_rules(chosen, number):
    """Symbols, groups, whether they are optional, and whether they insert."""
    symbols = chosen.choice(['ab', 'abc'])
    optional = chosen.random() < 0.25
    operator = OPERATORS[number % 4]
    if number % 5 == 4:
        group = Group([Mapping('[..]', some_words(chosen, symbols, 1, False))], operator, some_contexts(chosen, symbols, [0, 1, 1, 2]))
        return symbols, [group], optional, True
    groups = []
    for _ in range(chosen.choice([1, 1, 2, 3])):
        maps = [some_mapping(chosen, symbols) for _ in range(chosen.choice([1, 1, 2]))]
        groups.append(Group(maps, operator, some_contexts(chosen, symbols, [0, 1, 1, 2])))
        operator = chosen.choice(OPERATORS)
    return symbols, groups, optional, False


def listed(texts):
    """The texts in the order of their bytes, the empty one as 0."""
    return ' '.join(text or '0' for text in sorted(texts)) if texts else 'no text'


def lines_of(symbols, groups, optional, inserts, most):
    for length in range(most + 1):
        for letters in itertools.product(symbols, repeat=length):
            word = ''.join(letters)
            found = inserted(groups[0], optional, word, symbols) if inserts else rewritten(groups, optional, word, symbols)
            if found != {word}:
                yield '    %s: %s' % (word or '0', listed(found))


def with_section(lines, heading, section):
    """The lines, in which those below the heading, up to the next one, are the section's."""
    start = lines.index(heading) + 1
    end = next((at for at in range(start, len(lines)) if lines[at].startswith(('## ', 'trials '))), len(lines))
    return lines[:start] + section + lines[end:]


def main():
    rows, wanted = [], []
    for comment, symbols, rules, looks in BY_HAND:
        if comment:
            rows.append('# ' + comment)
        row = '%s ; %s ; %s' % (symbols, rules, ' , '.join(look for look, _ in looks))
        rows.append(row)
        wanted += [row] + ['    ' + texts for _, texts in looks]
    rows.append('# Rule sets by chance: their pairs are those of the definition, listed by bench/replacement_rows.py.')
    chosen = random.Random(SEED)
    for number in range(SETS):
        symbols, groups, optional, inserts = some_rules(chosen, number)
        arrow = '(->)' if optional else '->'
        most = 3 if len(symbols) == 3 else 4
        row = '%s ; %s ; all %d' % (' '.join(symbols), ' ,, '.join(group.text(arrow) for group in groups), most)
        lines = list(lines_of(symbols, groups, optional, inserts, most))
        rows.append(row)
        wanted += [row] + (lines or [''])
    folder = os.path.join(ROOT, 'crates', 'worked_rows')
    for name, section in ((os.path.join('data', 'trials', 'networks'), rows), ('stdout', wanted)):
        path = os.path.join(folder, name)
        with open(path) as old:
            lines = old.read().splitlines()
        with open(path, 'w') as out:
            out.write('\n'.join(with_section(lines, '## replace', section)) + '\n')


if __name__ == '__main__':
    main()
