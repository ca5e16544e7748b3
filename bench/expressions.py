#!/usr/bin/env python3
"""Writes 400 rows `again` with expressions of every form, from a fixed seed: the last rows of
crates/worked_rows/data/trials/definitions.

usage: bench/expressions.py
"""
import random

COUNT = 400
SEED = 20031
RUNS = ['a', 'b', 'cat', 'x1', '12', '%+N', 'a% b', '%0', 'é', 'd%|e', '0', '%%', '%"', '%\\']
QUOTED = ['"+Sg"', '"0"', '""', '"a b"', '"%"', '"!#"', '"ü"']
BRACED = ['{cat}', '{}', '{a%}b}', '{ é }', '{%0}', '{#!}', '{%"%\\}']


class Expressions:
    """Expressions by the levels of their operators, with so many brackets inside one another at most."""

    def __init__(self, seed):
        self.random = random.Random(seed)

    def few(self):
        """How many further operands: mostly none."""
        return self.random.choices([0, 1, 2, 3], [12, 3, 2, 1])[0]

    def primary(self, depth, inside):
        kinds = ['run', 'quoted', 'braced', 'any', 'blank'] + ['edge'] * inside + ['square', 'round'] * (2 if depth else 0)
        kind = self.random.choice(kinds)
        if kind == 'run':
            return self.random.choice(RUNS)
        if kind == 'quoted':
            return self.random.choice(QUOTED)
        if kind == 'braced':
            return self.random.choice(BRACED)
        if kind == 'any':
            return '?'
        if kind == 'blank':
            return self.random.choice(['[]', '[ ]'])
        if kind == 'edge':
            return '.#.'
        inner = self.steps(depth - 1, inside)
        return '[%s]' % inner if kind == 'square' else '(%s)' % inner

    def negated(self, depth, inside):
        return '\\ ' * self.few() + self.primary(depth, inside)

    def crossed(self, depth, inside):
        sides = [self.negated(depth, inside) for _ in range(self.random.choices([1, 2], [4, 1])[0])]
        return ':'.join(sides)

    def suffixed(self, depth, inside):
        suffixes = ['*', '+', '^2', '^ 007', '^255', '.u', '.l', '.i', '.r']
        return self.crossed(depth, inside) + ''.join(self.random.choice(suffixes) + ' ' for _ in range(self.few()))

    def prefixed(self, depth, inside):
        return ''.join(self.random.choice('~$') for _ in range(self.few())) + self.suffixed(depth, inside)

    def row(self, level, signs, depth, inside):
        text = level(depth, inside)
        for _ in range(self.few()):
            text += self.random.choice(signs) + level(depth, inside)
        return text

    def ignored(self, depth, inside):
        return self.row(self.prefixed, ['/ ', ' / '], depth, inside)

    def concatenated(self, depth, inside):
        return self.row(self.ignored, [' '], depth, inside)

    def chain(self, depth, inside):
        return self.row(self.concatenated, ['|', ' & ', ' - '], depth, inside)

    def part(self, depth, inside):
        """A level 8 that may be left out."""
        return self.chain(depth, inside) if self.random.random() < 0.6 else ''

    def contexts(self, depth):
        row = ['%s _ %s' % (self.part(depth, True), self.part(depth, True)) for _ in range(1 + self.few())]
        return ' , '.join(row)

    def sided(self, depth):
        return ' %s %s' % (self.random.choice(['||', '//', '\\\\', '\\/']), self.contexts(depth)) if self.random.random() < 0.5 else ''

    def mapping(self, arrow, depth, inside):
        centre = self.chain(depth, inside)
        if self.random.random() < 0.3:
            return '%s %s %s ... %s' % (centre, arrow, self.part(depth, inside), self.part(depth, inside))
        return '%s %s %s' % (centre, arrow, self.chain(depth, inside))

    def rules(self, depth, inside):
        arrow = self.random.choice(['->', '(->)'])
        if self.random.random() < 0.2:
            return '%s %s %s%s' % (self.random.choice(['[..]', '[. .]']), arrow, self.chain(depth, inside), self.sided(depth))
        groups = []
        for _ in range(1 + self.few()):
            maps = [self.mapping(arrow, depth, inside) for _ in range(1 + self.few())]
            groups.append(' , '.join(maps) + self.sided(depth))
        return ' ,, '.join(groups)

    def directed(self, depth, inside):
        arrow = self.random.choice(['@->', '@>', '->@', '>@'])
        maps = [self.mapping(arrow, depth, inside) for _ in range(1 + self.few())]
        return ' , '.join(maps) + (' || %s' % self.contexts(depth) if self.random.random() < 0.5 else '')

    def ruled(self, depth, inside):
        kind = self.random.choices(['plain', 'only', 'rules', 'directed'], [6, 1, 2, 2])[0]
        if kind == 'only':
            return '%s => %s' % (self.chain(depth, inside), self.contexts(depth))
        if kind == 'directed':
            return self.directed(depth, inside)
        return self.rules(depth, inside) if kind == 'rules' else self.chain(depth, inside)

    def steps(self, depth, inside):
        return self.row(self.ruled, [' .x. ', ' .o. '], depth, inside)


def main():
    expressions = Expressions(SEED)
    lines = []
    while len(lines) < COUNT:
        line = expressions.steps(2, False)
        if len(line) <= 200:
            lines.append(line)
    for line in lines:
        print('again ' + line.replace('\\', '\\\\'))


if __name__ == '__main__':
    main()
