#!/usr/bin/env python3
"""Says which rows of worked_rows that look words up in projects with a lexicon want another answer than the definitions give, and writes
eight rows with what each flag does to a feature, whatever it is, and forty rows with lexicons made by chance behind their headings in its file stdin. The definitions are taken word for word, on lists of
symbols: each path of entries from Root to the end, with the pairs of an entry's expression, is kept where the flags of its upper side pass
and those of its lower side do; an answer is a text of what such a path relates to the word's cut. No automaton is built here. Words longer
than a bound aren't listed, so rows have short ones; definitions with `->` and `=>`, endless answers and more than are listed are left to rows by hand.

usage: bench/lexicon_rows.py
"""
import itertools
import os
import random
import re
import unicodedata

from measure import ROOT

PATH = os.path.join(ROOT, 'crates', 'worked_rows', 'stdin')
HEADING = '# Lexicons by chance, whose pairs bench/lexicon_rows.py lists by the definition'
TABLE = '# What each flag does, whatever its feature is: bench/lexicon_rows.py works it out by the table of flags'
SEED, COUNT = 1983, 40
# the most entries of a path, and the most symbols of a word: fewer where an operator speaks of all words
MOST_ENTRIES, BOUND, BOUND_OF_ALL = 16, 10, 4
# the most symbols of a word that is looked up by chance; with twice as many in an answer, that may be endless
SHORT = 4
FLAG = re.compile(r'@(?:([PNU])\.([^.@\s]+)\.([^.@\s]+)|(C)\.([^.@\s]+)|([RD])\.([^.@\s]+)(?:\.([^.@\s]+))?)@')
SIGNS = ['.x.', '.o.', '.u', '.l', '.i', '.r', '[', ']', '(', ')', '|', '/', '\\', '&', '-', '~', '$', '*', '+', '^', ':', ';', '?']
ENDS_RUN = '[](){}|/\\&-~$*+^:;,?_.<>=!#@"'
BLANKS = ' \t\n'


def normal(text):
    """The text of a source."""
    return unicodedata.normalize('NFC', text.removeprefix('\ufeff').replace('\r\n', '\n'))


class Text:
    """A text that is read from left to right. A letter is a character, and whether it is escaped."""

    def __init__(self, text, comments):
        self.text, self.at, self.comments = text, 0, comments

    def skip(self):
        """Goes on to the next token."""
        while self.at < len(self.text) and (self.text[self.at] in BLANKS or self.text[self.at] in self.comments):
            if self.text[self.at] in self.comments:
                self.at = (self.text + '\n').index('\n', self.at)
            else:
                self.at += 1
        return self.at < len(self.text)

    def letters(self, ends):
        """The letters up to an unescaped end, which is left."""
        found = []
        while self.at < len(self.text) and self.text[self.at] not in ends:
            escaped = self.text[self.at] == '%'
            self.at += escaped
            found.append((self.text[self.at], escaped))
            self.at += 1
        return found


def plain(letters):
    return ''.join(letter for letter, _ in letters)


class Project:
    """What the definitions of a project say: their expressions, as lists of tokens, or their lexicons. Words of `longest` characters
    are to be looked up."""

    def __init__(self, files, longest=0):
        self.symbols, self.names, self.found = set(), {}, {}
        files = {name: normal(text) for name, text in files.items()}
        lines = [line.split() for line in files['project'].split('\n')]
        texts = [(line, files[line[-1]]) for line in lines if line and line[0] in ('xfst', 'lexc')]
        for line, text in texts:
            for name in [line[1]] if line[0] == 'lexc' else re.findall(r'define\s+(\w+)', text):
                self.names[name] = None
        for line, text in texts:
            if line[0] == 'lexc':
                self.names[line[1]] = lexicons_of(self, text)
            else:
                for statement in re.findall(r'define\s+(\w+)\s(.*?);', re.sub('[!#].*', '', text), re.S):
                    self.names[statement[0]] = tokens_of(self, statement[1], '!#')
        for line in lines:
            self.symbols |= set(line[1:]) if line and line[0] == 'alphabet' else set()
        of_all = any(isinstance(body, list) and set(body) & set('?~$/\\') for body in self.expressions())
        self.bound = max(longest, BOUND_OF_ALL if of_all else BOUND)

    def expressions(self):
        for body in self.names.values():
            if isinstance(body, dict):
                yield from (form for entries in body.values() for form, _ in entries)
            else:
                yield body

    def relation(self, name):
        """The pairs of words that a name relates, up to the bound."""
        if name not in self.found:
            body = self.names[name]
            self.found[name] = paths_of(self, body) if isinstance(body, dict) else Expression(self, body).pairs
        return self.found[name]

    def cut(self, word):
        """The symbols of a word, the longest first, or the number of the character at which none begins."""
        found, at = [], 0
        while at < len(word):
            fits = [symbol for symbol in self.symbols if word.startswith(symbol, at)]
            if not fits:
                return at + 1
            found.append(max(fits, key=len))
            at += len(found[-1])
        return tuple(found)

    def reply(self, way, name, word):
        if name not in self.names:
            return '1 net %s\n' % name
        word = unicodedata.normalize('NFC', word)
        cut = self.cut(word)
        if isinstance(cut, int):
            return '1 symbol %d %s\n' % (cut, word)
        ways = ((upper, lower) if way == 'up' else (lower, upper) for upper, lower in self.relation(name))
        texts = sorted({''.join(answer) for answer, looked in ways if looked == cut}, key=str.encode)
        return '1 more %s\n' % word if len(texts) > 4096 else '1 %d %s\n' % (len(texts), word) + ''.join(text + '\n' for text in texts)


def tokens_of(project, text, comments):
    """The tokens of an expression: signs, and numbers behind `^`, names and words with what they are."""
    source, tokens = Text(text, comments), []
    while source.skip():
        first = source.text[source.at]
        sign = next((sign for sign in SIGNS if source.text.startswith(sign, source.at)), None)
        if sign:
            source.at += len(sign)
            tokens.append(sign)
        elif first == '"':
            end = source.text.index('"', source.at + 1)
            quoted = source.text[source.at + 1:end]
            source.at = end + 1
            tokens.append(('word', (quoted,) if quoted else ()))
        elif first == '{':
            source.at += 1
            tokens.append(('word', tuple(letter for letter, _ in source.letters('}'))))
            source.at += 1
        else:
            run = source.letters(ENDS_RUN + BLANKS)
            unescaped = plain(run) if not any(escaped for _, escaped in run) else None
            if tokens and tokens[-1] == '^':
                tokens.append(('number', int(unescaped)))
            elif unescaped in project.names:
                tokens.append(('name', unescaped))
            else:
                tokens.append(('word', () if unescaped == '0' else (plain(run),)))
    project.symbols |= {symbol for token in tokens if token[0] == 'word' for symbol in token[1]}
    return tokens


def lexicons_of(project, text):
    """The entries of each lexicon: a form and the name of the next lexicon, None at the end. A form is the list of the pieces of both sides,
    or the tokens of an expression."""
    source, statement, declared, lexicons, entries = Text(text, '!'), [], set(), {}, None
    while source.skip():
        first = source.text[source.at]
        if first == ';':
            source.at += 1
            *form, next_name = statement
            form = tokens_of(project, form[0], '!') if form and isinstance(form[0], str) else sides_of(project, declared, *form)
            entries.append((form, None if next_name == [('#', False)] else plain(next_name)))
            statement = []
        elif first == '<' and not statement and entries is not None:
            statement.append(expression_text(source))
        else:
            statement.append(source.letters(BLANKS + ';!'))
            if len(statement) == 1 and entries is not None and statement[0] == [(letter, False) for letter in 'END']:
                break
            if len(statement) == 1 and statement[0] == [(letter, False) for letter in 'Multichar_Symbols']:
                statement = []
            elif statement[0] == [(letter, False) for letter in 'LEXICON']:
                if len(statement) == 2:
                    entries = lexicons.setdefault(plain(statement[1]), [])
                    statement = []
            elif entries is None:
                declared |= {plain(statement.pop())}
    project.symbols |= {symbol for symbol in declared if not FLAG.fullmatch(symbol)}
    return lexicons


def expression_text(source):
    """What stands between `<` and the next `>` that isn't escaped, quoted or in a comment."""
    start, braced = source.at + 1, False
    source.at += 1
    while source.text[source.at] != '>':
        letter = source.text[source.at]
        if letter == '"':
            source.at = source.text.index('"', source.at + 1)
        elif letter == '!' and not braced:
            source.at = source.text.index('\n', source.at)
        braced = letter == '{' or braced and letter != '}'
        source.at += 2 if letter == '%' else 1
    source.at += 1
    return source.text[start:source.at - 1]


def sides_of(project, declared, letters=()):
    """The pieces of both sides of a form: symbols, and flags as their parts."""
    colon = (':', False)
    at = letters.index(colon) if colon in letters else None
    sides = [letters, letters] if at is None else [letters[:at], letters[at + 1:]]
    return tuple(pieces_of(project, declared, side) for side in sides)


def pieces_of(project, declared, letters):
    text, pieces, at = plain(letters), [], 0
    while at < len(text):
        flag = FLAG.match(text, at)
        fits = [symbol for symbol in declared if text.startswith(symbol, at)] + ([flag.group()] if flag else [])
        piece = max(fits, key=len) if fits else text[at]
        if FLAG.fullmatch(piece):
            pieces.append(tuple(part for part in FLAG.fullmatch(piece).groups() if part))
        elif fits or letters[at] != ('0', False):
            pieces.append(piece)
            project.symbols.add(piece)
        at += len(piece)
    return pieces


def passes(flags):
    """Whether each flag of a run passes, from all features neutral. A feature has a value, or is barred from one, or is neutral."""
    has, barred = {}, {}
    for kind, feature, *value in flags:
        value = value[0] if value else None
        neutral = feature not in has and feature not in barred
        if kind == 'R' and (neutral if value is None else has.get(feature) != value):
            return False
        if kind == 'D' and (not neutral if value is None else has.get(feature) == value):
            return False
        if kind == 'U' and (has.get(feature, value) != value or barred.get(feature) == value):
            return False
        if kind in 'PNCU':
            has.pop(feature, None)
            barred.pop(feature, None)
        if kind in 'PU':
            has[feature] = value
        elif kind == 'N':
            barred[feature] = value
    return True


def paths_of(project, lexicons):
    """The pairs of the paths from Root to the end, up to the bound."""
    found, paths = set(), [('Root', ((), ()))]
    pairs = {}
    for _ in range(MOST_ENTRIES):
        longer = set()
        for name, (upper, lower) in paths:
            for place, (form, next_name) in enumerate(lexicons[name]):
                if (name, place) not in pairs:
                    pairs[name, place] = [(tuple(form[0]), tuple(form[1]))] if isinstance(form, tuple) else sorted(Expression(project, form).pairs)
                for more_upper, more_lower in pairs[name, place]:
                    sides = upper + more_upper, lower + more_lower
                    words = tuple(tuple(piece for piece in side if isinstance(piece, str)) for side in sides)
                    flags = [[piece for piece in side if not isinstance(piece, str)] for side in sides]
                    if max(map(len, words)) > project.bound or not all(map(passes, flags)):
                        continue
                    if next_name is None:
                        found.add(words)
                    else:
                        longer.add((next_name, sides))
        paths = longer
    return found


class Expression:
    """The pairs of an expression, up to the bound. A language is its words, each with itself."""

    def __init__(self, project, tokens):
        self.project, self.tokens, self.at = project, tokens, 0
        self.pairs = self.steps()

    def peek(self):
        return self.tokens[self.at] if self.at < len(self.tokens) else None

    def take(self, *signs):
        if self.peek() in signs:
            self.at += 1
            return self.tokens[self.at - 1]
        return None

    def short(self, pairs):
        return {pair for pair in pairs if max(map(len, pair)) <= self.project.bound}

    def all_words(self):
        symbols = sorted(self.project.symbols)
        return {word for length in range(self.project.bound + 1) for word in itertools.product(symbols, repeat=length)}

    def joined(self, first, second):
        return self.short((a + c, b + d) for a, b in first for c, d in second)

    def star(self, pairs):
        found, last = {((), ())}, {((), ())}
        while last:
            last = self.joined(last, pairs) - found
            found |= last
        return found

    def steps(self):
        pairs = self.choices()
        while sign := self.take('.x.', '.o.'):
            other = self.choices()
            if sign == '.x.':
                pairs = {(a, d) for a, _ in pairs for _, d in other}
            else:
                pairs = {(a, d) for a, b in pairs for c, d in other if b == c}
        return pairs

    def choices(self):
        pairs = self.row()
        while sign := self.take('|', '&', '-'):
            other = self.row()
            pairs = pairs | other if sign == '|' else pairs & other if sign == '&' else pairs - other
        return pairs

    def row(self):
        pairs = self.ignoring()
        while self.peek() not in (None, ']', ')', '|', '&', '-', '.x.', '.o.'):
            pairs = self.joined(pairs, self.ignoring())
        return pairs

    def ignoring(self):
        pairs = self.prefixed()
        while self.take('/'):
            put = {word for word, _ in self.star(self.prefixed())}
            found = set()
            for word, _ in pairs:
                for between in itertools.product(put, repeat=len(word) + 1):
                    long = between[0] + tuple(itertools.chain(*((symbol,) + piece for symbol, piece in zip(word, between[1:]))))
                    if len(long) <= self.project.bound:
                        found.add((long, long))
            pairs = found
        return pairs

    def prefixed(self):
        prefixes = []
        while prefix := self.take('~', '$'):
            prefixes.append(prefix)
        pairs = self.suffixed()
        for prefix in reversed(prefixes):
            words = {word for word, _ in pairs}
            inside = lambda word: any(word[start:end] in words for start in range(len(word) + 1) for end in range(start, len(word) + 1))
            pairs = {(word, word) for word in self.all_words() if (word not in words if prefix == '~' else inside(word))}
        return pairs

    def suffixed(self):
        pairs = self.crossed()
        while suffix := self.take('*', '+', '^', '.u', '.l', '.i', '.r'):
            if suffix == '^':
                times, power = self.tokens[self.at][1], {((), ())}
                self.at += 1
                for _ in range(times):
                    power = self.joined(power, pairs)
                pairs = power
            elif suffix in '*+':
                star = self.star(pairs)
                pairs = star if suffix == '*' else self.joined(star, pairs)
            else:
                turn = {'.u': lambda a, b: (a, a), '.l': lambda a, b: (b, b), '.i': lambda a, b: (b, a), '.r': lambda a, b: (a[::-1], b[::-1])}[suffix]
                pairs = {turn(a, b) for a, b in pairs}
        return pairs

    def crossed(self):
        pairs = self.negated()
        if self.take(':'):
            return {(a, d) for a, _ in pairs for _, d in self.negated()}
        return pairs

    def negated(self):
        if self.take('\\'):
            words = {word for word, _ in self.negated()}
            return {((symbol,), (symbol,)) for symbol in self.project.symbols if (symbol,) not in words}
        return self.primary()

    def primary(self):
        token = self.tokens[self.at]
        self.at += 1
        if token == '?':
            return {((symbol,), (symbol,)) for symbol in self.project.symbols}
        if token in ('[', '('):
            pairs = {((), ())} if self.peek() == ']' else self.steps()
            self.at += 1
            return pairs | {((), ())} if token == '(' else pairs
        return self.project.relation(token[1]) if token[0] == 'name' else {(token[1], token[1])}


def undone(text):
    """The text that a row's text with escapes stands for."""
    letters, found = {'n': '\n', 't': '\t', 'r': '\r'}, b''
    escapes = r'([^\\]+)|\\\{(\d+)\}(.*?)\\\}|\\\((\d+)\)(.)|\\x(..)|\\(.)'
    for bare, times, part, count, letter, byte, other in re.findall(escapes, text):
        if byte:
            found += bytes([int(byte, 16)])
        elif times:
            found += undone(part).encode() * int(times)
        else:
            found += (bare or letter * int(count or 0) or letters.get(other, other)).encode()
    return found.decode()


def shown(text):
    """A text on one line, as a row has it; of a long one only its length and its first bytes."""
    data = text.encode()
    front = '%d lines: ' % data.count(b'\n') if len(data) > 300 else ''
    said = {10: '\\n', 13: '\\r', 92: '\\\\'}
    return front + ''.join(said.get(byte) or (chr(byte) if 32 <= byte < 127 else '\\x%02x' % byte) for byte in data[:40 if front else 300])


def wanted(row):
    """What the row's look-ups answer, by the definition."""
    files = {name: undone(text) for name, _, text in (value.partition(' ') for field, value in row if field == 'file')}
    fields = dict(row)
    (way, _, name), words = fields['words'].split(), undone(fields['input']).splitlines()
    project = Project(files, max(map(len, words)))
    return 'run 0 ' + shown(''.join(project.reply(way, name, word) for word in words))


def is_tried(fields, files):
    """Whether a row looks words up in a project with a lexicon, and isn't left to be worked out by hand."""
    by_hand = re.search(r'->|=>', files) or re.search(r'^0 (1 more|\d+ lines:)', fields.get('run', ''))
    return 'lexc ' in files and fields['words'].startswith(('up ', 'down ')) and fields.get('run', '').startswith('0') and not by_hand


def tell_of(rows):
    """Says which rows want another answer than the definition gives, and how many were tried."""
    tried = 0
    for row in rows:
        fields = dict(row)
        if is_tried(fields, ''.join(value for field, value in row if field == 'file')):
            tried += 1
            if wanted(row) != 'run ' + fields['run']:
                print('%s\n    has run %s\n    not %s' % (fields['row'], fields['run'], wanted(row)))
    print('%d rows were tried' % tried)


def some_flag(dice, kinds):
    kind, feature, value = dice.choice(kinds), dice.choice('FG'), dice.choice('xy')
    return '@%s.%s%s@' % (kind, feature, '' if kind == 'C' or kind in 'RD' and dice.random() < 0.4 else '.' + value)


def some_side(dice, kinds, pieces):
    """A few symbols and flags; sometimes nothing."""
    side = ''.join(some_flag(dice, kinds) if dice.random() < 0.5 else dice.choice(pieces) for _ in range(dice.choice([0, 1, 1, 2])))
    return side or '0'


def some_lexicons(dice):
    """A lexc text of two to four lexicons, whose later ones read what the earlier ones set, and may go back."""
    names = ['Root', 'A', 'B', 'C'][:dice.choice([2, 3, 3, 4])]
    lines = ['Multichar_Symbols ab +N']
    for place, name in enumerate(names):
        lines.append('LEXICON ' + name)
        kinds = 'PPNNUUC' if place == 0 else 'PNURDRDUUC'
        for number in range(dice.choice([2, 3])):
            side = some_side(dice, kinds, ['a', 'b', 'ab', '+N'])
            form = side if dice.random() < 0.6 else side + ':' + some_side(dice, kinds, ['a', 'b', '+N'])
            if dice.random() < 0.08:
                form = dice.choice(['<a | b:0>', '<[a b]:%+N>'])
            later = names[place + 1:] + ['#'] if place else names[1:]
            if number and dice.random() < 0.2 and 'a' in form:
                later = [name]
            lines.append('%s %s ;' % (form, dice.choice(later) if number else later[0]))
    return ''.join(line + '\n' for line in lines)


def rows_by_chance():
    """Rows whose lexicons have a few pairs, and flags that bar a path."""
    dice, made = random.Random(SEED), []
    while len(made) < COUNT:
        text = some_lexicons(dice)
        project = Project({'project': 'lexc Lex n.lexc', 'n.lexc': text})
        bare = Project({'project': 'lexc Lex n.lexc', 'n.lexc': FLAG.sub('', text)})
        pairs, without_flags = project.relation('Lex'), bare.relation('Lex')
        looked = len(made) % 2
        short = {pair for pair in without_flags if len(pair[looked]) <= SHORT}
        if len(pairs) < 2 or short <= pairs or any(len(pair[1 - looked]) > 2 * SHORT for pair in short):
            continue
        words = sorted({''.join(pair[looked]) for pair in short}, key=lambda word: (len(word), word))[:9]
        row = [('row', 'a_lexicon_by_chance_%d' % (len(made) + 1)), ('file', 'project lexc Lex n.lexc\\n'), ('file', 'n.lexc ' + shown_whole(text)),
               ('words', '%s d Lex' % ['down', 'up'][looked]), ('input', ''.join(word + '\\n' for word in words))]
        made.append(row + [tuple(wanted(row).split(' ', 1))])
    return made


# What a feature is, by the letter in front of a word, and by the letter behind it: anything, neutral, V, W, barred from V, barred from W.
BEFORE = {'n': '', 'v': '@P.F.V@', 'w': '@P.F.W@', 'x': '@N.F.V@', 'y': '@N.F.W@'}
BEHIND = {'p': '', 'n': '@D.F@', 'v': '@R.F.V@', 'w': '@R.F.W@', 'x': '@R.F@@D.F.V@@D.F.W@@U.F.W@', 'y': '@R.F@@D.F.V@@D.F.W@@U.F.V@'}
FLAGS = {'is_set': '@P.F.V@', 'is_set_negatively': '@N.F.V@', 'is_cleared': '@C.F@', 'is_to_have_a_value': '@R.F.V@', 'is_not_to_be_neutral': '@R.F@',
         'is_not_to_have_a_value': '@D.F.V@', 'is_to_be_neutral': '@D.F@', 'is_unified': '@U.F.V@'}


def rows_of_table():
    """A row for each flag, which is met by a feature of each kind, and what the feature is then."""
    for name, flag in FLAGS.items():
        parts = [('Root', [(flags + letter, 'Flag') for letter, flags in BEFORE.items()]), ('Flag', [(flag, 'Then')]),
                 ('Then', [(flags + letter, '#') for letter, flags in BEHIND.items()])]
        text = ''.join('LEXICON %s\n' % lexicon + ''.join('%s %s ;\n' % entry for entry in entries) for lexicon, entries in parts)
        row = [('row', 'a_feature_%s' % name), ('file', 'project lexc Lex n.lexc\\n'), ('file', 'n.lexc ' + shown_whole(text)),
               ('words', 'up d Lex'), ('input', ''.join(before + behind + '\\n' for before in BEFORE for behind in BEHIND))]
        yield row + [tuple(wanted(row).split(' ', 1))]


def shown_whole(text):
    return text.replace('\\', '\\\\').replace('\n', '\\n')


def replaced(text, heading, rows):
    """The text with these rows behind a heading."""
    front, _, rest = text.partition('\n' + heading + '\n')
    _, next_heading, later = rest.partition('\n# ')
    return front + '\n' + heading + '\n\n' + '\n'.join(''.join('%s %s\n' % line for line in row) for row in rows) + next_heading + later


def main():
    with open(PATH, encoding='utf-8') as source:
        text = source.read()
    text = replaced(replaced(text, TABLE, rows_of_table()), HEADING, rows_by_chance())
    blocks = [block.split('\n') for block in text.split('\n\n')]
    tell_of([[line.partition(' ')[::2] for line in block if line] for block in blocks if block[0].startswith('row ')])
    with open(PATH, 'w', encoding='utf-8') as out:
        out.write(text)


if __name__ == '__main__':
    main()
