"""Reads the sources of a project as the program does, for scripts that look at them: docs/FORMATS.md says what is read. Only a
project in which `check` finds no fault is read here, so nothing is refused; what has no reading is left out."""
import os
import re
import unicodedata

FLAG = re.compile(r'@(?:([PNU])\.([^.@\s]+)\.([^.@\s]+)|(C)\.([^.@\s]+)|([RD])\.([^.@\s]+)(?:\.([^.@\s]+))?)@')
XFST = re.compile(r'''(?P<blank>[ \t\n]+|[!\#][^\n]*)
  | (?P<quoted>"[^"]*") | (?P<braced>\{(?:%.|[^}%])*\})
  | (?P<insertion>\[\.\.\]|\[\.[ \t\n]+\.\])
  | (?P<sign>\(->\)|@->|->@|@>|>@|\.\#\.|\.\.\.|\.x\.|\.o\.|\.[ulir]|\|\||//|\\\\|\\/|->|=>|,,|[][()|/\\&\-~$*+^:;,?_])
  | (?P<run>(?:%[^\t\n]|[^][(){}|/\\&\-~$*+^:;,?_.<>=!\#@"% \t\n])+)''', re.X)
TWOLC_RUN = r'(?:%[^\t\n]|[^][()|/\\&\-~$*+^:;_.<>=!"%? \t\n])+'
TWOLC = re.compile(r'''(?P<blank>[ \t\n]+|![^\n]*) | (?P<quoted>"[^"]*")
  | (?P<atom>(?:%s|\?)(?::(?:%s|\?)?)?|:(?:%s|\?))
  | (?P<sign><=>|/<=|<=|=>|\.\#\.|[][()|&\-~\\$*+^/;_=])''' % (TWOLC_RUN, TWOLC_RUN, TWOLC_RUN), re.X)


class Token:
    """A word or sign of a text: its kind, how it is written, the symbol that it stands for, its line, and where it begins and ends."""

    def __init__(self, kind, text, line, start, end):
        self.kind, self.text, self.line, self.start, self.end = kind, text, line, start, end
        self.symbol = unescaped(text) if kind == 'run' else text[1:-1] if kind == 'quoted' else text
        self.is_plain = kind == 'run' and '%' not in text


def unescaped(text):
    return re.sub(r'%(.)', r'\1', text, flags=re.S)


def text_of(path):
    """A file's text as it is read: without a byte order mark, with plain line ends, in Normalization Form C."""
    with open(path, encoding='utf-8', newline='') as file:
        text = file.read()
    return unicodedata.normalize('NFC', text[1:] if text.startswith('\ufeff') else text).replace('\r\n', '\n')


def tokens_of(pattern, text, line=1):
    found, at = [], 0
    while at < len(text):
        match = pattern.match(text, at)
        if match is None:
            at += 1
            continue
        if match.lastgroup != 'blank':
            found.append(Token(match.lastgroup, match[0], line, at, match.end()))
        line += match[0].count('\n')
        at = match.end()
    return found


class Definition:
    """A name with its file, its line, its text and the tokens of its expression."""

    def __init__(self, name, file, line, tokens):
        self.name, self.file, self.line, self.tokens = name, file, line, tokens


class Xfst:
    def __init__(self, file, text):
        self.file, self.text, self.definitions, statement = file, text, [], []
        for token in tokens_of(XFST, text):
            if token.text == ';' and token.kind == 'sign':
                if len(statement) > 1 and statement[0].text == 'define':
                    self.definitions.append(Definition(statement[1].text, file, statement[0].line, statement[2:]))
                statement = []
            else:
                statement.append(token)


class Entry:
    """An entry of a lexicon: its line, the letters of its sides with whether each was escaped, or its expression, and the lexicon in which
    it goes on, None where it ends."""

    def __init__(self, line, sides, expression, goes_on):
        self.line, self.sides, self.expression, self.goes_on = line, sides, expression, goes_on


class Lexc:
    def __init__(self, file, text):
        self.file, self.declared, self.lexicons, self.entries = file, [], {}, {}
        self.read(list(lexc_words(text)))

    def read(self, words):
        at = 0
        if words and plain(words[0]) == 'Multichar_Symbols':
            at = 1
            while at < len(words) and plain(words[at]) not in ('LEXICON', 'END'):
                self.declared.append((letters_of(words[at]), words[at][1]))
                at += 1
        name = None
        while at < len(words) and plain(words[at]) != 'END':
            if plain(words[at]) == 'LEXICON':
                name = letters_of(words[at + 1])
                self.lexicons[name] = words[at][1]
                self.entries[name] = []
                at += 2
                continue
            end = at
            while end < len(words) and words[end][0] != 'end':
                end += 1
            self.entries.setdefault(name, []).append(entry_of(words[at:end]))
            at = end + 1

    def forms(self):
        """Each entry with each of its sides as it is cut, and whether it is of the upper side, of the lower one or of both."""
        declared = [text for text, _ in self.declared]
        for entry in self.all_entries():
            names = ('both',) if len(entry.sides) == 1 else ('upper', 'lower')
            for name, side in zip(names, entry.sides):
                yield entry, name, symbols_of_form(side, declared)

    def all_entries(self):
        return [entry for entries in self.entries.values() for entry in entries]


def plain(word):
    """A word as it is written, where no character of it is escaped."""
    kind, _, letters = word
    return ''.join(c for c, _ in letters) if kind == 'word' and not any(e for _, e in letters) else None


def letters_of(word):
    return ''.join(c for c, _ in word[2]) if word[0] == 'word' else ''


def entry_of(words):
    form, goes_on = (words[0], words[1]) if len(words) > 1 else (None, words[0])
    line, goes_on = words[0][1], None if plain(goes_on) == '#' else letters_of(goes_on)
    if form is None:
        return Entry(line, [], None, goes_on)
    if form[0] == 'expression':
        return Entry(line, [], tokens_of(XFST, form[2], line), goes_on)
    letters = form[2]
    cut = letters.index((':', False)) if (':', False) in letters else None
    sides = [letters] if cut is None else [letters[:cut], letters[cut + 1:]]
    return Entry(line, sides, None, goes_on)


def lexc_words(text):
    """The words of a lexc text: ('word', line, letters with whether each is escaped), ('expression', line, text), ('end', line, [])."""
    at, line, letters, begun, first = 0, 1, [], 1, True
    declares, names, at_start = False, False, True
    while at < len(text):
        c = text[at]
        if c == '<' and first and not letters:
            end = end_of_expression(text, at + 1)
            yield 'expression', line, text[at + 1:end]
            line += text.count('\n', at, end)
            at, first = end + 1, False
            continue
        if c in ' \t\n;!':
            if letters:
                yield 'word', begun, letters
                told = plain(('word', begun, letters))
                declares = declares or told == 'Multichar_Symbols' and first
                # a lexicon's name ends its statement, as `;` does an entry
                first = names
                names = told == 'LEXICON' and not names and (declares or at_start)
                declares, at_start = declares and not first, first
                letters = []
            if c == ';':
                yield 'end', line, []
                first = at_start = True
            elif c == '!':
                at = text.find('\n', at) if '\n' in text[at:] else len(text)
                continue
            line += c == '\n'
            at += 1
            continue
        if not letters:
            begun = line
        if c == '%' and at + 1 < len(text):
            letters.append((text[at + 1], True))
            at += 2
        else:
            letters.append((c, False))
            at += 1
    if letters:
        yield 'word', begun, letters


def end_of_expression(text, at):
    is_braced = False
    while at < len(text) and text[at] != '>':
        if text[at] == '%':
            at += 2
        elif text[at] == '"' and not is_braced:
            at = text.find('"', at + 1) + 1 or len(text)
        elif text[at] == '!' and not is_braced:
            at = text.find('\n', at) if '\n' in text[at:] else len(text)
        else:
            is_braced = text[at] == '{' or is_braced and text[at] != '}'
            at += 1
    return at


def symbols_of_form(letters, declared):
    """How a form is cut: its symbols, flags and single characters, each with how many letters it takes."""
    text, at, found = ''.join(c for c, _ in letters), 0, []
    longest = sorted(declared, key=len, reverse=True)
    while at < len(text):
        flag = FLAG.match(text, at)
        symbol = next((s for s in longest if text.startswith(s, at)), '')
        if flag and len(flag[0]) > len(symbol):
            found.append(('flag', flag[0]))
            at = flag.end()
        elif symbol:
            found.append(('symbol', symbol))
            at += len(symbol)
        else:
            if letters[at] != ('0', False):
                found.append(('letter', text[at]))
            at += 1
    return found


class Twolc:
    """A grammar: pairs of its alphabet, its sets, its definitions and rules, the last two as token lists."""

    def __init__(self, file, text):
        self.file, self.text = file, text
        self.alphabet, self.sets, self.definitions, self.rules = [], {}, {}, []
        section, statement = None, []
        for token in tokens_of(TWOLC, text):
            if not statement and token.text in ('Alphabet', 'Sets', 'Definitions', 'Rules'):
                section = token.text
            elif section == 'Rules' and token.kind == 'quoted':
                self.rules.append((token, []))
                statement = []
            elif section == 'Rules' and self.rules:
                self.rules[-1][1].append(token)
            elif token.text == ';' and token.kind == 'sign':
                self.statement(section, statement)
                statement = []
            else:
                statement.append(token)

    def statement(self, section, words):
        if section == 'Alphabet':
            self.alphabet += words
        elif len(words) > 1 and section == 'Sets':
            self.sets[unescaped(words[0].text)] = words[2:]
        elif len(words) > 1:
            self.definitions[unescaped(words[0].text)] = words[2:]


def sides_of(atom):
    """Both sides of an atom, as (text, whether it is plain); None for a side that is left out. An atom without colon has one side."""
    sides, at = [], 0
    for match in re.finditer(r'%.|:|[^%:]', atom, re.S):
        if match[0] == ':':
            sides.append(atom[at:match.start()])
            at = match.end()
    sides.append(atom[at:])
    return [(unescaped(side), '%' not in side) if side else None for side in sides]


class Project:
    """The files that a folder's manifest names, read by their kinds."""

    def __init__(self, folder):
        self.folder, self.xfst, self.lexc, self.twolc = folder, [], [], []
        self.required, self.alphabet, self.names, self.has_require = {}, [], {}, False
        self.manifest = text_of(os.path.join(folder, 'project'))
        for line, words in enumerate(self.manifest.split('\n'), 1):
            words = words.replace('\t', ' ')
            first, *rest = [unescaped(w) for w in re.findall(r'(?:%.|[^ %])+', words)] or ['!']
            if first == 'xfst':
                self.xfst.append(Xfst(rest[0], self.text(rest[0])))
                self.names.update((it.name, (it.file, it.line)) for it in self.xfst[-1].definitions)
            elif first == 'lexc':
                self.lexc.append(Lexc(rest[1], self.text(rest[1])))
                self.names[rest[0]] = 'project', line
            elif first == 'twolc':
                self.twolc.append(Twolc(rest[1], self.text(rest[1])))
                self.names[rest[0]] = 'project', line
            elif first == 'require':
                self.has_require = True
                self.required.update((name, line) for name in rest)
            elif first == 'alphabet':
                self.alphabet += rest

    def text(self, file):
        return text_of(os.path.join(self.folder, file))

    def expressions(self):
        """Each expression of the xfst files and of the entries of lexicons: its file and its tokens."""
        for it in self.xfst:
            for definition in it.definitions:
                yield it.file, definition.tokens
        for it in self.lexc:
            for entry in it.all_entries():
                if entry.expression:
                    yield it.file, entry.expression
