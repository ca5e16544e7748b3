"""What `./lint` warns of: docs/CHECKING.md lists the warnings, each with an example."""
import collections
import itertools
import os
import re
import shutil
import tempfile

import hints
import pair_tests
import program
import sources
import tests

# The words by which the statements and sections of the formats, or of their kin in other programs, begin.
KEYWORDS = {
    'xfst': {'define', 'regex', 'read', 'source', 'save', 'load', 'push', 'pop', 'undefine'},
    'twolc': {'Alphabet', 'Diacritics', 'Sets', 'Definitions', 'Rules', 'except', 'where', 'matched', 'mixed', 'freely', 'define'},
}
TAG = re.compile(r'\+[A-Z0-9][A-Za-z0-9]*|<[^<>\s]+>|\{[^{}\s]+\}')
FLAG_LIKE = re.compile(r'@[A-Z]\.[^@\s]*@')
BEGINS = ('||', '//', '\\\\', '\\/', '=>')
OPENS, CLOSES = ('[', '('), (']', ')')
ENDS = (',', ',,', '.o.', '.x.', *CLOSES)
MARK = '@lint@'
MOST_NAMES = 512


class Warnings:
    def __init__(self):
        self.found = []

    def add(self, file, line, kind, detail):
        self.found.append((file, line, kind, detail))


def counts(project):
    """How often each symbol of several letters stands in the project, in any of its files."""
    count = collections.Counter(sources.unescaped(it) for it in project.alphabet)
    for _, tokens in project.expressions():
        count.update(it.symbol for it in tokens if it.kind in ('run', 'quoted') and not (it.is_plain and it.text in project.names))
    for it in project.lexc:
        for _, _, form in it.forms():
            count.update(text for kind, text in form if kind == 'symbol')
    for it in project.twolc:
        count.update(side[0] for atom in atoms_of(it) for side in sources.sides_of(atom.text) if side)
    return count


def atoms_of(grammar):
    bodies = [grammar.alphabet, *grammar.sets.values(), *grammar.definitions.values(), *(body for _, body in grammar.rules)]
    return [token for body in bodies for token in body if token.kind == 'atom']


def bare(token, names):
    """Whether this is a symbol of several letters that is written as names are."""
    return token.is_plain and len(token.text) > 1 and token.text not in names and not re.fullmatch('[0-9]+', token.text)


def is_tight(text, token):
    """Whether a sign + stands behind a blank and before a letter."""
    return token.text == '+' and text[token.start - 1:token.start] in (' ', '\t', '\n') and re.match(r'[^\W_]', text[token.end:token.end + 1])


def look_at_xfst(project, warnings):
    count = counts(project)
    for it in project.xfst:
        for definition in it.definitions:
            met = {id(token) for part in contexts_of(definition.tokens) for token in part}
            for token, behind in zip(definition.tokens, [*definition.tokens[1:], None]):
                if token.kind == 'sign' and is_tight(it.text, token):
                    warnings.add(it.file, token.line, 'suffix', '+' + behind.text)
                elif bare(token, project.names) and token.text in KEYWORDS['xfst']:
                    warnings.add(it.file, token.line, 'keyword', token.text)
                elif count[token.symbol] == 1 and len(token.symbol) > 1 and token.kind in ('run', 'quoted'):
                    if bare(token, project.names) or id(token) in met and not token.is_plain:
                        warnings.add(it.file, token.line, 'once', token.text)


def look_at_names(project, files, warnings):
    """Names that no definition uses, no line of the manifest requires and no test looks up. Where nothing is required, nothing is said."""
    if not project.has_require:
        return
    used = set(project.required) | {word.look.split(' ')[1] for _, words, _ in files for word in words}
    for definition in (it for file in project.xfst for it in file.definitions):
        used |= {token.text for token in definition.tokens if token.is_plain and token.text != definition.name}
    for it in project.lexc:
        used |= {token.text for entry in it.all_entries() for token in entry.expression or () if token.is_plain}
    for name, (file, line) in project.names.items():
        if name not in used:
            warnings.add(file, line, 'unused-name', name)


def look_at_lexc(project, warnings):
    count = counts(project)
    for it in project.lexc:
        for text, line in it.declared:
            if not sources.FLAG.fullmatch(text) and len(text) > 1 and not count[text]:
                warnings.add(it.file, line, 'unused-symbol', text)
        look_at_forms(it, warnings)
        look_at_paths(it, warnings)
        look_at_flags(it, warnings)


def look_at_forms(it, warnings):
    """Texts in forms that look like a tag or a flag, and are cut into their characters, or into a shorter symbol and characters."""
    told = set()
    for entry, _, form in it.forms():
        rest = ''.join(text if kind == 'letter' else '\n' for kind, text in form)
        found = [('undeclared', text) for text in [*TAG.findall(rest), *longer_tags(form)]] + [('no-flag', text) for text in FLAG_LIKE.findall(rest)]
        for kind, text in found:
            if text not in told:
                warnings.add(it.file, entry.line, kind, text)
            told.add(text)


def longer_tags(form):
    """Texts of a form that look like a tag and begin with a shorter symbol: `+Num`, where `+N` is declared."""
    for at, (kind, text) in enumerate(form):
        if kind == 'symbol' and TAG.fullmatch(text) and text[0] == '+':
            behind = itertools.takewhile(lambda it: it[0] == 'letter' and re.fullmatch('[A-Za-z0-9]', it[1]), form[at + 1:])
            letters = ''.join(it[1] for it in behind)
            if letters:
                yield text + letters


def look_at_paths(it, warnings):
    """Lexicons that no path from Root comes to, and lexicons from which none comes to its end."""
    reached, left = {'Root'}, ['Root']
    while left:
        for entry in it.entries.get(left.pop(), ()):
            if entry.goes_on is not None and entry.goes_on not in reached:
                reached.add(entry.goes_on)
                left.append(entry.goes_on)
    ends, size = {None}, 0
    while len(ends) > size:
        size = len(ends)
        ends |= {name for name, entries in it.entries.items() if any(entry.goes_on in ends for entry in entries)}
    for name, line in it.lexicons.items():
        if name not in reached:
            warnings.add(it.file, line, 'unreached', name)
        elif name not in ends:
            warnings.add(it.file, line, 'no-end', name)


def look_at_flags(it, warnings):
    """Features that are set and never tested, and tests of a value that is never set. Each side has its own flags."""
    found = collections.defaultdict(list)
    for side in 'upper', 'lower':
        sets, barred, tested, set_first, needed = collections.defaultdict(set), set(), set(), {}, {}
        for entry, name, form in it.forms():
            for text in (text for kind, text in form if kind == 'flag' and name in (side, 'both')):
                kind, feature, *value = text[1:-1].split('.')
                if kind in 'PU':
                    sets[feature].add(value[0])
                if kind == 'N':
                    barred.add(feature)
                if kind in 'RDU':
                    tested.add(feature)
                if kind in 'PN':
                    set_first.setdefault(feature, (entry.line, text))
                if kind == 'R':
                    needed.setdefault((feature, *value), (entry.line, text))
        for feature, (line, text) in set_first.items():
            if feature not in tested:
                found[line, 'untested-flag', text].append(side)
        for (feature, *value), (line, text) in needed.items():
            if (value[0] not in sets[feature] if value else not sets[feature] and feature not in barred):
                found[line, 'unset-flag', text].append(side)
    for (line, kind, text), sides in found.items():
        warnings.add(it.file, line, kind, text if len(sides) == 2 else '%s %s' % (text, *sides))


def look_at_twolc(project, warnings):
    for it in project.twolc:
        names = set(it.sets) | set(it.definitions)
        declared = {pair_of(token.text) for token in it.alphabet}
        centres = [body[0] for _, body in it.rules if body and body[0].kind == 'atom']
        bodies = [token for body in [*it.definitions.values(), *(body[2:] for _, body in it.rules)] for token in without_powers(body)]
        written = {pair_of(token.text) for token in bodies if is_pair(token.text, names)}
        feasible = declared | written | {pair_of(token.text) for token in centres}
        told = set()
        for token in bodies:
            sides = sources.sides_of(token.text)
            if len(sides) == 1 and sides[0][1] and sides[0][0] in KEYWORDS['twolc'] and pair_of(token.text) not in declared:
                warnings.add(it.file, token.line, 'keyword', token.text)
            elif is_pair(token.text, names) and pair_of(token.text) not in declared | {pair_of(c.text) for c in centres}:
                if token.text not in told:
                    warnings.add(it.file, token.line, 'undeclared', token.text)
                told.add(token.text)
            elif not is_pair(token.text, names) and not any(fits(it, names, sides, pair) for pair in feasible):
                warnings.add(it.file, token.line, 'no-pair', token.text)


def without_powers(body):
    """The atoms of an expression over pairs, without the numbers of `^n`."""
    return [token for before, token in zip([None, *body], body) if token.kind == 'atom' and not (before and before.text == '^')]


def is_pair(atom, names):
    """Whether an atom is one pair, and no name, no side left out and no `?`."""
    sides = sources.sides_of(atom)
    return all(side and side != ('?', True) and not (side[1] and side[0] in names) for side in sides)


def pair_of(atom):
    """The pair of an atom: two symbols, None for the zero."""
    sides = [None if side == ('0', True) else side[0] for side in sources.sides_of(atom)]
    return sides[0], sides[-1]


def fits(grammar, names, sides, pair):
    """Whether an atom with a name, a `?` or a side left out is this pair, or may be."""
    if len(sides) == 1:
        name = sides[0][0]
        if sides[0] == ('?', True) or name in grammar.definitions:
            return True
        return any(pair_of(token.text) == pair for token in grammar.sets[name])
    for side, symbol in zip(sides, pair):
        if side is None or side == ('?', True):
            continue
        text, is_plain = side
        if is_plain and text in grammar.sets:
            if symbol not in [sources.unescaped(token.text) for token in grammar.sets[text]]:
                return False
        elif symbol != (None if side == ('0', True) else text):
            return False
    return True


def contexts_of(tokens):
    """The contexts of the rules and restrictions of an expression, as their tokens."""
    # where the context in hand begins, for each open bracket
    begins = [None]
    for at, text in enumerate([*(token.text if token.kind == 'sign' else '' for token in tokens), ',,']):
        if text in ENDS and begins[-1] is not None:
            yield tokens[begins[-1]:at]
        if text in OPENS:
            begins.append(None)
        elif text in CLOSES and len(begins) > 1:
            begins.pop()
        elif text in BEGINS or text == ',' and begins[-1] is not None:
            begins[-1] = at + 1
        elif text in ENDS:
            begins[-1] = None


def written(tokens):
    return ' '.join(token.text for token in tokens)


def look_at_contexts(project, warnings):
    """Contexts that hold at no place of any word. Each is asked of the program: whether some word has a mark, which stands once in it, in
    this context."""
    asked = []
    for it in project.xfst:
        for definition in it.definitions:
            for part in contexts_of(definition.tokens):
                middle = next((i for i, token in enumerate(part) if token.text == '_' and token.kind == 'sign'), None)
                if middle is not None:
                    asked.append((it.file, part[middle].line, written(part[:middle]), written(part[middle + 1:])))
    room = MOST_NAMES - len(project.names)
    asked = [it for it in dict.fromkeys(asked) if it[2] or it[3]][:max(room, 0)]
    if not asked or len(project.xfst) + len(project.lexc) + len(project.twolc) >= 63:
        return
    prefix = 'Lint'
    while any(name.startswith(prefix) for name in project.names):
        prefix += 'x'
    with tempfile.TemporaryDirectory(prefix='lint-') as folder:
        copy = os.path.join(folder, 'project')
        os.mkdir(copy)
        for name in os.listdir(project.folder):
            if os.path.isfile(os.path.join(project.folder, name)):
                shutil.copy(os.path.join(project.folder, name), copy)
        with open(os.path.join(copy, 'project'), 'w', encoding='utf-8') as file:
            file.write(project.manifest.rstrip('\n') + '\nxfst lint-contexts.xfst\n')
        with open(os.path.join(copy, 'lint-contexts.xfst'), 'w', encoding='utf-8') as file:
            for i, (_, _, left, right) in enumerate(asked):
                file.write('define %s%d [ [ \\"%s" ]* "%s" [ \\"%s" ]* & [ "%s" => %s _ %s ] ] .x. 0 ;\n' % (
                    prefix, i, MARK, MARK, MARK, MARK, left, right))
        status, said = program.answers(copy, ['up %s%d ' % (prefix, i) for i in range(len(asked))])
    if status == 0:
        for (file, line, left, right), (kind, _) in zip(asked, said):
            if kind == '0':
                warnings.add(file, line, 'empty-context', ' '.join(filter(None, (left, '_', right))))


def tests_of(folder):
    """The files of tests that stand in the folder: the name of each, its words and its fault."""
    return [(name, *tests.read(os.path.join(folder, name))) for name in sorted(os.listdir(folder)) if name.endswith('.expect')]


def look_at_tests(files, said, warnings):
    for name, words, fault in files:
        if fault:
            warnings.add(name, fault[0], 'no-test', fault[1])
        for line, what, it, answer in tests.judged(words, said):
            warnings.add(name, line, 'fails', '%s %s: %s %s' % (it.look, it.word, what, answer))
        said = said[len(words):]


def look_at_pair_tests(project, warnings):
    """The tests in comments of two-level rules."""
    for it in project.twolc:
        path = os.path.join(project.folder, it.file)
        wanted, fault = pair_tests.read(path)
        if fault:
            warnings.add(it.file, fault[0], 'no-test', fault[1])
        if not wanted:
            continue
        net = pair_tests.name_of(project.folder, path)
        status, said = program.lines_for('pairs', project.folder, net, [test.string for test in wanted])
        for test, what, answer in pair_tests.differences(wanted, said) if status == 0 else ():
            warnings.add(it.file, test.line, 'fails', 'pairs %s %s: %s %s' % (net, test.string, what, answer))


def project(folder):
    """The status and the lines of `./lint`."""
    files = tests_of(folder) if os.path.isdir(folder) else []
    status, said = program.answers(folder, [line for _, words, _ in files for line in tests.lines_of(words)])
    if status:
        return status, said + hints.of_folder(folder, said)
    read, warnings = sources.Project(folder), Warnings()
    look_at_names(read, files, warnings)
    for look in (look_at_lexc, look_at_xfst, look_at_twolc, look_at_contexts):
        look(read, warnings)
    look_at_tests(files, said, warnings)
    look_at_pair_tests(read, warnings)
    order = ['project', *(it.file for it in [*read.lexc, *read.xfst, *read.twolc]), *(name for name, _, _ in files)]
    found = sorted(warnings.found, key=lambda it: (order.index(it[0]), it[1]))
    return (1 if found else 0), ''.join('warning %s %d %s %s\n' % it for it in found)
