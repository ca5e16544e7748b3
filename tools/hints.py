"""What to write in the place of what a refusal tells of, where it is among what is often written for foma and hfst: docs/FORMATS.md has these as a table."""
import re

import sources

# Words by which statements of xfst, foma and hfst-xfst scripts begin, and no statement here.
COMMANDS = ('add apply clear compose concatenate crossproduct determinize down echo eliminate export factorize foreach ignore inspect intersect invert letter load lower '
            'medium minimize negate one pop print priority prune push quit random read regex reverse rotate save set shortest shuffle sigma sort source substitute system test '
            'turn undefine union up upper view words write zero').split()
DIRECTED = r'(?:@->|@>|->@|>@)'
# A pattern of the text of a statement, and what to write.
XFST = [
    (r'regex\b', 'there is no stack: write "define NAME EXPRESSION ;" and ask for NAME'),
    (r'read\s+lexc\b', 'write a line "lexc NAME FILE" into project'),
    (r'read\s+att\b', 'ask with "attup DIR FILE"'),
    (r'(?:source|load\s+defined)\b', 'write a line "xfst FILE" into project, for a file of definitions alone'),
    (r'save\b', 'leave it out: a run compiles its sources. "att DIR NAME" writes a network'),
    (r'write\s+att\b', 'leave it out, and run "att DIR NAME"'),
    (r'(?:%s)\b(?!\s*[;|&-]?\s*define)' % '|'.join(COMMANDS), 'leave it out: a file has definitions alone. docs/ASKING.md says how questions are asked'),
    (r'(?!define\b)(?i:define)\b', 'write "define" in small letters'),
    (r'define\s+[^\s;]*_', 'write the name without "_", which stands in contexts alone'),
    (r'define\s+[^\s;(]+\(', 'write the definition once for each use: it has no parameters'),
    (r'define\s+[^\s;]+\s*(?:;|$)', 'write its expression; where "read lexc" stood before it, leave it out: a line "lexc NAME FILE" of project defines NAME'),
    (r'.*\^\{', '"E^{m,n}" is "E^m (E)^k", where k is n less m'),
    (r'.*\^[<>]', '"E^>n" is "E^n E+", and "E^<n" is "(E)^k", where k is n less 1'),
    (r'.*\.[Pp]\.', 'priority union: "A .P. B" is "A | [[B.u - A.u] .o. B]", and "A .p. B" is "A | [B .o. [B.l - A.l]]"'),
    (r'.*<-', '"a <- b" is "[b -> a].i"'),
    (r'.*\$\.', '"$.E" is "$E - $[E ?* E]" where E is a symbol'),
    (r'.*@[A-Z]\.\S*@', 'leave flags out: they stand in lexc files alone'),
    (r'.*"[^"]*\\', 'no symbol has a backslash, a tab or a line break'),
    (r'.*@"', 'write the name of a definition in the place of a file'),
    (r'.*\(\s*%s\s*\)' % DIRECTED, 'there is no directed arrow that may leave a match'),
    (r'(?=.*%s).*(?://|\\\\|\\/|,,|\[\.\.\])' % DIRECTED, 'a directed rule has mappings joined by ",", and contexts behind "||" alone'),
    (r'.*[*+]:', 'write brackets, "[a+]:b": a suffix binds looser than ":"'),
    (r'.*(?:^|[\s\[(|])\+[^\W_]', 'write "+Tag" in quotes: a "+" without them is a suffix'),
    (r'.*[{"]', 'close what this line opens: a brace or a quote'),
]
LEXC = [
    (r'.*"\s*(?:;|$)', 'leave the text behind the entry out: glosses stand in a file of their own'),
    (r'(?:.*\s)?Definitions\b|.*\s=\s', 'write definitions into an xfst file, as "define NAME EXPRESSION ;": expressions of entries use its names'),
    (r'<.*(?:->|=>|%s)' % DIRECTED, 'define the rule in an xfst file, and write its name between "<" and ">"'),
    (r'(?!LEXICON\b)(?i:lexicon)\b', 'write "LEXICON" in capitals'),
    (r'(?!Multichar_Symbols\b)(?i:multichar_symbols)\b', 'write "Multichar_Symbols", before the first lexicon'),
    (r'#', 'begin comments with "!"'),
    (r'[^\s;%]*:[^\s;%]*:', 'write "%:" for a colon that is a letter'),
    (r'[^;]*$|\S+\s+#\s+[^\s;]', 'end the entry with ";"'),
    (r'(?:\S+\s+){2}\S+\s*;', 'write "%" before a blank in a form: an entry is "FORM NEXT ;"'),
]
TWOLC = [
    (r'Diacritics\b', 'leave it out, and write each of its symbols into the alphabet with nothing below, as "%^:0"'),
    (r'Rule-variables\b', 'write a rule for each value'),
    (r'(?:.*\s)?where\b', 'write a rule for each value of the variable: there is no "where"'),
    (r'"[^"]*"\s*\[', 'write a rule for each pair: a rule has one centre'),
    (r'[^"]*(?:<=>|/<=|<=|=>)', 'write the name of the rule before it, in quotes'),
    (r'(?:Rules|Sets|Definitions)\b', 'write the alphabet first, with all pairs that may be used'),
    (r'[^"=;]*=[^;]*\.#\.', 'write ".#." into the contexts: a definition has none'),
    (r'[^;]*$', 'end each context with ";"'),
]
MANIFEST = [
    (r'(?:lexc|twolc)\s+\S+\s*$', 'write a name before the file, as "lexc Lexicon FILE"'),
    (r'\s*#', 'begin comments with "!"'),
    (r'.*;', 'leave the ";" out'),
    (r'xfst\s+\S+\s+\S', 'write a line for each file'),
    (r'.*/', 'write a file of the folder itself, without "/"'),
    (r'(?!xfst\b|lexc\b|twolc\b|gloss\b|alphabet\b|require\b)(?i:xfst|lexc|twolc|gloss|alphabet|require)\b', 'write the first word in small letters'),
    (r'', 'a line begins with "xfst", "lexc", "twolc", "gloss", "alphabet", "require" or "!"'),
]
# What to write by the reason alone.
BY_REASON = {
    'unknown-lexicon': 'each entry names the lexicon in which it goes on, or "#" where it ends, as "cat # ;"; the first lexicon is "Root"',
    'empty-centre': 'a rule replaces no empty word: write "a+" for "a*"; "[..] -> b" inserts',
    'not-a-language': 'take a side of the relation, by ".u" or ".l"',
    'cycle': 'no definition comes back to itself by names',
    'unknown-name': 'no definition, and no "lexc" or "twolc" line, has this name',
    'no-file': 'the folder has no such file',
    'no-project': 'a project is a folder with a file "project" that names its sources',
}
REFUSED = re.compile(r'refused (\S+) ([0-9]+) (\S+)')


def statement(text, line, is_twolc):
    """The text of a file from a line on, without comments and on one line, to its first `;`, or to the next rule of two levels."""
    lines = [re.sub(r'(?<!%)!.*', '', it) for it in text.split('\n')[max(line - 1, 0):]]
    if is_twolc:
        behind = next((i for i, it in enumerate(lines) if i and it.lstrip().startswith('"')), len(lines))
        return ' '.join(lines[:behind]).strip()
    return ' '.join(' '.join(lines).strip().partition(';')[:2]).strip()


def patterns_of(manifest, file):
    """The patterns of a file, by the line of the manifest that names it."""
    if file == 'project':
        return MANIFEST
    kinds = {words[-1]: words[0] for words in (it.split() for it in manifest.split('\n')) if len(words) > 1}
    return {'xfst': XFST, 'lexc': LEXC, 'twolc': TWOLC}.get(kinds.get(file), ())


def hint(refusal, text_of):
    """What to write where the program said this, as a line, or nothing; text_of gives the text of a file."""
    match = REFUSED.match(refusal)
    if match is None:
        return ''
    file, line, reason = match[1], int(match[2]), match[3]
    found = BY_REASON.get(reason)
    if reason in ('statement', 'token'):
        patterns, text = patterns_of(text_of('project'), file), text_of(file)
        text = text.split('\n')[line - 1] if patterns is MANIFEST else statement(text, line, patterns is TWOLC)
        found = next((told for pattern, told in patterns if re.match(pattern, text)), None)
    elif reason == 'duplicate':
        found = 'a name is defined once in all files, a lexicon or set declared once in its file, and a file named once'
    return 'hint %s %d %s\n' % (file, line, found) if found else ''


def of_folder(folder, refusal):
    try:
        return hint(refusal, lambda file: sources.text_of('%s/%s' % (folder, file)))
    except (OSError, UnicodeDecodeError):
        return ''
