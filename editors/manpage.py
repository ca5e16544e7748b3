#!/usr/bin/env python3
"""Writes a man page of the program, made from docs/FORMATS.md: its words, what they do, the replies to a line, and the statuses.

usage: editors/manpage.py | man -l -
       editors/manpage.py > ~/.local/share/man/man1/morph.1
"""
import os
import re
import sys

ROOT = os.path.dirname(os.path.dirname(os.path.abspath(__file__)))
# The sections of docs/FORMATS.md that the page takes, and what they are called in it.
SECTIONS = (('Words', 'DESCRIPTION'), ('Replies to a line of `up` or `down`', 'REPLIES OF UP, DOWN AND ATTUP'), ('Replies to a line of `gloss`', 'REPLIES OF GLOSS'),
            ('Replies to a line of `pairs`', 'REPLIES OF PAIRS'), ('What `equal` and `within` say', 'WHAT EQUAL AND WITHIN SAY'),
            ('Commands of an editor', 'COMMANDS OF SERVE'), ('Lanes', 'LANES OF SERVE'), ('AT&T text', 'AT&T TEXT'), ('What `att` writes', 'WHAT ATT WRITES'),
            ('What `attup` answers', 'WHAT ATTUP ANSWERS'), ('Statuses', 'EXIT STATUS'))
FILES = (('DIR/project', 'The manifest of a project: which files it has.'),
         ('docs/FORMATS.md', 'Every form, reply, refusal and limit.'),
         ('docs/CHECKING.md', 'Files of tests, and warnings: ./expect and ./lint.'),
         ('docs/ASKING.md', 'What may be asked of a network, and what should hold of it.'))


def sections(text):
    """The sections of a page: each heading with its lines."""
    found, lines = {}, []
    for line in text.split('\n'):
        if line.startswith('#'):
            lines = found.setdefault(line.lstrip('#').strip(), [])
        else:
            lines.append(line)
    return found


def escaped(text):
    text = text.replace('\\', '\\e').replace('-', '\\-')
    return '\\&' + text if text[:1] in ('.', "'") else text


def written(text):
    """A text with its code in bold, and links without where they lead."""
    text = re.sub(r'\[([^]]*)\]\([^)]*\)', r'\1', text)
    parts = re.split(r'(`` .*? ``|`[^`]*`)', text)
    made = ''.join('\\fB%s\\fR' % escaped(part.strip('` ') if part.startswith('``') else part[1:-1]) if part.startswith('`')
                   else re.sub(r'\*(\w+)\*', r'\\fI\1\\fR', escaped(part)) for part in parts if part)
    return '\\&' + made if made[:1] in ('.', "'") else made


def cells(line):
    """The cells of a table's line."""
    return [it.strip().replace('\\|', '|') for it in re.split(r'(?<!\\)\|', line.strip())[1:-1]]


def body(lines):
    """Paragraphs, indented lines and tables, in roff. A table's first column is a tag, and the others stand behind it."""
    made, paragraph, in_table, heads = [], [], False, []
    for line in [*lines, '']:
        if line.startswith('- '):
            made += ['.PP', written(' '.join(paragraph))] if paragraph else []
            paragraph = []
        is_row = line.startswith('|')
        if paragraph and (not line or is_row or line.startswith('    ')):
            made += ['.PP', written(' '.join(paragraph))]
            paragraph = []
        if is_row:
            first, *others = cells(line)
            if not in_table:
                heads = [first, *others]
            others = ['status ' + it if head == 'status' else head + ': ' + it if len(heads) > 3 and it else it for it, head in zip(others, heads[1:])]
            if in_table and not set(first) <= set('-: '):
                made += ['.TP', written(first) or '\\&', written('; '.join(filter(None, others))) or '\\&']
            in_table = True
        elif line.startswith('!['):
            continue
        elif line.startswith('    '):
            made += ['.RS', '.nf', escaped(line[4:]), '.fi', '.RE']
        elif line:
            paragraph.append(line)
        in_table = in_table and is_row
    return made


def main():
    with open(os.path.join(ROOT, 'docs', 'FORMATS.md'), encoding='utf-8') as page:
        found = sections(page.read())
    lacks = [heading for heading, _ in SECTIONS if heading not in found]
    if lacks:
        sys.exit('editors/manpage.py: docs/FORMATS.md has no section %s' % ', '.join(lacks))
    forms = [line[4:] for line in found['Words'] if line.startswith('    ')]
    made = ['.\\" made by editors/manpage.py from docs/FORMATS.md', '.TH MORPH 1', '.SH NAME', 'morph \\- a workbench for finite\\-state morphology', '.SH SYNOPSIS', '.nf']
    made += ['\\fBmorph\\fR ' + re.sub(r'\b([A-Z]+)\b', r'\\fI\1\\fR', escaped(form)).replace(form.split()[0], '\\fB%s\\fR' % form.split()[0], 1) for form in forms]
    made += ['\\fBmorph serve\\fR \\fIDIR\\fR \\-\\- \\fIPATH\\fR ..', '.fi']
    for heading, name in SECTIONS:
        lines = found[heading]
        if heading == 'Words':
            lines = [line for line in lines if not line.startswith('    ')]
        made += ['.SH ' + name, *body(lines)]
    made += ['.SH FILES']
    for file, text in FILES:
        made += ['.TP', '\\fB%s\\fR' % escaped(file), escaped(text)]
    print('\n'.join(made))


if __name__ == '__main__':
    main()
