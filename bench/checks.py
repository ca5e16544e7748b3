#!/usr/bin/env python3
"""Runs each command that docs/CHECKING.md shows and compares what it writes with the page, and tries ./lint, ./expect and ./draw on small
projects and texts, with what is wanted of them beside each. The first two call ./morph where it is built, else ./try.

usage: bench/checks.py
"""
import os
import subprocess
import sys
import tempfile

ROOT = os.path.dirname(os.path.dirname(os.path.abspath(__file__)))
sys.path.insert(0, os.path.join(ROOT, 'tools'))
import hints  # noqa: E402

PAGES = ('docs/CHECKING.md',)
PROMPT = '    $ '

# A name, the files of a project, and what ./lint writes of it.
LINTS = [
    ('a forgotten semicolon', {'project': 'xfst r.xfst', 'r.xfst': 'define A {a}\ndefine B {b} ;'},
     ['r.xfst 2 keyword define']),
    ('a keyword that is a name', {'project': 'xfst r.xfst', 'r.xfst': 'define read {a} ;\ndefine B read ;'}, []),
    ('an escaped keyword', {'project': 'xfst r.xfst', 'r.xfst': 'define B %define ;'}, []),
    ('a misspelt name', {'project': 'xfst r.xfst', 'r.xfst': 'define Vowel a | e ;\ndefine B b Vowl ;'}, ['r.xfst 2 once Vowl']),
    ('a symbol that stands twice', {'project': 'xfst r.xfst', 'r.xfst': 'define A ab | ab c ;'}, []),
    ('a symbol of the alphabet', {'project': 'xfst r.xfst\nalphabet ab', 'r.xfst': 'define A ab | c ;'}, []),
    ('a symbol of a lexicon', {'project': 'xfst r.xfst\nlexc L n.lexc', 'r.xfst': 'define A ab | c ;',
                               'n.lexc': 'Multichar_Symbols ab\nLEXICON Root\nab # ;'}, []),
    ('a quoted symbol that stands once', {'project': 'xfst r.xfst', 'r.xfst': 'define A {a} "+N":0 ;'}, []),
    ('a quoted symbol that a context alone has', {'project': 'xfst r.xfst', 'r.xfst': 'define A a -> b || "+N" _ ;'}, ['r.xfst 1 once "+N"']),
    ('a power is no symbol', {'project': 'xfst r.xfst', 'r.xfst': 'define A a^12 ;'}, []),
    ('a suffix and a sign', {'project': 'xfst r.xfst', 'r.xfst': 'define A a+ b ;\ndefine B a +b ;\ndefine C a + b ;\ndefine D [a b]+c ;'},
     ['r.xfst 2 suffix +b']),
    ('a comment and quotes', {'project': 'xfst r.xfst', 'r.xfst': '! define Foo\ndefine A "define" | {define} ; # define Bar'}, []),
    ('contexts', {'project': 'xfst r.xfst',
                  'r.xfst': 'define A a -> b || .#. _ , b .#. _ ;\ndefine B a => _ .#. , _ .#. a ;\ndefine C a -> b // _ [b & c] ,, c -> a \\/ b _ ;'},
     ['r.xfst 1 empty-context b .#. _', 'r.xfst 2 empty-context _ .#. a', 'r.xfst 3 empty-context _ [ b & c ]']),
    ('contexts of directed rules', {'project': 'xfst r.xfst',
                                    'r.xfst': 'define A a+ @-> b || .#. _ , b .#. _ ;\ndefine B [a @> b || _ c .#. c] .o. [a b >@ c ... || a _] ;'},
     ['r.xfst 1 empty-context b .#. _', 'r.xfst 2 empty-context _ c .#. c']),
    ('a directed rule and a symbol behind its arrow', {'project': 'xfst r.xfst', 'r.xfst': 'define A a ->@ %+Sg | %+Sg ;'}, []),
    ('a context in brackets', {'project': 'xfst r.xfst', 'r.xfst': 'define A [a -> b || a .#. _ .#.] .o. [c -> d || c _ ] ;'},
     ['r.xfst 1 empty-context a .#. _ .#.']),
    ('a context with names and a complement', {'project': 'xfst r.xfst', 'r.xfst': 'define V a | e ;\ndefine A b -> c || \\V _ ~$V .#. ;\ndefine B b -> c || V & b _ ;'},
     ['r.xfst 3 empty-context V & b _']),
    ('names without require', {'project': 'xfst r.xfst', 'r.xfst': 'define A a ;'}, []),
    ('names with require', {'project': 'xfst r.xfst\nrequire B', 'r.xfst': 'define A a ;\ndefine B b C ;\ndefine C c ;'}, ['r.xfst 1 unused-name A']),
    ('a name that a test uses', {'project': 'xfst r.xfst\nrequire B', 'r.xfst': 'define A a ;\ndefine B b ;', 't.expect': 'up A\na\ta\n'}, []),
    ('a name that a lexicon uses', {'project': 'xfst r.xfst\nlexc L n.lexc\nrequire L', 'r.xfst': 'define A a ;', 'n.lexc': 'LEXICON Root\n<A> # ;'}, []),
    ('symbols of a lexicon', {'project': 'lexc L n.lexc', 'n.lexc': 'Multichar_Symbols +N +V @P.F.x@ <a> %{B%}\nLEXICON Root\na+N:b # ;\nb+Adj # ;\nc%+Adv # ;\nd<a><n>:d{A}{B} # ;\ne+f # ;\n'},
     ['n.lexc 1 unused-symbol +V', 'n.lexc 4 undeclared +Adj', 'n.lexc 5 undeclared +Adv', 'n.lexc 6 undeclared <n>', 'n.lexc 6 undeclared {A}']),
    ('a tag that is longer than a symbol', {'project': 'lexc L n.lexc', 'n.lexc': 'Multichar_Symbols +N +Sg\nLEXICON Root\na+Num+Sg: # ;\nb+N+Sg%ä:b # ;\nc+N-d # ;\n'},
     ['n.lexc 3 undeclared +Num']),
    ('a symbol that another file uses', {'project': 'lexc L n.lexc\nxfst r.xfst', 'n.lexc': 'Multichar_Symbols +N\nLEXICON Root\na # ;', 'r.xfst': 'define A "+N" ;'}, []),
    ('lexicons', {'project': 'lexc L n.lexc', 'n.lexc': 'LEXICON Root\na X ;\nb %# ;\n<c "!" {!}> # ;\nLEXICON X\nx X ;\nLEXICON Y\ny X ;\nLEXICON %#\nz # ;\nEND\nLEXICON Z ;'},
     ['n.lexc 5 no-end X', 'n.lexc 7 unreached Y']),
    ('an expression behind symbols', {'project': 'lexc L n.lexc', 'n.lexc': 'Multichar_Symbols +N\nLEXICON Root\n<a "+N"> # ;'}, []),
    ('flags', {'project': 'lexc L n.lexc', 'n.lexc': 'LEXICON Root\na@P.F.x@ X ;\nb@U.G.x@ X ;\n@P.H.x@c:c@P.H.x@ X ;\nLEXICON X\n@R.F.x@@D.G@ # ;\n@R.F.y@ # ;\n@R.H.x@:0 # ;\n@R.I@ # ;\n'},
     ['n.lexc 4 untested-flag @P.H.x@ lower', 'n.lexc 7 unset-flag @R.F.y@', 'n.lexc 9 unset-flag @R.I@']),
    ('negative flags', {'project': 'lexc L n.lexc', 'n.lexc': 'LEXICON Root\n@N.F.x@a X ;\n@N.G.x@b X ;\n@N.H.x@c X ;\nLEXICON X\n@R.F@ # ;\n@R.G.x@ # ;\n'},
     ['n.lexc 4 untested-flag @N.H.x@', 'n.lexc 7 unset-flag @R.G.x@']),
    ('texts like flags', {'project': 'lexc L n.lexc', 'n.lexc': 'LEXICON Root\na@P.F@ # ;\nb@ # ;\n@C.F.x@ # ;\n@p.F.x@ # ;\n'},
     ['n.lexc 2 no-flag @P.F@', 'n.lexc 4 no-flag @C.F.x@']),
    ('pairs', {'project': 'twolc T t.twolc',
               't.twolc': 'Alphabet a b c:0 ;\nSets S = a d ; U = d ;\nDefinitions D = S b: ;\nRules\n"1"\na:b => D _ ; U: _ ; :0 _ ; ? _ ; S:b _ ; d: _ ;\nwhere b _ ;\n"2"\na:b /<= b:a _ ; b^12 _ ;'},
     ['t.twolc 6 no-pair U:', 't.twolc 6 no-pair d:', 't.twolc 7 keyword where', 't.twolc 9 undeclared b:a']),
    ('a pair in the alphabet that is a keyword', {'project': 'twolc T t.twolc', 't.twolc': 'Alphabet a b a:b where ;\nRules\n"1" a:b => where _ ;'}, []),
    ('tests that fail', {'project': 'xfst r.xfst', 'r.xfst': 'define A a | b:c ;', 't.expect': 'up A\na\tb\n!c\n'},
     ['t.expect 2 fails up A a: missing b', 't.expect 2 fails up A a: unexpected a', 't.expect 3 fails up A c: unexpected b']),
    ('tests of rules that fail', {'project': 'twolc T t.twolc', 't.twolc': 'Alphabet a b a:b ;\nRules\n"r" a:b => b _ ;\n!!€ a:b a\n!!$ a b\n!!€ b a:b\n!!$ ab'},
     ['t.twolc 7 no-test the next line of tests with this mark is the lower word, without blanks and colons']),
    ('tests of rules that fail, without a fault', {'project': 'twolc T t.twolc', 't.twolc': 'Alphabet a b a:b ;\nRules\n"r" a:b => b _ ;\n!!€ a:b a\n!!$ a b\n!!€ b a:b'},
     ['t.twolc 4 fails pairs T a:b a: unexpected fail 1 1 r', 't.twolc 5 fails pairs T a b: unexpected pass']),
    ('a test without a network', {'project': 'xfst r.xfst', 'r.xfst': 'define A a ;', 't.expect': 'a\ta\n'},
     ['t.expect 1 no-test a line "up NET" or "down NET" stands first']),
]
MANIFEST = 'xfst r.xfst\nlexc L n.lexc\ntwolc T t.twolc'
# A file of that manifest, what stands in it from the refused line on, the reason, and the beginning of the hint, or nothing.
HINTS = [
    ('r.xfst', 'regex a b ;', 'statement', 'there is no stack'),
    ('r.xfst', 'read lexc n.lexc', 'statement', 'write a line "lexc NAME FILE"'),
    ('r.xfst', 'define Lexicon ;', 'statement', 'write its expression'),
    ('r.xfst', 'source r.foma', 'token', 'write a line "xfst FILE"'),
    ('r.xfst', 'save stack w.bin', 'token', 'leave it out: a run compiles'),
    ('r.xfst', 'push N ;', 'statement', 'leave it out: a file has definitions alone'),
    ('r.xfst', 'invert net', 'statement', 'leave it out: a file has definitions alone'),
    ('r.xfst', 'print words', 'statement', 'leave it out: a file has definitions alone'),
    ('r.xfst', 'define N @"w.bin" ;', 'token', 'write the name of a definition'),
    ('r.xfst', 'Define N a ;', 'statement', 'write "define"'),
    ('r.xfst', 'define My_Noun {cat} ;', 'statement', 'write the name without "_"'),
    ('r.xfst', 'define Plural(X) X s ;', 'statement', 'write the definition once'),
    ('r.xfst', 'define N a^{2,3} ;', 'statement', '"E^{m,n}"'),
    ('r.xfst', 'define N a^>2 ;', 'token', '"E^>n"'),
    ('r.xfst', 'define N A .P. B ;', 'token', 'priority union'),
    ('r.xfst', 'define N a <- b ;', 'token', '"a <- b"'),
    ('r.xfst', 'define N $.a ;', 'token', '"$.E"'),
    ('r.xfst', 'define N a @-> b // x _ ;', 'statement', 'a directed rule has'),
    ('r.xfst', 'define N\n  a @-> b ,, c @-> d ;', 'statement', 'a directed rule has'),
    ('r.xfst', 'define N a (@->) b ;', 'statement', 'there is no directed arrow'),
    ('r.xfst', 'define N +a:b ;', 'statement', 'write "+Tag" in quotes'),
    ('r.xfst', 'define N a+:b ;', 'statement', 'write brackets'),
    ('r.xfst', 'define N "\\n" ;', 'token', 'no symbol has a backslash'),
    ('r.xfst', 'define N "@P.F.v@" a ;', 'token', 'leave flags out'),
    ('r.xfst', 'define N a* -> b ;', 'empty-centre', 'a rule replaces no empty word'),
    ('r.xfst', 'define N ~[a:b] ;', 'not-a-language', 'take a side'),
    ('r.xfst', 'define A b ;', 'duplicate', 'a name is defined once'),
    ('r.xfst', 'define N a ] ;', 'statement', ''),
    ('r.xfst', 'define N a ;', 'limit-weight', ''),
    ('n.lexc', 'cat # "a pet" ;', 'statement', 'leave the text behind the entry out'),
    ('n.lexc', '+N Definitions\nV = [ a | e ] ;', 'statement', 'write definitions into an xfst file'),
    ('n.lexc', 'V = [ a | e ] ;', 'statement', 'write definitions into an xfst file'),
    ('n.lexc', '< a -> b > # ;', 'statement', 'define the rule in an xfst file'),
    ('n.lexc', '< a @-> b > # ;', 'token', 'define the rule in an xfst file'),
    ('n.lexc', 'Lexicon Root', 'statement', 'write "LEXICON"'),
    ('n.lexc', '# nouns', 'statement', 'begin comments with "!"'),
    ('n.lexc', 'cat # ! a pet\ndog # ;', 'statement', 'end the entry'),
    ('n.lexc', 'a:b:c # ;', 'statement', 'write "%:"'),
    ('n.lexc', 'ice cream # ;', 'statement', 'write "%" before a blank'),
    ('n.lexc', 'cat ;', 'unknown-lexicon', 'each entry names the lexicon'),
    ('t.twolc', 'Diacritics %^ ;', 'statement', 'leave it out, and write each of its symbols'),
    ('t.twolc', '"r" a:X => c _ ;\n where X in ( b d ) ;\n"s" a:b => d _ ;', 'statement', 'write a rule for each value'),
    ('t.twolc', '"r" [ a:b | c:d ] => _ a ;', 'statement', 'write a rule for each pair'),
    ('t.twolc', 'a:b => c _ ;', 'statement', 'write the name of the rule'),
    ('t.twolc', '"r" a:b => c _\n"s" [ a:b ] => d _ ;', 'statement', 'end each context'),
    ('t.twolc', 'Rules\n"r" a:b => c _ ;', 'statement', 'write the alphabet first'),
    ('t.twolc', 'End = c [ c | .#. ] ;', 'statement', 'write ".#." into the contexts'),
    ('project', 'lexc n.lexc', 'statement', 'write a name before the file'),
    ('project', '# my project', 'statement', 'begin comments with "!"'),
    ('project', 'XFST r.xfst', 'statement', 'write the first word in small letters'),
    ('project', 'xfst r.xfst ;', 'statement', 'leave the ";" out'),
    ('project', 'xfst r.xfst s.xfst', 'statement', 'write a line for each file'),
    ('project', 'xfst rules/r.xfst', 'statement', 'write a file of the folder itself'),
    ('project', 'sources r.xfst', 'statement', 'a line begins with'),
    ('project', 'require Noun', 'unknown-name', 'no definition'),
]
# A name, the tests of a project whose names are A, for a and b below x, Loop, for any number of a, and Id, for what begins with a sign; and
# what ./expect writes of them.
TESTS = [
    ('answers', 'up A\nx\ta\nx\tb\n', ['1 as wanted, 0 not']),
    ('a missing one', 'up A\nx\ta\nx\tb\nx\tc\n', ['missing t 4 up A x: c', '0 as wanted, 1 not']),
    ('another one', 'up A\nx\ta\n', ['unexpected t 2 up A x: b', '0 as wanted, 1 not']),
    ('others', 'up A\nx\ta\nx\t...\n', ['1 as wanted, 0 not']),
    ('some answer', 'up A\nx\t...\na\t...\n', ['missing t 3 up A a: ...', '1 as wanted, 1 not']),
    ('none', 'up A\n!a\n!x\n!zz\n', ['unexpected t 3 up A x: a', 'unexpected t 3 up A x: b', '2 as wanted, 1 not']),
    ('not this one', 'up A\n!x\tc\n!x\tb\n', ['unexpected t 3 up A x: b', '0 as wanted, 1 not']),
    ('down', 'down A\na\tx\nup A\nx\ta\nx\tb\n', ['2 as wanted, 0 not']),
    ('no network', 'up B\na\tb\n', ['no-answer t 2 up B a: net', '0 as wanted, 1 not']),
    ('endless', 'up Loop\nx\t...\nx\ta\n!x\n', ['unexpected t 4 up Loop x: loop', '0 as wanted, 1 not']),
    ('endless, and some answer', 'up Loop\nx\t...\n', ['1 as wanted, 0 not']),
    ('endless, and one answer', 'up Loop\nx\ta\n', ['no-answer t 2 up Loop x: loop', '0 as wanted, 1 not']),
    ('signs at the beginning', 'up Id\n%!a\t!a\n%#\t#\n%%\t%\n', ['3 as wanted, 0 not']),
    ('the empty word', 'up Loop\n!\n', ['1 as wanted, 0 not']),
    ('comments', '# a\n\n  \nup A\n# b\n!a\n', ['1 as wanted, 0 not']),
    ('letters with accents', 'up Id\ne\u0301\t\u00e9\n', ['1 as wanted, 0 not']),
    ('a fault', 'up A\na b\n', ['refused t 2 statement: a line is "up NET", "down NET", WORD tab ANSWER, !WORD, or !WORD tab ANSWER']),
]
# A name, tests in comments of a grammar that puts e between a and b, drops c behind a and makes d of 0 behind d, and what ./expect writes of them.
PAIRS = [
    ('strings', '!!€ a 0:e b\n!!$ a b\n  !!€ a a\n!!€', ['4 as wanted, 0 not']),
    ('a string that breaks a rule', '!!€ a b', ['unexpected t.twolc 6 pairs T a b: fail 1 2 e is put in', '0 as wanted, 1 not']),
    ('one that breaks the second', '!!€ c:0 a', ['unexpected t.twolc 6 pairs T c:0 a: fail 2 1 c: drops', '0 as wanted, 1 not']),
    ('a string that breaks none', '!!$ a 0:e b', ['unexpected t.twolc 6 pairs T a 0:e b: pass', '0 as wanted, 1 not']),
    ('two sides', '!!€ a0b\n!!€ aeb\n!!$ ab\n!!$ ab', ['2 as wanted, 0 not']),
    ('two sides with something between', '!!€ ac\n! no test\n!!€ a0', ['1 as wanted, 0 not']),
    ('sides of several letters and with escapes', '!!€ d%0%:0d\n!!€ d%0%:%0d', ['1 as wanted, 0 not']),
    ('sides that break a rule', '!!€ ab\n!!€ ab', ['unexpected t.twolc 6 pairs T a:a b:b: fail 1 2 e is put in', '0 as wanted, 1 not']),
    ('sides of several lengths', '!!€ a a\n!!€ a0b\n!!€ ab', ['refused t.twolc 8 statement: the upper word has 3 symbols and the lower one 2']),
    ('one side', '!!€ a0b', ['refused t.twolc 6 statement: the next line of tests with this mark is the lower word, without blanks and colons']),
    ('a side and a string', '!!€ a0b\n!!€ a b', ['refused t.twolc 6 statement: the next line of tests with this mark is the lower word, without blanks and colons']),
    ('sides with two marks', '!!€ a0b\n!!$ aeb', ['refused t.twolc 6 statement: the next line of tests with this mark is the lower word, without blanks and colons']),
    ('a pair that may not be used', '!!$ a x', ['no-answer t.twolc 6 pairs T a x: pair 2', '0 as wanted, 1 not']),
    ('no string', '!!€ a [b]', ['no-answer t.twolc 6 pairs T a [b]: line', '0 as wanted, 1 not']),
    ('no tests', '! !!€ a b\n!€ a b', ['0 as wanted, 0 not']),
]
GRAMMAR = 'Alphabet a b c d 0:e c:0 0%: 0:%0 ;\nRules\n"e is put in" 0:e <=> a _ b ;\n"c: drops" c:0 => a _ ;\n'
# A name, an AT&T text, and the lines of states and arrows that ./draw writes of it.
DRAWN = [
    ('arcs that share an arrow', '0\t1\ta\n0\t1\tb\tc\n1\t0\td\t@0@\n1', ['0;', '1 [shape=doublecircle];', '0 -> 1 [label="a, b:c"];', '1 -> 0 [label="d:0"];']),
    ('signs', '0\t0\t0\t:\n0\t0\t"\t\\\n0\t0\t&\t,\n0\t0\ta b', ['0;', '0 -> 0 [label="%0:%:, \\":\\\\, &amp;:%,, a% b"];']),
    ('a long label', '0\t0\tabcdefgh\n0\t0\tijklmnop\n0\t0\tqrstuvwx', ['0;', '0 -> 0 [label="abcdefgh, ijklmnop,\\nqrstuvwx"];']),
    ('the same twice', '0\t1\ta\n0\t1\ta\ta', ['0;', '1;', '0 -> 1 [label="a"];']),
    ('a start without arcs', '7', ['0;', '7 [shape=doublecircle];']),
    ('weights', '0\t1\ta\ta\t0.5', ['refused t.att 1 statement']),
    ('a state with a zero before it', '0\n00', ['refused t.att 2 statement']),
]
TRIED = {'project': 'xfst r.xfst', 'r.xfst': 'define A [a|b]:x ; define Loop [a+]:x ; define Id {!a} | %# | %% | {\u00e9} ;'}
FAILED = []


def wants(what, said, wanted):
    if said != wanted:
        FAILED.append(what)
        print('%s\n  says  %s\n  wants %s' % (what, '\n        '.join(said), '\n        '.join(wanted)))


def shell(command):
    return subprocess.run(command, shell=True, cwd=ROOT, stdout=subprocess.PIPE, stderr=subprocess.DEVNULL).stdout.decode(errors='replace')


def try_page(page):
    """Each command of a page, which stands behind a prompt, and the lines that stand below it."""
    with open(os.path.join(ROOT, page), encoding='utf-8') as file:
        lines = file.read().split('\n')
    count, at = 0, 0
    while at < len(lines):
        if lines[at].startswith(PROMPT):
            command, wanted = lines[at][len(PROMPT):], []
            while lines[at + 1].startswith('    ') and not lines[at + 1].startswith(PROMPT):
                at += 1
                wanted.append(lines[at][4:])
            wants('%s: %s' % (page, command), shell(command).split('\n')[:-1], wanted)
            count += 1
        at += 1
    return count


def try_project(name, files, words, wanted):
    with tempfile.TemporaryDirectory(prefix='checks-') as folder:
        for file, text in files.items():
            with open(os.path.join(folder, file), 'w', encoding='utf-8') as out:
                out.write(text + '\n')
        wants(name, shell('%s/%s' % (ROOT, words.replace('DIR', folder))).split('\n')[:-1], wanted)


def try_hint(file, text, reason, wanted):
    said = hints.hint('refused %s 2 %s\n' % (file, reason), lambda name: '\n' + text if name == file else MANIFEST)
    told = 'hint %s 2 ' % file
    wants('hint: ' + text, [said[len(told):][:len(wanted)] if said.startswith(told) and wanted else said], [wanted])


def main():
    pages = sum(try_page(page) for page in PAGES)
    for it in HINTS:
        try_hint(*it)
    for name, files, wanted in LINTS:
        try_project(name, files, './lint DIR', ['warning ' + it for it in wanted])
    for name, text, wanted in TESTS:
        try_project(name, {**TRIED, 't': text}, './expect DIR DIR/t', wanted)
    for name, text, wanted in PAIRS:
        try_project('pairs: ' + name, {'project': 'twolc T t.twolc', 't.twolc': GRAMMAR + '\n' + text}, './expect DIR DIR/t.twolc', wanted)
    try_project('a grammar of no project', {'project': 'xfst r.xfst', 't.twolc': '!!€ a a'}, './expect DIR DIR/t.twolc',
                ['refused t.twolc 0 statement: no line "twolc NAME t.twolc" stands in project'])
    for name, text, wanted in DRAWN:
        try_project('draw: ' + name, {'t.att': text}, r"./draw DIR/t.att | sed -n 's/^  \(.*;\)$/\1/p; /^refused/p' | sed '/^rankdir/d; /^start/d'", wanted)
    print('%d commands, %d projects, %d hints, %d files of tests, %d of pairs, %d texts: %d failed'
          % (pages, len(LINTS), len(HINTS), len(TESTS), len(PAIRS) + 1, len(DRAWN), len(FAILED)))
    return 1 if FAILED else 0


if __name__ == '__main__':
    sys.exit(main())
