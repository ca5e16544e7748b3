#!/usr/bin/env python3
"""Runs the program on every prefix of each file of a project with all kinds of sources, a manifest, definitions, a lexicon, two-level rules and glosses,
and on so many changes of each by one byte, from a fixed seed: `check`, and `up` where the project has no fault. Prints what isn't lawful: a status that isn't 0
or 2, a crash or more than SECONDS, a fault of a file that isn't there or of a line that it doesn't have, or a reply that has no form; and how many were refused for what.

usage: bench/source_bytes.py [PROGRAM [CHANGES]]
"""
import collections
import os
import re
import sys
import tempfile

from lexicon_bytes import WORDS as WORDS_OF_REPLIES, has_replies, run, variants
from measure import program

CHANGES = 1_000
FILES = {
    'project': '''! All kinds of files.
alphabet a b %# "x y" ä
lexc Lex n.lexc
twolc Rules g.twolc
xfst r.xfst
gloss t.gloss
require Lex
''',
    'r.xfst': '''# All forms of definitions.
define Vowel a | e | o | {ää} ;
define Names Lex .o. [ a -> e || _ b , .#. _ ] .o. [ [..] (->) x // a _ ] ;
define Many [ a^2 | \\b / c ]* - $[ b b ] & ?+ ;
define Pairs [ a c .x. d.u.l ].i.r ;
define Twice a b -> x ... y , c -> 0 \\/ d _ ,, d -> e ;
define Way [ a b | a ] @-> "<" ... ">" || _ [ b | .#. ] ;
define Only a => b _ c , .#. _ ;
define Rest ~[ 0 | "" | %" ]+ ;
''',
    'n.lexc': '''Multichar_Symbols +N +Pl @P.S.b@
LEXICON Root
cat Num ; dog@U.A.a@ Num; :ä@R.S.b@ # ;
< [a|b]^2 .o. Vowel* "e>" > Num ;
LEXICON Num
+N:0 # ; +N+Pl:s@D.A@ # ;
END
''',
    'g.twolc': '''Alphabet a b c s t
  s:0 a:b ;
Sets
  Front = a b ;
Definitions
  Onset = [ s: | :b ]* ;
Rules
"a rule" a:b <=> Onset _ c: ; .#. _ \\s: ;
"another" s:0 => _ Front: ;
"a third" s:0 /<= c _ ;
''',
    't.gloss': '''! Glosses.
cat	Katze
dog	Hund
+Pl	PL
''',
}
FAULTS = re.findall(r'[a-z0-9-]+', '''no-project limit-file not-utf8 control token limit-nesting statement limit-power limit-rule limit-files limit-entries limit-features unknown-lexicon
no-file duplicate limit-names limit-symbols unknown-name cycle not-a-language limit-weight empty-centre''')
OK, REFUSED = re.compile(r'ok 1 rebuilt( [^\n]+)?\n'), re.compile(r'refused ([^\n]+) (\d+) ([a-z0-9-]+)\n')


def is_lawful(fault, lines):
    """Whether a fault is of a file that is there, in a line that it has, or of a file that the manifest names and that isn't there."""
    file, line, why = fault.group(1), int(fault.group(2)), fault.group(3)
    return why in FAULTS and (line <= lines[file] if file in lines else line == 0 or file == 'project')


def complaint(morph, folder, lines):
    """What isn't lawful of the project in a folder, if anything is; and its fault."""
    status, text = run([morph, 'check', folder])
    fault = REFUSED.fullmatch(text)
    if status == 2 and fault and is_lawful(fault, lines):
        return None, fault.group(3)
    names = OK.fullmatch(text)
    if status != 0 or not names:
        return 'check: status %s, %r' % (status, text), None
    if 'Lex' not in text.split():
        return None, 'no fault'
    status, text = run([morph, 'up', folder, 'Lex'], ''.join(word + '\n' for word in WORDS_OF_REPLIES).encode())
    return None if status == 0 and has_replies(text) else 'up: status %s, %r' % (status, text[:300]), 'no fault'


def main():
    morph = program(sys.argv[1:])
    changes = int(sys.argv[2]) if len(sys.argv) > 2 else CHANGES
    faults, wrong = collections.Counter(), 0
    for name, text in FILES.items():
        with tempfile.TemporaryDirectory() as folder:
            for other, content in FILES.items():
                with open(os.path.join(folder, other), 'w', encoding='utf-8') as out:
                    out.write(content)
            lines = {other: content.count('\n') + 1 for other, content in FILES.items()}
            for what, data in variants(text.encode(), changes):
                with open(os.path.join(folder, name), 'wb') as out:
                    out.write(data)
                said, fault = complaint(morph, folder, {**lines, name: data.count(b'\n') + 1})
                faults[fault] += 1
                if said:
                    wrong += 1
                    print('%s, %s: %s' % (name, what, said), flush=True)
    print('%d of %d are lawful' % (sum(faults.values()) - wrong, sum(faults.values())))
    for fault, count in faults.most_common():
        print('%6d %s' % (count, fault))


if __name__ == '__main__':
    main()
