#!/usr/bin/env python3
"""Runs the program on every prefix of a lexc file with all forms, and on so many changes of it by one byte, from a fixed seed: `check`, and
`up` where the project has no fault. Prints what isn't lawful: a status that isn't 0 or 2, a crash or more than SECONDS, or a reply that has no
form; and how many were refused for what.

usage: bench/lexicon_bytes.py [PROGRAM [CHANGES]]
"""
import collections
import os
import random
import re
import subprocess
import sys
import tempfile

from measure import program

SEED, CHANGES, SECONDS = 1987, 5_000, 20
WORDS = ['', 'cats', 'geese', 'kitten', 'x y', 'aaa', 'überkatzen', '0', 'ac', 'a:b']
LEXICON = '''! All forms of a lexc file.
Multichar_Symbols +N +Pl a:b %+Sg ch @P.SORT.big@ ! flags are no symbols
LEXICON Root
cat Num ; dog@U.ART.a@ Num; goose:geese@C.ART@ Irregular ;
%<x% y%; # ;  a%:b:c # ;  ch0%0 # ;
:über@P.SORT.big@ Root ; über: Root ; @R.SORT.big@katze E!ach
;
LEXICON Num
+N%+Sg:0 # ; +N+Pl:s@D.ART@ # ; @D.SORT.small@@R.SORT@ E ;
LEXICON Irregular Num ; :@U.ART.a@ # ;
LEXICON E
<[a|b]* - $[b b] .o. [a:b]^2* b "e>" %> | {cd%}} (Name) c:0> # ;
<\\a ~[?*] / a .x. [a b]+.u.l.i.r & ? ! no >
> Num ;
LEXICON %#
a %# ;
END
what follows is not read % @N.F.V@ <
'''
FAULTS = ['token', 'limit-nesting', 'statement', 'limit-power', 'limit-entries', 'limit-features', 'duplicate', 'unknown-lexicon', 'not-utf8', 'control',
          'limit-symbols', 'cycle', 'not-a-language', 'limit-weight', 'empty-centre']
OK, REFUSED = re.compile(r'ok 1 rebuilt Lex Name\n'), re.compile(r'refused (n\.lexc|project) (\d+) ([a-z0-9-]+)\n')


def variants(data, changes):
    """The prefixes of the bytes, and changes by one byte: another one, one more, or one less."""
    for length in range(len(data) + 1):
        yield 'prefix of %d' % length, data[:length]
    dice = random.Random(SEED)
    for number in range(changes):
        at, byte = dice.randrange(len(data)), bytes([dice.choice([dice.randrange(256), *b'%<>:;"!@#0 \n'])])
        kind = dice.choice(['put', 'added', 'left out'])
        changed = {'put': byte + data[at + 1:], 'added': byte + data[at:], 'left out': data[at + 1:]}[kind]
        yield 'change %d: %r %s at %d' % (number, byte, kind, at), data[:at] + changed


def run(words, given=b'', seconds=SECONDS):
    """The status and the text of a run, or why there are none."""
    try:
        done = subprocess.run(words, input=given, stdout=subprocess.PIPE, stderr=subprocess.DEVNULL, timeout=seconds)
        return done.returncode, done.stdout.decode()
    except subprocess.TimeoutExpired:
        return None, 'it takes too long'
    except UnicodeDecodeError:
        return None, 'it writes no text'


def has_replies(text):
    """Whether a text is a lawful reply to each word."""
    lines = text.split('\n')
    for word in WORDS:
        count = re.fullmatch(r'1 (\d+) ' + re.escape(word), lines[0])
        if count:
            answers = lines[1:1 + int(count.group(1))]
            if len(answers) < int(count.group(1)) or answers != sorted(set(answers), key=str.encode):
                return False
            lines = lines[1 + len(answers):]
        elif lines[0] == '1 loop ' + word and len(lines) > 3 and lines[2]:
            lines = lines[4:]
        elif lines[0] == '1 more ' + word or re.fullmatch(r'1 symbol [1-9]\d* ' + re.escape(word), lines[0]):
            lines = lines[1:]
        else:
            return False
    return lines == ['']


def complaint(morph, folder, lines):
    """What isn't lawful of the project in a folder, if anything is; and its fault."""
    status, text = run([morph, 'check', folder])
    refused = REFUSED.fullmatch(text)
    if status == 2 and refused and int(refused.group(2)) <= lines and refused.group(3) in FAULTS:
        return None, refused.group(3)
    if status != 0 or not OK.fullmatch(text):
        return 'check: status %s, %r' % (status, text), None
    status, text = run([morph, 'up', folder, 'Lex'], ''.join(word + '\n' for word in WORDS).encode())
    return None if status == 0 and has_replies(text) else 'up: status %s, %r' % (status, text[:300]), 'no fault'


def main():
    morph = program(sys.argv[1:])
    changes = int(sys.argv[2]) if len(sys.argv) > 2 else CHANGES
    faults, wrong = collections.Counter(), 0
    with tempfile.TemporaryDirectory() as folder:
        for name, text in (('project', 'lexc Lex n.lexc\nxfst r.xfst\n'), ('r.xfst', 'define Name n:m ;\n')):
            with open(os.path.join(folder, name), 'w') as out:
                out.write(text)
        for what, data in variants(LEXICON.encode(), changes):
            with open(os.path.join(folder, 'n.lexc'), 'wb') as out:
                out.write(data)
            said, fault = complaint(morph, folder, data.count(b'\n') + 1)
            faults[fault] += 1
            if said:
                wrong += 1
                print('%s: %s' % (what, said), flush=True)
    print('%d of %d are lawful' % (sum(faults.values()) - wrong, sum(faults.values())))
    for fault, count in faults.most_common():
        print('%6d %s' % (count, fault))


if __name__ == '__main__':
    main()
