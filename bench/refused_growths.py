#!/usr/bin/env python3
"""Runs the program again and again, each time refusing it one growth of its memory, the first, the second and so on (where there are more than RUNS, so many of
them, evenly spread), in a gloss, in many words, in `serve` with edits, batches and lanes, in `gen`, in lexicons with flags, two-level rules, a cascade of rules, and in AT&T text, pairs and
equality. Each run must end with status 5 and nothing written, or with status 0 where each reply is the one of a run with memory or says `memory`, and an
edit that says so has changed nothing. Prints how many runs ended how, and what isn't lawful.

The growths are refused by a few lines of C before the C library's, which cc builds into a folder of their own.

usage: bench/refused_growths.py [PROGRAM [RUNS]]
"""
import collections
import functools
import os
import re
import struct
import subprocess
import sys
import tempfile

from measure import ROOT, program

RUNS, SECONDS = 400, 60
SHIM = r'''
#include <errno.h>
#include <fcntl.h>
#include <stdlib.h>
#include <string.h>
#include <sys/mman.h>
extern void *__libc_malloc(size_t), *__libc_calloc(size_t, size_t), *__libc_realloc(void *, size_t), *__libc_memalign(size_t, size_t);
static long *told, at;
__attribute__((constructor)) static void begin(void) {
    const char *file = getenv("GROWTHS"), *which = getenv("REFUSED");
    int open_file = file ? open(file, O_RDWR) : -1;
    if (open_file < 0 || !which) return;
    at = atol(which);
    void *page = mmap(0, 16, PROT_READ | PROT_WRITE, MAP_SHARED, open_file, 0);
    if (page != MAP_FAILED) told = page;
}
static int is_refused(void) {
    if (!told || __sync_add_and_fetch(told, 1) != at) return 0;
    told[1] = 1;
    errno = ENOMEM;
    return 1;
}
void *malloc(size_t n) { return is_refused() ? 0 : __libc_malloc(n); }
void *calloc(size_t n, size_t m) { return is_refused() ? 0 : __libc_calloc(n, m); }
void *realloc(void *p, size_t n) { return is_refused() ? 0 : __libc_realloc(p, n); }
void *aligned_alloc(size_t a, size_t n) { return is_refused() ? 0 : __libc_memalign(a, n); }
int posix_memalign(void **p, size_t a, size_t n) { *p = is_refused() ? 0 : __libc_memalign(a, n); return *p ? 0 : ENOMEM; }
'''
FLAGS = 'LEXICON Root\n@U.ART.YES@a X ;\nb X ;\nLEXICON X\n@U.ART.NO@c # ;\nd # ;\n@R.ART.YES@e Root ;\n'
GRAMMAR = 'Alphabet a k m n p t N:m N:n p:m ;\nRules\n"1" N:m <=> _ p: ;\n"2" p:m <=> :m _ ;\n'
RULES = 'define A y -> {ie} || _ "^" s ;\ndefine B "^" -> 0 ;\ndefine C i -> e || e _ , _ e // ;\ndefine N [f l y | c a t] "^" s .o. A .o. B ;\n'.replace(' // ;', ' ;')
SERVED = {'project': 'xfst r.xfst\nalphabet b c\n', 'r.xfst': 'define N {a} ;\ndefine M ?* ;\n'}


class Case:
    """Files, words, and the pieces of the input, each with one reply."""
    def __init__(self, name, files, words, pieces, lane=''):
        self.name, self.files, self.words, self.pieces, self.lane = name, files, words, pieces, lane


def words_of(text):
    return [word + '\n' for word in text.split(' ')]


def cases():
    with_lexicon = {'project': 'lexc Lex n.lexc\nxfst r.xfst\ngloss de.gloss\n',
                    'n.lexc': 'Multichar_Symbols +N +Sg +Pl\nLEXICON Root\nfly Num ;\ncat Num ;\nLEXICON Num\n+N+Sg:0 # ;\n+N+Pl:^s # ;\nEND\n',
                    'r.xfst': 'define Rules y -> {ie} || _ "^" s .o. "^" -> 0 ;\ndefine Net Lex .o. Rules ;\n', 'de.gloss': 'cat\tKatze\nfly\tFliege\n+Pl\t.PL\n'}
    yield Case('gloss', with_lexicon, ['gloss', 'D', 'Net'], ['cats flies\n', 'dogs, cats\n', '\n'])
    yield Case('lexicon with rules', with_lexicon, ['up', 'D', 'Net'], words_of('flies cats flys zzz'))
    yield Case('lexicon with flags', {'project': 'lexc N f.lexc\n', 'f.lexc': FLAGS}, ['up', 'D', 'N'], words_of('ac ad bc aebc aead'))
    yield Case('two-level rules', {'project': 'twolc N k.twolc\n', 'k.twolc': GRAMMAR}, ['up', 'D', 'N'], words_of('kammat kampat'))
    yield Case('pairs', {'project': 'twolc N k.twolc\n', 'k.twolc': GRAMMAR}, ['pairs', 'D', 'N'], ['k a N:m p:m a t\n', 'a p:m\n', 'k x\n', '\n'])
    yield Case('cascade of rules', {'project': 'xfst r.xfst\n', 'r.xfst': RULES}, ['down', 'D', 'N'], words_of('fly^s cat^s fly'))
    yield Case('loops and many', {'project': 'xfst r.xfst\n', 'r.xfst': 'define N [{a} ["+X":0]*] | {b} ["+A":0 | "+B":0]^13 | {c} ["+A":0 | "+B":0]^5 ;\n'}, ['up', 'D', 'N'], words_of('a b c'))
    yield Case('many words', {'project': 'xfst r.xfst\n', 'r.xfst': 'define N {a} ["+X":0 | "+Y":0] | {bb} ;\n'}, ['up', 'D', 'N'], words_of(' '.join(['a', 'bb', 'c'] * 30)))
    yield Case('AT&T text', with_lexicon, ['att', 'D', 'Net'], [])
    yield Case('words of AT&T text', {'n.att': '0\t1\ta\tb\n1\t1\tc\t@0@\n1\n'}, ['attup', 'D', 'n.att'], words_of('b bb'))
    yield Case('equality', {'project': 'xfst r.xfst\n', 'r.xfst': 'define A a* ;\ndefine B [a a]* | a a a a a ;\n'}, ['equal', 'D', 'A', 'B'], [])
    yield Case('gen', {}, ['gen', '20'], [])
    edits = ['up N a\n', 'put r.xfst 2\ndefine N {ab} ;\ndefine M ?* ;\n', 'up N ab\n', 'splice r.xfst 1 1 1\ndefine N {b}:c ;\n', 'down N b\n', 'drop r.xfst\n', 'up M c\n']
    batch = ['begin\n', 'put s.xfst 1\ndefine O N N ;\n', 'put project 3\nxfst r.xfst\nxfst s.xfst\nalphabet b c\n', 'up N c\n', 'commit\n', 'up O cc\n', 'end\n']
    yield Case('serve', SERVED, ['serve', 'D'], edits + batch)
    yield Case('serve with a lane', SERVED, ['serve', 'D'], edits + ['end\n'], 'up N a\nup M b\n---\nup N c\n')


class Runner:
    def __init__(self, ours, case, folder, shim):
        self.ours, self.case, self.folder, self.shim = ours, case, folder, shim
        self.told = os.path.join(folder, 'told')
        self.project = os.path.join(folder, 'project')
        os.mkdir(self.project)
        for name, text in case.files.items():
            with open(os.path.join(self.project, name), 'w', encoding='utf-8') as out:
                out.write(text)
        self.normal = functools.lru_cache(maxsize=None)(self.of_pieces)

    def run(self, pieces, refused=0, lane=''):
        """The status, the output, the lane's output, and how many growths there were."""
        with open(self.told, 'wb') as out:
            out.write(bytes(16))
        words = [self.project if word == 'D' else word for word in self.case.words]
        path = os.path.join(self.folder, 'lane')
        if lane:
            with open(path, 'w', encoding='utf-8') as out:
                out.write(lane)
            if os.path.exists(path + '.out'):
                os.unlink(path + '.out')
            words += ['--', path]
        around = dict(os.environ, LD_PRELOAD=self.shim, GROWTHS=self.told, REFUSED=str(refused))
        done = subprocess.run([self.ours, *words], input=''.join(pieces).encode(), stdout=subprocess.PIPE, stderr=subprocess.DEVNULL, timeout=SECONDS, env=around)
        beside = ''
        if lane and os.path.exists(path + '.out'):
            with open(path + '.out', encoding='utf-8') as text:
                beside = text.read()
        with open(self.told, 'rb') as text:
            count, _ = struct.unpack('qq', text.read())
        return done.returncode, done.stdout.decode(errors='replace'), beside, count

    def of_pieces(self, pieces):
        return self.run(pieces)[1]

    def reply(self, before, piece):
        """What the piece is answered, with memory, behind these pieces."""
        return self.normal((*before, piece))[len(self.normal(tuple(before))):]

    def is_lawful(self, text):
        """Whether the output is one of a run in which only some replies say `memory`; and the pieces that stand for those that were heard."""
        case, before = self.case, []
        if not case.pieces:
            return text == self.normal(()) and before is not None, before
        if case.words[0] == 'serve':
            first = self.normal(())
            if not text.startswith(first):
                return False, before
            text = text[len(first):]
        for piece in case.pieces:
            wanted = self.reply(before, piece)
            memory = re.match(r'(\d+ )?memory\n', text)
            if wanted and text.startswith(wanted):
                text = text[len(wanted):]
                before.append(piece)
            elif memory:
                text = text[memory.end():]
                if piece == 'commit\n':
                    before.append('abandon\n')
                elif piece.split(' ')[0] in ('put', 'splice', 'drop'):
                    # outside of a batch it is as if it hadn't been heard; in one, as if it had been no command
                    before.append('look\n')
                    self.drop_last_bad(before)
                else:
                    before.append(piece)
            elif not wanted:
                before.append(piece)
            else:
                return False, before
        return text == '', before

    def drop_last_bad(self, before):
        begun = [piece for piece in before if piece in ('begin\n', 'commit\n', 'abandon\n')]
        if not begun or begun[-1] != 'begin\n':
            before.pop()

    def lane_is_lawful(self, text, before):
        """Whether each line of the lane has the reply of some version, no older than the one before, or says `memory`."""
        last = 1
        for line in self.case.lane.split('\n'):
            if not line or line == '---':
                continue
            number = re.match(r'(\d+) ', text)
            if not number or int(number[1]) < last:
                return False
            last = int(number[1])
            memory = '%d memory\n' % last
            if text.startswith(memory):
                text = text[len(memory):]
                continue
            for length in range(len(before) + 1):
                wanted = self.reply(before[:length], line + '\n')
                if wanted.startswith('%d ' % last) and text.startswith(wanted):
                    text = text[len(wanted):]
                    break
            else:
                return False
        return text == ''


def main():
    ours = program(sys.argv[1:])
    most = int(sys.argv[2]) if len(sys.argv) > 2 else RUNS
    with tempfile.TemporaryDirectory() as top:
        shim = os.path.join(top, 'growths.so')
        with open(os.path.join(top, 'growths.c'), 'w', encoding='utf-8') as out:
            out.write(SHIM)
        subprocess.run(['cc', '-O1', '-shared', '-fPIC', '-o', shim, os.path.join(top, 'growths.c')], check=True)
        for number, case in enumerate(cases()):
            folder = os.path.join(top, str(number))
            os.mkdir(folder)
            runner = Runner(ours, case, folder, shim)
            status, _, _, growths = runner.run(case.pieces, 0, case.lane)
            if status:
                sys.exit('%s: status %d with memory' % (case.name, status))
            chosen = range(1, growths + 1) if growths <= most else sorted({1 + step * growths // most for step in range(most)})
            ended = collections.Counter()
            for refused in chosen:
                try:
                    status, text, beside, _ = runner.run(case.pieces, refused, case.lane)
                except subprocess.TimeoutExpired:
                    ended['not lawful'] += 1
                    print('    %s: growth %d of %d refused: it takes too long' % (case.name, refused, growths))
                    continue
                if status == 5 and not text and not beside:
                    ended['status 5'] += 1
                    continue
                right, before = runner.is_lawful(text)
                right = right and status == 0 and (not case.lane or runner.lane_is_lawful(beside, before))
                ended['told by a reply' if right and 'memory' in text + beside else 'as with memory' if right else 'not lawful'] += 1
                if not right:
                    print('    %s: growth %d of %d refused: status %d, %r %r' % (case.name, refused, growths, status, text[:300], beside[:200]))
            print('%-20s %6d growths, %4d refused: %s' % (case.name, growths, len(chosen), ', '.join('%d %s' % (count, how) for how, count in sorted(ended.items()))), flush=True)


if __name__ == '__main__':
    main()
