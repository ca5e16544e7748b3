#!/usr/bin/env python3
"""The deepest of each kind of source, with less and less room for the main thread's stack (`ulimit -s`), each as a source of the project and as an edit of `serve`
with a lane beside it; and `serve` with lanes in less and less memory for addresses (`ulimit -v`). Prints of each source the least stack with which it is answered as
with the system's, as a source and as an edit, and how much of its own stack the program has taken when it has answered; and of `serve` how many runs ended with 0,
with 5 and nothing written, and otherwise, and what came of each run that isn't lawful.

What is deepest: 64 brackets open round a symbol, in each place where an expression may stand, with an operator behind each; 512 names, each the name
of the next; a megabyte of one prefix or of operands without brackets, which walks go over without depth.

usage: bench/stacks.py [PROGRAM]
"""
import os
import resource
import subprocess
import sys
import tempfile

from measure import program

STACK = 16 << 10
SIZES = (8192, 4096, 2048, 1024, 768, 512, 384, 256, 192, 128)
OPENED, CLOSED = '[' * 64, ']' * 64
ENOUGH = 1024


def xfst(text):
    return {'project': 'xfst r.xfst\n', 'r.xfst': text}


CASES = {
    'brackets': (xfst('define N %sa%s ;\n' % (OPENED, CLOSED)), 'up', 'a'),
    'brackets with a choice in each': (xfst('define N %s ;\n' % ('[a | ' * 64 + 'a' + ']' * 64)), 'up', 'a'),
    'brackets with a complement in each': (xfst('define N %s ;\n' % ('~[' * 64 + 'a' + ']' * 64)), 'up', 'a'),
    'brackets with all operators': (xfst('define N %s ;\n' % ('~[\\b & ' * 16 + '$[a - ' * 16 + '(a .o. ' * 16 + '[b+ | a ' * 16 + 'a' + ']' * 16 + ')' * 16 + ']' * 32)), 'check', ''),
    'brackets in a context': (xfst('define N a -> b || %sc%s _ ;\n' % (OPENED, CLOSED)), 'down', 'ca'),
    'brackets in a centre': (xfst('define N %sa%s -> b ;\n' % (OPENED, CLOSED)), 'down', 'a'),
    'rules in rules': (xfst('define N %s ;\n' % ('[[a -> b] .o. ' * 32 + '[a -> b]' + ']' * 32)), 'down', 'a'),
    'brackets in a lexicon': ({'project': 'lexc N f.lexc\n', 'f.lexc': 'LEXICON Root\n< %sa%s > # ;\n' % (OPENED, CLOSED)}, 'up', 'a'),
    'brackets in a two-level rule': ({'project': 'twolc N t.twolc\n', 't.twolc': 'Alphabet a b a:b ;\nRules\n"1" a:b <=> %sb%s _ ;\n' % (OPENED, CLOSED)}, 'down', 'ba'),
    '512 names in a chain': (xfst(''.join('define D%d D%d ;\n' % (i, i + 1) for i in range(511)) + 'define D511 a ;\n').copy(), 'up D0', 'a'),
    'prefixes': (xfst('define N %sa ;\n' % ('~' * 60000)), 'up', 'a'),
    'suffixes': (xfst('define N a%s ;\n' % ('*' * 60000)), 'down', 'a'),
    'operands': (xfst('define N %s ;\n' % ' | '.join('a' * 20000)), 'up', 'a'),
    'symbols side by side': (xfst('define N {%s} ;\n' % ('a' * 20000)), 'check', ''),
    'a long word': (xfst('define N [a | a:b]* ;\n'), 'up', 'a' * 4000),
}


def run(morph, words, stdin, cwd, **limits):
    """The status and the output, under the limits of so many KiB; the status is below 0 where a signal ended it."""
    def limit():
        for which, kib in limits.items():
            what = getattr(resource, which)
            resource.setrlimit(what, (kib * 1024, kib * 1024))
    done = subprocess.run([morph, *words], input=stdin.encode(), cwd=cwd, stdout=subprocess.PIPE, stderr=subprocess.DEVNULL, timeout=120, preexec_fn=limit)
    return done.returncode, done.stdout


def written(folder, files):
    for name, text in files.items():
        with open(os.path.join(folder, name), 'w') as file:
            file.write(text)


def least(morph, folder, command, stdin):
    """The status, the least of the sizes with which it is answered as with the system's stack, and what comes of the next one."""
    wanted = run(morph, command, stdin, folder)
    enough = None
    for size in SIZES:
        found = run(morph, command, stdin, folder, RLIMIT_STACK=size)
        if found != wanted:
            return wanted[0], enough, found[0]
        enough = size
    return wanted[0], enough, None


def least_of_source(morph, files, words, stdin):
    """The least where it is a source."""
    with tempfile.TemporaryDirectory() as folder:
        written(folder, files)
        command = words.split()
        return least(morph, folder, [command[0], '.', *(command[1:] or ([] if command[0] == 'check' else ['N']))], stdin + '\n')


def least_of_edit(morph, files, words, stdin):
    """The least where it is an edit of `serve`, which has a lane, or None where the edit isn't accepted."""
    with tempfile.TemporaryDirectory() as folder:
        written(folder, {**xfst('define M b ;\n'), 'c': 'up M b\n'})
        puts = ''.join('put %s %d\n%s' % (name, text.count('\n'), text) for name, text in files.items())
        command = words.split()
        asked = 'up' if command[0] == 'check' else command[0]
        script = 'begin\n%scommit\n%s %s %s\nend\n' % (puts, asked, (command[1:] or ['N'])[0], stdin or 'a')
        serve = ['serve', '.', '--', 'c']
        if not any(line.startswith(b'ok 2') for line in run(morph, serve, script, folder)[1].splitlines()):
            return None
        return least(morph, folder, serve, script)


def taken(morph, files, words, stdin):
    """How many KiB of its stack the program has touched when it has answered a line, or None where that isn't told."""
    with tempfile.TemporaryDirectory() as folder:
        written(folder, files)
        command = words.split()
        net = command[1:] or ['N']
        child = subprocess.Popen([morph, 'up' if command[0] == 'check' else command[0], '.', *net], cwd=folder, stdin=subprocess.PIPE, stdout=subprocess.PIPE)
        child.stdin.write((stdin + '\n').encode())
        child.stdin.flush()
        child.stdout.readline()
        size, found = 0, None
        with open('/proc/%d/smaps' % child.pid) as text:
            for line in text:
                fields = line.split()
                if fields[0] == 'Size:':
                    size = int(fields[1])
                elif fields[0] == 'Rss:' and STACK <= size <= STACK + 512:
                    found = max(found or 0, int(fields[1]))
        child.kill()
        child.wait()
        return found


def served(morph):
    """`serve` with two lanes, with less and less memory for addresses: how many runs ended how."""
    counts, odd = {}, []
    with tempfile.TemporaryDirectory() as folder:
        written(folder, {**xfst('define N %sa%s ;\n' % (OPENED, CLOSED)), 'c': 'up N a\n', 'd': 'down N a\n'})
        for kib in range(3000, 40000, 20):
            for lane in 'cd':
                if os.path.exists(os.path.join(folder, lane + '.out')):
                    os.remove(os.path.join(folder, lane + '.out'))
            status, output = run(morph, ['serve', '.', '--', 'c', 'd'], 'up N a\nend\n', folder, RLIMIT_AS=kib)
            kind = {0: '0', 5: '5 and nothing written' if not output else '5 with output', 127: '127, since the system had no room for the program' if not output else '127 with output'}.get(status, 'otherwise')
            counts[kind] = counts.get(kind, 0) + 1
            if kind not in ('0', '5 and nothing written', '127, since the system had no room for the program'):
                odd.append('%d KiB: status %d, %d bytes' % (kib, status, len(output)))
    return counts, odd


def main():
    morph = os.path.abspath(program(sys.argv[1:2]))
    bad = 0
    for name, (files, words, stdin) in CASES.items():
        tried = [least_of_source(morph, files, words, stdin), least_of_edit(morph, files, words, stdin)]
        told = ['not accepted' if one is None else 'status %d, %s KiB are enough%s' % (one[0], one[1], '' if one[2] is None else ' (with less: %d)' % one[2]) for one in tried]
        print('%-40s %s; as an edit %s; of its own stack %s KiB were taken' % (name, *told, taken(morph, files, words, stdin)))
        bad += any(one is None or one[0] != 0 or one[1] is None or one[1] > ENOUGH for one in tried)
    counts, odd = served(morph)
    print('serve with two lanes, from 3,000 to 40,000 KiB of addresses: ' + ', '.join('%d runs ended with %s' % (count, kind) for kind, count in sorted(counts.items())))
    print('\n'.join(odd[:20]))
    return bad > 0


if __name__ == '__main__':
    sys.exit(main())
