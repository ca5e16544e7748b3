#!/usr/bin/env python3
"""Lanes beside edits.

  lanes.py [PROGRAM] [--edits N] [--lines N] [--lanes N] [--seed N]     every reply is checked
  lanes.py [PROGRAM] --speed [--lines N]                                 how fast they go

Sixteen lanes of mixed lines (words and texts that are looked up, unknown names and symbols, lines in no form, long lines, a last line that
is cut) are answered beside edits, of which a third are refused. What a version says is known here from the edits: each version's relation is
a list of pairs of words. Every reply is compared with the one that the line has at the version that it names; the numbers of a lane never
fall, are at most those of its time, and are the last one behind `---`; no reply is missing. One lane's source fails, and ends alone.

With `--speed`: 1, 2, 4 and 16 lanes, look-ups a second on the clock, against `up` of the same words; a thousand edits beside them, with the
peak memory; and the longest time between the reply to an edit and the first reply at its version."""
import argparse
import os
import random
import subprocess
import tempfile
import threading
import time

import measure

LETTERS = 'abcd'
GLOSSES = {'a': 'one', 'ab': 'two', 'cd': '', 'd': 'Δ'}
EDITS = 1000
MARKS = ' \t.,;:!?()"'


def write(folder, name, text):
    with open(os.path.join(folder, name), 'w') as out:
        out.write(text)


def some_word(draw, least=1):
    return ''.join(draw.choice(LETTERS) for _ in range(draw.randint(least, 3)))


def some_pairs(draw):
    """The pairs of upper and lower words that a version relates."""
    return {(some_word(draw), some_word(draw)) for _ in range(draw.randint(1, 12))}


def source_of(pairs):
    """The definition of a relation of these pairs."""
    return 'define N %s ;\n' % ' | '.join('{%s}:{%s}' % pair for pair in sorted(pairs))


def gloss_of(text):
    """The gloss of a text: the longest key at each place."""
    found, place = '', 0
    while place < len(text):
        key = max((key for key in GLOSSES if text.startswith(key, place)), key=len, default=None)
        found += text[place] if key is None else GLOSSES[key]
        place += 1 if key is None else len(key)
    return found


def words_of(text):
    for mark in MARKS:
        text = text.replace(mark, ' ')
    return text.split()


def cell_of(pairs, word):
    """The analysis and the gloss of a word."""
    if any(letter not in LETTERS for letter in word):
        return '*symbol', '*'
    found = sorted(upper for upper, lower in pairs if lower == word)
    if not found:
        return '*', '*'
    return found[0] + ('(%d)' % len(found) if len(found) > 1 else ''), gloss_of(found[0])


def block_of(version, pairs, text):
    columns = [(word, *cell_of(pairs, word)) for word in words_of(text)]
    rows = []
    for row in range(3) if columns else ():
        cells = [column[row].ljust(max(map(len, column))) for column in columns[:-1]] + [columns[-1][row]]
        rows.append('  '.join(cells))
    return ''.join(line + '\n' for line in ['%d gloss %d' % (version, len(columns)), *rows])


def reply_of(version, pairs, line):
    """The reply to a line, as bytes, at a version that relates these pairs."""
    if len(line) > 4096:
        return b'%d long\n' % version
    line = line[:-1] if line.endswith(b'\r') else line
    try:
        text = line.decode()
    except UnicodeDecodeError:
        return b'%d line\n' % version
    keyword, _, rest = text.partition(' ')
    net, _, word = rest.partition(' ')
    if keyword not in ('up', 'down', 'gloss') or not net:
        return b'%d line\n' % version
    if net != 'N':
        return ('%d net %s\n' % (version, net)).encode()
    if keyword == 'gloss':
        return block_of(version, pairs, word).encode()
    for place, letter in enumerate(word):
        if letter not in LETTERS:
            return ('%d symbol %d %s\n' % (version, place + 1, word)).encode()
    found = sorted({upper if keyword == 'up' else lower for upper, lower in pairs if word == (lower if keyword == 'up' else upper)})
    return ''.join(line + '\n' for line in ['%d %d %s' % (version, len(found), word), *found]).encode()


def some_line(draw):
    kind = draw.random()
    if kind < 0.75:
        return ('%s N %s' % (draw.choice(['up', 'down']), some_word(draw, 0))).encode() + draw.choice([b'', b'', b'', b'\r'])
    if kind < 0.85:
        return ('gloss N %s' % draw.choice([' ', ', ', '. ']).join(some_word(draw) + draw.choice(['', 'x']) for _ in range(draw.randint(0, 4)))).encode()
    return draw.choice([b'up M ab', b'up N abx', b'look N ab', b'up', b'up  ab', b'', b'\xff', b'up N a\xff', b'up N ' + b'a' * 4092, b'down N ' + b'b' * 4089])


def some_lane(draw, lines):
    """The lines of a lane's input, the number of those before its mark, and the bytes."""
    all_lines = [some_line(draw) for _ in range(lines)]
    before = draw.randint(lines // 2, lines)
    given = b''.join(line + b'\n' for line in all_lines[:before]) + b'---\n' + b''.join(line + b'\n' for line in all_lines[before:])
    # the last line is cut, which makes it no other line
    cut = b'up N a'
    return all_lines + [cut], before, given + cut


def some_edit(draw, pairs):
    """An edit's text, and what the next version relates, or None where the edit is refused."""
    if draw.random() < 1 / 3:
        return draw.choice(['put r.xfst 1\ndefine N {a}\n', 'splice r.xfst 9 1 0\n', 'drop s.xfst\n', 'put r.xfst 2\ndefine N {a} ;\ndefine N {b} ;\n']), None
    new = some_pairs(draw)
    return 'put r.xfst 1\n' + source_of(new), new


class Difference(Exception):
    """What was answered otherwise than it ought to be."""


def check_lane(number, lines, before, versions, written):
    """Compares what a lane's output got with the replies that its lines have."""
    place, seen = 0, 1
    for index, line in enumerate(lines):
        end = written.find(b' ', place)
        version = int(written[place:end]) if end > place else 0
        if not seen <= version <= len(versions) or index >= before and version != len(versions):
            raise Difference('lane %d, line %d: version %d after %d, and there are %d' % (number, index + 1, version, seen, len(versions)))
        wanted = reply_of(version, versions[version - 1], line)
        if not written.startswith(wanted, place):
            raise Difference('lane %d, line %d, %r: %r, and it is %r' % (number, index + 1, line[:40], written[place:place + len(wanted) + 20], wanted))
        place, seen = place + len(wanted), version
    if place != len(written):
        raise Difference('lane %d: more replies than lines: %r' % (number, written[place:place + 40]))


def check(program, edits, lines, count, seed):
    draw = random.Random(seed)
    pairs = some_pairs(draw)
    with tempfile.TemporaryDirectory() as folder:
        project = os.path.join(folder, 'p')
        os.mkdir(project)
        write(project, 'project', 'xfst r.xfst\nalphabet %s\ngloss g.gloss\n' % ' '.join(LETTERS))
        write(project, 'r.xfst', source_of(pairs))
        write(project, 'g.gloss', ''.join('%s\t%s\n' % entry for entry in GLOSSES.items()))
        lanes, paths = [], []
        for number in range(count):
            lanes.append(some_lane(draw, lines))
            paths.append(os.path.join(folder, 'lane%d' % number))
            with open(paths[-1], 'wb') as out:
                out.write(lanes[-1][2])
        # a folder can be opened and not read
        failing = os.path.join(folder, 'failing')
        os.mkdir(failing)
        versions, refused = [pairs], 0
        with subprocess.Popen([program, 'serve', project, '--', *paths[:15], failing], stdin=subprocess.PIPE, stdout=subprocess.PIPE, text=True) as serve:
            first = serve.stdout.readline()
            if first != 'ok 1 rebuilt N\n':
                raise Difference('the first line is %r' % first)
            for number in range(edits):
                text, new = some_edit(draw, versions[-1])
                serve.stdin.write(text)
                serve.stdin.flush()
                reply = serve.stdout.readline()
                if new is None:
                    refused += 1
                    right = reply.startswith('refused ')
                else:
                    touched = new != versions[-1]
                    versions.append(new)
                    right = reply == 'ok %d rebuilt%s\n' % (len(versions), ' N' if touched else '')
                if not right:
                    raise Difference('edit %d, %r: %r' % (number + 1, text, reply))
            serve.stdin.write('end\n')
            serve.stdin.close()
            status = serve.wait()
        if status != 3:
            raise Difference('status %d, and one lane fails' % status)
        for number, (all_lines, before, _) in enumerate(lanes[:15]):
            with open(paths[number] + '.out', 'rb') as got:
                check_lane(number, all_lines, before, versions, got.read())
        with open(failing + '.out', 'rb') as got:
            if got.read():
                raise Difference('the lane that fails has an answer')
    print('%d edits, %d refused, beside %d lanes of %d lines and one that fails: every reply is that of the version that it names' % (edits, refused, len(lanes[:15]), lines + 1))


def speed(program, lines):
    """Prints how fast lanes go."""
    draw = random.Random(1)
    with tempfile.TemporaryDirectory() as folder:
        project = os.path.join(folder, 'p')
        os.mkdir(project)
        write(project, 'project', 'lexc Lex n.lexc\nxfst r.xfst\n')
        stems = sorted({''.join(draw.choice('bdfgklmnpr') + draw.choice('aeiou') for _ in range(3)) for _ in range(2000)})
        write(project, 'n.lexc', 'Multichar_Symbols +N +Sg +Pl\nLEXICON Root\n%sLEXICON Num\n+N+Sg:0 # ;\n+N+Pl:^s # ;\n' % ''.join('%s Num ;\n' % stem for stem in stems))
        write(project, 'r.xfst', 'define Rules o -> {oe} || _ "^" s .o. "^" -> 0 ;\ndefine Net Lex .o. Rules ;\ndefine Other {a} ;\n')
        words = [draw.choice(stems) + draw.choice(['', 's', 'ss']) for _ in range(lines)]
        plain = os.path.join(folder, 'words')
        write(folder, 'words', ''.join(word + '\n' for word in words))
        start = time.monotonic()
        with open(plain, 'rb') as given:
            subprocess.run([program, 'up', project, 'Net'], stdin=given, stdout=subprocess.DEVNULL, check=True)
        alone = time.monotonic() - start
        print('`up` of %d words: %.2f s, %.0f a second' % (lines, alone, lines / alone))
        for count in 1, 2, 4, 16:
            paths = []
            for number in range(count):
                path = os.path.join(folder, 'lane%d' % number)
                write(folder, 'lane%d' % number, ''.join('up Net %s\n' % word for word in words))
                paths.append(path)
            start = time.monotonic()
            subprocess.run([program, 'serve', project, '--', *paths], stdin=subprocess.DEVNULL, stdout=subprocess.DEVNULL, check=True)
            took = time.monotonic() - start
            peak, start = 0, time.monotonic()
            with subprocess.Popen([program, 'serve', project, '--', *paths], stdin=subprocess.PIPE, stdout=subprocess.PIPE, text=True) as serve:
                serve.stdout.readline()
                for number in range(EDITS):
                    serve.stdin.write('splice r.xfst 3 1 1\ndefine Other {a%s} ;\n' % ('b' * (number % 2)))
                    serve.stdin.flush()
                    serve.stdout.readline()
                    peak = max(peak, measure.peak_of(serve.pid))
                edited = time.monotonic() - start
                serve.stdin.close()
                serve.wait()
            print('%d lanes: %.2f s, %.0f look-ups a second; beside them %d edits in %.2f s, peak %.1f MiB' % (count, took, count * lines / took, EDITS, edited, peak / 2 ** 20))
        latency(program, folder, project)


def latency(program, folder, project, edits=200):
    """The longest time between the reply to an edit and the first reply at its version, in a lane that asks without a pause."""
    path = os.path.join(folder, 'pipe')
    os.mkfifo(path)
    os.mkfifo(path + '.out')
    seen, done = {}, threading.Event()

    def asks():
        with open(path, 'w') as out:
            while not done.is_set():
                out.write('up Other a\n')
                out.flush()
                time.sleep(0.0002)

    def reads():
        with open(path + '.out') as got:
            for line in got:
                words = line.split()
                if words and words[0].isdigit():
                    seen.setdefault(int(words[0]), time.monotonic())

    with subprocess.Popen([program, 'serve', project, '--', path], stdin=subprocess.PIPE, stdout=subprocess.PIPE, text=True) as serve:
        threads = [threading.Thread(target=asks), threading.Thread(target=reads)]
        for thread in threads:
            thread.start()
        serve.stdout.readline()
        told = {}
        for number in range(edits):
            serve.stdin.write('splice r.xfst 3 1 1\ndefine Other {a} | {a%s} ;\n' % ('b' * (number % 2)))
            serve.stdin.flush()
            serve.stdout.readline()
            told[number + 2] = time.monotonic()
            time.sleep(0.005)
        done.set()
        threads[0].join()
        serve.stdin.close()
        serve.wait()
        threads[1].join()
    waits = [max(0, seen[version] - at) for version, at in told.items() if version in seen]
    print('%d of %d versions were seen by a lane; the longest time from the reply to an edit to a reply at its version: %.1f ms' % (len(waits), edits, 1000 * max(waits)))


def main():
    words = argparse.ArgumentParser(description=__doc__.split('\n', maxsplit=1)[0])
    words.add_argument('program', nargs='?')
    words.add_argument('--edits', type=int, default=9999)
    words.add_argument('--lines', type=int)
    words.add_argument('--lanes', type=int, default=15)
    words.add_argument('--seed', type=int, default=1)
    words.add_argument('--speed', action='store_true')
    asked = words.parse_args()
    program = measure.program([asked.program] if asked.program else [])
    if asked.speed:
        speed(program, asked.lines or 1_000_000)
        return
    try:
        check(program, asked.edits, asked.lines or 20_000, asked.lanes, asked.seed)
    except Difference as difference:
        raise SystemExit(str(difference)) from None


if __name__ == '__main__':
    main()
