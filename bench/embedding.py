#!/usr/bin/env python3
"""Looks up a million words of a lexicon of 2,000 stems through the C library, through the module for Python, and, where they are installed, through libfoma and
through libhfst's module for Python, in networks of the same expression; through the first two in one thread and in four of the caller's. Prints seconds by the clock, what
opening takes left out.

usage: bench/embedding.py [WORDS]
It needs out/libmorph.a and out/libmorph.so (docs/EMBEDDING.md).
"""
import random
import subprocess
import sys
import tempfile
import time
from pathlib import Path

from lookup_words import CLASSES, SEED, stems_of
from measure import has_foma, saved_by_foma, write_project

ROOT = Path(__file__).resolve().parent.parent
DISTINCT = 10_000
THREADS = (1, 4)


def compiled(source, target, *flags):
    subprocess.run(['cc', '-O2', f'-I{ROOT}/include', f'-I{ROOT}/examples/embed', '-o', target, f'{ROOT}/bench/{source}', *flags], check=True)
    return target


def shown(name, line):
    words, answers, seconds = line.split()
    print(f'{name:<22}{int(words):>10} words {int(answers):>10} answers {float(seconds):8.2f} s {float(seconds) / int(words) * 1e6:8.2f} microseconds a word', flush=True)


def by_python(folder, words, rounds):
    sys.path.insert(0, f'{ROOT}/bindings/python/src')
    from morph import NoSymbol, Project
    answers = 0
    with Project(folder) as project:
        before = time.perf_counter()
        for _ in range(rounds):
            for word in words:
                try:
                    answers += len(project.up('Word', word))
                except NoSymbol:
                    pass
        return f'{rounds * len(words)} {answers} {time.perf_counter() - before}'


def by_hfst(att, words, rounds):
    import hfst
    with open(att) as file:
        net = hfst.read_att_transducer(file)
    net.invert()
    net.convert(hfst.ImplementationType.HFST_OLW_TYPE)
    before, answers = time.perf_counter(), 0
    for _ in range(rounds):
        for word in words:
            answers += len(net.lookup(word))
    return f'{rounds * len(words)} {answers} {time.perf_counter() - before}'


def main():
    count = int(sys.argv[1]) if sys.argv[1:] else 1_000_000
    dice = random.Random(SEED)
    stems = stems_of(2_000, dice)
    parts = []
    for place, (endings, _) in enumerate(CLASSES):
        stems_here = ' | '.join('{%s}' % stem for stem in stems[place::3])
        parts.append(f'[{stems_here}] {endings}')
    expression = ' | '.join(parts)
    words = []
    for _ in range(min(DISTINCT, count)):
        place = dice.randrange(3)
        words.append(dice.choice(stems[place::3]) + dice.choice(CLASSES[place][1]) + dice.choice(['', '', 'x']).replace('x', 'g'))
    rounds = max(1, count // len(words))
    with tempfile.TemporaryDirectory() as folder:
        write_project(folder, f'define Word {expression} ;\n')
        Path(folder, 'words').write_text(''.join(word + '\n' for word in words))
        ours = compiled('embedding_words.c', f'{folder}/ours', f'{ROOT}/out/libmorph.a', '-lpthread')
        for threads in THREADS:
            shown(f'morph.h, {threads}', subprocess.run([ours, folder, 'Word', folder, str(rounds), str(threads)], check=True, capture_output=True, text=True).stdout)
        shown('morph (Python)', by_python(folder, words, rounds))
        if has_foma():
            saved = saved_by_foma(folder, expression)
            try:
                foma = compiled('embedding_foma.c', f'{folder}/foma', '-lfoma', '-lz', '-lpthread')
                for threads in THREADS:
                    shown(f'libfoma, {threads}', subprocess.run([foma, saved, folder, str(rounds), str(threads)], check=True, capture_output=True, text=True).stdout)
            except (subprocess.CalledProcessError, OSError) as error:
                print('libfoma:', error)
        try:
            import hfst  # noqa: F401
        except ImportError:
            print('libhfst: its module for Python is not installed')
        else:
            att = f'{folder}/words.att'
            subprocess.run(['foma', '-p'], input=f'regex {expression} ;\nwrite att > {att}\n', check=True, stdout=subprocess.DEVNULL, text=True)
            shown('libhfst (Python)', by_hfst(att, words, rounds))


main()
