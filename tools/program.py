"""Runs the program for scripts: ./morph where it is built and nothing newer stands in the sources, else ./try."""
import functools
import os
import subprocess

ROOT = os.path.dirname(os.path.dirname(os.path.abspath(__file__)))


@functools.lru_cache(maxsize=None)
def words():
    """The words that start the program."""
    built = subprocess.run([os.path.join(ROOT, 'tools', 'built')], stdin=subprocess.DEVNULL).returncode == 0
    return [os.path.join(ROOT, 'morph' if built else 'try')]


def answers(folder, lines):
    """What `serve` answers to lines that look words up: the reply's first words, its words, and its texts, line by line. Where the project
    has a fault, or the program fails, its status and what it wrote."""
    text = ''.join(line + '\n' for line in lines)
    ran = subprocess.run([*words(), 'serve', folder], input=text.encode(), stdout=subprocess.PIPE)
    said = ran.stdout.decode(errors='replace').split('\n')
    if ran.returncode or not said[0].startswith('ok '):
        return ran.returncode or 1, ran.stdout.decode(errors='replace')
    found, at = [], 1
    for _ in lines:
        kind = said[at].split(' ')[1]
        count = int(kind) if kind.isdigit() else 3 if kind == 'loop' else 0
        found.append((kind, said[at + 1:at + 1 + count]))
        at += 1 + count
    return 0, found


def lines_for(command, folder, name, lines):
    """The status of a command of a project and a name with these lines, and the lines that it writes."""
    ran = subprocess.run([*words(), command, folder, name], input=''.join(line + '\n' for line in lines).encode(), stdout=subprocess.PIPE)
    return ran.returncode, ran.stdout.decode(errors='replace').split('\n')[:-1]
