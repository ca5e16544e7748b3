"""What the scripts beside it share: the program that they time, a project in a folder, foma's network of an expression, and the
time and peak memory of a command."""
import argparse
import os
import shutil
import subprocess
import sys
import tempfile
import time

ROOT = os.path.dirname(os.path.dirname(os.path.abspath(__file__)))


def program(words):
    """The program to time: the first of a script's words, if it has one, or else the built one, which `./morph` builds first where it
    isn't there or a source is newer."""
    if words:
        return os.path.abspath(words[0])
    subprocess.run([os.path.join(ROOT, 'morph'), 'help'], stdout=subprocess.DEVNULL, check=True)
    return os.path.join(ROOT, 'crates', 'morph', 'out', 'morph')


def program_of_walk(about, **counts):
    """The program, and the numbers, of the words of a script that walks by chance: so many steps and a seed, or these by default."""
    words = argparse.ArgumentParser(description=about.split('\n', maxsplit=1)[0])
    words.add_argument('program', nargs='?')
    for name, count in {**counts, 'seed': 1}.items():
        words.add_argument('--' + name, type=int, default=count)
    asked = words.parse_args()
    return program([asked.program] if asked.program else []), asked


def has_foma():
    """Whether foma and flookup are installed; says so where they aren't."""
    found = shutil.which('foma') and shutil.which('flookup')
    if not found:
        print('foma and flookup are not installed: nothing to compare with')
    return bool(found)


def write_project(folder, source, symbols=()):
    """Makes the folder a project with one file of definitions, and these further symbols."""
    with open(os.path.join(folder, 'project'), 'w') as manifest:
        manifest.write('xfst r.xfst\n' + ('alphabet %s\n' % ' '.join(symbols) if symbols else ''))
    with open(os.path.join(folder, 'r.xfst'), 'w') as out:
        out.write(source)


def saved_by_foma(folder, expression):
    """The file of foma's network of an expression."""
    network = os.path.join(folder, 'n.foma')
    script = 'regex %s ;\nsave stack %s\n' % (expression, network)
    subprocess.run(['foma', '-p'], input=script.encode(), stdout=subprocess.DEVNULL, check=True)
    return network


def peak_of(process):
    """The peak memory of a process so far, in bytes, or 0 where it has ended."""
    try:
        with open('/proc/%d/status' % process) as status:
            return sum(int(line.split()[1]) * 1024 for line in status if line.startswith('VmHWM'))
    except (OSError, ProcessLookupError):
        return 0


def timed(command, source=None, statuses=(0,), most=None, cwd=None):
    """The seconds and the peak memory, in bytes, of a command, in this folder, that reads the open file `source` and ends with one of the statuses.
    One that takes more than `most` seconds is ended, and has infinitely many."""
    start = time.monotonic()
    child = subprocess.Popen(command, stdin=source, stdout=subprocess.DEVNULL, cwd=cwd)
    memory = 0
    while child.poll() is None:
        memory = max(memory, peak_of(child.pid))
        if most is not None and time.monotonic() - start > most:
            child.kill()
            child.wait()
            return float('inf'), memory
        time.sleep(0.002)
    if child.returncode not in statuses:
        sys.exit('%s: status %d' % (' '.join(command), child.returncode))
    return time.monotonic() - start, memory


def spent(command, given, most, statuses=(0,)):
    """The processor seconds and the peak memory, in bytes, of a command with this input, which ends with one of the statuses;
    infinitely many seconds where it takes more than `most`, and is ended."""
    with tempfile.TemporaryFile() as source:
        source.write(given)
        source.seek(0)
        child = subprocess.Popen(command, stdin=source, stdout=subprocess.DEVNULL, stderr=subprocess.DEVNULL)
    start, memory = time.monotonic(), 0
    while True:
        memory = max(memory, peak_of(child.pid))
        done, status, usage = os.wait4(child.pid, os.WNOHANG)
        if done:
            child.returncode = os.waitstatus_to_exitcode(status)
            if child.returncode not in statuses:
                sys.exit('%s: status %d' % (' '.join(command), child.returncode))
            return usage.ru_utime + usage.ru_stime, memory
        if time.monotonic() - start > most:
            child.kill()
            os.wait4(child.pid, 0)
            child.returncode = -9
            return float('inf'), memory
        time.sleep(0.002)
