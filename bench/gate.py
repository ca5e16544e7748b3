#!/usr/bin/env python3
"""Runs the gate from nothing and prints what it takes, crate by crate: processor seconds of the proof, of the tests and of the
edits, and the peak memory of a check; and the chain of crates, each of which stands on the one before, whose proofs take longest.
Usage: bench/gate.py [WORDS OF rt ci ..], by default --anew where the kit keeps what it proved; `bench/gate.py kept` proves only what
no earlier run on this machine has proved.

The time of each prover is read while it runs, a few times a second, so a line may lack as much; the sum at the end is the
system's own count."""
import os
import re
import resource
import subprocess
import sys
import time

ROOT = os.path.dirname(os.path.dirname(os.path.abspath(__file__)))
TICK = os.sysconf('SC_CLK_TCK')
KINDS = ('proof', 'tests', 'edits')


def read(path):
    with open(path, errors='replace') as text:
        return text.read()


def children_of():
    """The processes that each process has started, by number."""
    children = {}
    for name in os.listdir('/proc'):
        if name.isdigit():
            try:
                fields = read(f'/proc/{name}/stat').rpartition(')')[2].split()
            except OSError:
                continue
            children.setdefault(int(fields[1]), []).append((int(name), fields))
    return children


def below(process):
    """The descendants of a process, with the fields of their stat behind the name."""
    children, found, left = children_of(), [], [process]
    while left:
        for child, fields in children.get(left.pop(), []):
            found.append((child, fields))
            left.append(child)
    return found


def task_of(process):
    """The crate that the prover works at, and whether at its proof, its tests or an edit; None for another process."""
    words = read(f'/proc/{process}/cmdline').split('\0')
    if os.path.basename(words[0]) != 'rattle' or '--crate-name' not in words:
        return None
    crate = words[words.index('--crate-name') + 1]
    # edits are tried in folders of their own
    if '/rt-edit' in os.readlink(f'/proc/{process}/cwd'):
        return crate, 'edits'
    return crate, 'tests' if '--test' in words else 'proof'


def watch(gate):
    """What each prover below the gate has used until it ended: its task, its processor seconds and its peak memory in bytes."""
    used = {}
    while gate.poll() is None:
        for process, fields in below(gate.pid):
            try:
                task = used[process][0] if process in used else task_of(process)
                if task is None:
                    continue
                seconds = (int(fields[11]) + int(fields[12])) / TICK
                peak = re.search(r'VmHWM:\s+(\d+)', read(f'/proc/{process}/status'))
                used[process] = task, seconds, int(peak[1]) * 1024 if peak else used.get(process, (0, 0, 0))[2]
            except OSError:
                continue
        time.sleep(0.25)
    return used.values()


def keeps():
    """Whether the kit's `rt ci` keeps what it proved, and so has a word for a run from nothing."""
    said = subprocess.run(['rt', 'help'], stdout=subprocess.PIPE, stderr=subprocess.STDOUT, text=True).stdout
    return '--anew' in said


def stands_on():
    """What each crate stands on."""
    lines = (line for line in read(os.path.join(ROOT, 'crates.txt')).splitlines() if ':' in line and not line.startswith('#'))
    return {head.split()[0]: deps.split() for head, deps in (line.split(':', 1) for line in lines)}


def longest_chain(rows):
    """The chain of crates whose proofs take longest, lowest first, and their seconds."""
    deps, known = stands_on(), {}

    def chain(crate):
        if crate not in known:
            below = max((chain(dep) for dep in deps[crate] if dep in deps), key=lambda it: it[0], default=(0, []))
            known[crate] = below[0] + rows.get(crate, {}).get('proof', 0), below[1] + [crate]
        return known[crate]

    return max(map(chain, deps), key=lambda it: it[0])


def main(words):
    start = time.monotonic()
    gate = subprocess.Popen(['rt', 'ci', *words], cwd=ROOT)
    rows = {}
    for (crate, kind), seconds, peak in watch(gate):
        row = rows.setdefault(crate, dict.fromkeys((*KINDS, 'peak'), 0))
        row[kind] += seconds
        row['peak'] = max(row['peak'], peak)
    spent = resource.getrusage(resource.RUSAGE_CHILDREN)
    print('%-20s %7s %7s %7s %7s %8s' % ('crate', *KINDS, 'all', 'peak MiB'))
    for crate, row in sorted(rows.items(), key=lambda it: -sum(it[1][kind] for kind in KINDS)):
        seconds = [row[kind] for kind in KINDS]
        print('%-20s %7.0f %7.0f %7.0f %7.0f %8.0f' % (crate, *seconds, sum(seconds), row['peak'] / 2**20))
    sums = [sum(row[kind] for row in rows.values()) for kind in KINDS]
    print('%-20s %7.0f %7.0f %7.0f %7.0f' % ('sum', *sums, sum(sums)))
    print('processor seconds in all: %.0f; seconds: %.0f, on %d processors' % (spent.ru_utime + spent.ru_stime, time.monotonic() - start, os.cpu_count()))
    seconds, chain = longest_chain(rows)
    print('longest chain: %d crates of %d, %.0f processor seconds: %s' % (len(chain), len(stands_on()), seconds, ', '.join(chain)))
    return gate.returncode


if __name__ == '__main__':
    words = sys.argv[1:] or (['--anew'] if keeps() else [])
    sys.exit(main([] if words == ['kept'] else words))
