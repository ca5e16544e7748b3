#!/usr/bin/env python3
"""Says which crate of the program the process PROCESS, an `rt run`, proves now, how many are proved, and how many seconds are left by
the last figures: those of bench/proof_seconds.txt, and of out/proof_seconds.txt, where this script writes what each crate took here. Once
enough is proved, they are scaled by what it took.

usage: tools/proof_progress.py PROCESS
"""
import os
import subprocess
import sys
import time

ROOT = os.path.dirname(os.path.dirname(os.path.abspath(__file__)))
OWN = os.path.join(ROOT, 'out', 'proof_seconds.txt')
# Seconds of a crate that has no figure, and from how many on this run's own pace counts.
UNKNOWN, ENOUGH = 60, 100
EACH = 60


def figures():
    """The seconds of each crate's proof; of several lines the last one counts."""
    found = {}
    for path in (os.path.join(ROOT, 'bench', 'proof_seconds.txt'), OWN):
        if os.path.exists(path):
            with open(path) as lines:
                found.update((it.split()[0], int(it.split()[1])) for it in lines if it.strip() and not it.startswith('#'))
    return found


def of(name, *parts):
    return os.path.join(ROOT, 'crates', name, *parts)


def time_of(path):
    try:
        return os.stat(path).st_mtime
    except OSError:
        return 0


def newest_source(name):
    """When a source of the crate was last written."""
    return max(time_of(os.path.join(folder, file)) for part in ('src', 'specs', 'proofs')
               for folder, _, files in os.walk(of(name, part)) for file in ['.', *files])


def needed():
    """The crates of the program, in the order in which they are proved, and those that each uses."""
    names = subprocess.run([os.path.join(ROOT, 'tools', 'needed')], stdout=subprocess.PIPE, text=True, check=True).stdout.split()
    with open(os.path.join(ROOT, 'crates.txt')) as lines:
        uses = {it.partition(':')[0].strip(): it.partition(':')[2].split() for it in lines if ':' in it and not it.startswith('#')}
    return names, uses


def unproved(names, uses, sources):
    """The crates whose library isn't there, or is older than a source of it or of a crate below."""
    found, changed = set(), {}
    for name in names:
        changed[name] = max([sources[name], *(changed[it] for it in uses[name] if it in changed)])
        if time_of(of(name, 'out', 'rlib', 'stamp')) < changed[name]:
            found.add(name)
    return found


def now_proved(names, begun):
    """The crate that is proved now: its library was begun last, and isn't there. None where there is none."""
    begun_at = {name: time_of(of(name, 'out', 'rlib')) for name in names if not os.path.exists(of(name, 'out', 'rlib', 'stamp'))}
    name = max(begun_at, key=begun_at.get, default=None)
    return name if name and begun_at[name] >= begun - 2 else None


class Progress:
    def __init__(self, names, uses):
        self.names, self.figures, self.begun, self.pace = names, figures(), time.time(), 1.0
        self.left = unproved(names, uses, {name: newest_source(name) for name in names})
        # what an earlier run left half done takes less than a whole proof, and isn't kept as a figure
        self.half_done = {name for name in names if os.path.isdir(of(name, 'out', 'incremental'))}
        self.now, self.since, self.took, self.by_figures = None, self.begun, 0, 0

    def figure(self, name):
        return self.figures.get(name, UNKNOWN)

    def look(self):
        """Looks which crate is proved now; whether it is another one."""
        name = now_proved(self.names, self.begun)
        # behind its libraries the program itself is proved
        if name is None and self.now and os.path.exists(of(self.now, 'out', 'rlib', 'stamp')):
            behind = self.names[self.names.index(self.now) + 1:]
            name = self.names[-1] if not set(behind[:-1]) & self.left else self.now
        if name is None or name == self.now:
            return False
        if self.now:
            self.end()
        self.now, self.since = name, time.time()
        self.left -= set(self.names[:self.names.index(name)])
        return True

    def end(self):
        """Notes what the crate took."""
        took = time.time() - self.since
        self.left.discard(self.now)
        if self.now in self.half_done:
            return
        self.took, self.by_figures = self.took + took, self.by_figures + self.figure(self.now)
        if self.by_figures >= ENOUGH:
            self.pace = self.took / self.by_figures
        os.makedirs(os.path.dirname(OWN), exist_ok=True)
        with open(OWN, 'a') as out:
            out.write('%s %d\n' % (self.now, max(1, round(took))))

    def seconds_left(self):
        behind = sum(self.figure(it) for it in self.left if it != self.now) * self.pace
        if self.now is None:
            return behind
        return behind + max(0, self.figure(self.now) * self.pace - (time.time() - self.since))

    def say(self):
        done = len(self.names) - len(self.left | {self.now} - {None})
        does = 'proves %s' % self.now if self.now else 'reads the sources'
        print('morph: %s; %d of %d crates are proved; some %d s are left by the last figures'
              % (does, done, len(self.names), round(self.seconds_left(), -1)), flush=True)


def main(process):
    progress = Progress(*needed())
    said = 0
    while os.path.exists('/proc/%d' % process):
        if progress.look() or time.time() - said >= EACH:
            progress.say()
            said = time.time()
        time.sleep(1)


if __name__ == '__main__':
    main(int(sys.argv[1]))
