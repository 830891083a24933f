#!/usr/bin/env python3
"""Tells what each crate costs in the gate, and its longest chain of crates.

  bench/gate.py run LOG    runs `rt ci` at the top of the repository, and keeps in LOG what it prints, each line after the
                           seconds since the start, and what it saw of the provers
  bench/gate.py LOG        prints the table and the chain of such a log. One of `rt ci | ts -s` serves too: then a time is
                           that from the moment when a crate could begin, with its wait for a processor, and the end of
                           its edits is not known

A time is in minutes. For each crate: its own proof, its tests, its edits, and the processor minutes of all three.
"""
import glob
import os
import re
import shutil
import subprocess
import sys
import threading
import time

TOP = os.path.dirname(os.path.dirname(os.path.abspath(__file__)))
KINDS = 'proof', 'tests', 'edits'


def crates():
    """The crates of crates.txt, and which of them each uses."""
    with open(TOP + '/crates.txt') as file:
        rows = [line.partition('#')[0].partition(':') for line in file]
    used = {row[0].split()[0]: row[2].split() for row in rows if row[0].strip()}
    return {name: [it for it in uses if it in used] for name, uses in used.items()}


class Work:
    """What was seen of one crate's provers of one kind: from when to when, and for how many processor seconds."""

    def __init__(self):
        self.begin, self.end, self.processes = None, None, {}

    def see(self, now, process, used):
        self.begin = now if self.begin is None else self.begin
        self.end, self.processes[process] = now, used

    def line(self, name, kind):
        return f'{self.end:.1f} = {name} {kind} {self.begin:.1f} {sum(self.processes.values()):.1f}'


def look(now, works):
    """Looks at the provers that run, each of which names its crate."""
    for path in glob.glob('/proc/[0-9]*/cmdline'):
        folder = os.path.dirname(path)
        try:
            words = open(path, 'rb').read().decode(errors='replace').split('\0')
            if os.path.basename(words[0]) != 'rattle' or '--crate-name' not in words:
                continue
            fields = open(folder + '/stat').read().rsplit(')', 1)[1].split()
            place = os.readlink(folder + '/cwd')
        except OSError:
            continue
        is_edit = '/rt-edit' in place
        if not is_edit and not place.startswith(TOP + '/'):
            continue
        kind = 'edits' if is_edit else 'tests' if '--test' in words else 'proof'
        used = sum(int(field) for field in fields[11:15]) / os.sysconf('SC_CLK_TCK')
        works.setdefault((words[words.index('--crate-name') + 1], kind), Work()).see(now, folder, used)


def run(log):
    begin, works, is_over = time.monotonic(), {}, threading.Event()

    def since():
        return time.monotonic() - begin

    def watch():
        while not is_over.wait(0.5):
            look(since(), works)

    watcher = threading.Thread(target=watch)
    watcher.start()
    with open(log, 'w') as file, subprocess.Popen(['rt', 'ci'], cwd=TOP, stdout=subprocess.PIPE, stderr=subprocess.STDOUT,
                                                  errors='replace') as gate:
        for line in gate.stdout:
            print(line, end='', flush=True)
            print(f'{since():.1f} {line}', end='', file=file, flush=True)
        is_over.set()
        watcher.join()
        for (name, kind), work in works.items():
            print(work.line(name, kind), file=file)
    return gate.returncode


def seconds_of(line):
    """The seconds at the head of a line, and the rest of it; also as `ts -s` writes them, 00:12:34."""
    found = re.match(r'(?:(\d+):(\d\d):(\d\d(?:\.\d+)?)|(\d+(?:\.\d+)?)) (.*)', line)
    if not found:
        return None, line
    hours, minutes, seconds, plain, rest = found.groups()
    return float(plain) if plain else int(hours) * 3600 + int(minutes) * 60 + float(seconds), rest


def read(log, used):
    """By crate and kind the seconds of begin and of end, and those of the processor, where the log tells them."""
    begins, ends, processor, last = {}, {}, {}, 0
    with open(log, errors='replace') as file:
        for line in file:
            now, text = seconds_of(line)
            if now is None:
                continue
            last = max(last, now)
            words = re.match(r'= (\w+) (\w+) (\S+) (\S+)$', text)
            proved = re.match(r'rt: (\w+)(: its tests are)? (?:NOT PROVED|proved)', text)
            trying = re.match(r'rt: (\w+): trying its must-fail edits', text)
            if words:
                key = words[1], words[2]
                begins[key], ends[key], processor[key] = float(words[3]), now, float(words[4])
            elif proved:
                ends.setdefault((proved[1], 'tests' if proved[2] else 'proof'), now)
            elif trying:
                begins.setdefault((trying[1], 'edits'), now)
    for name, kind in list(ends):
        below = [ends[it, 'proof'] for it in used.get(name, []) if (it, 'proof') in ends]
        begins.setdefault((name, kind), max(below, default=0))
    return begins, ends, processor, last


def chain_to(name, used, took, known):
    """The chain of crates up to this one whose proofs take longest together: their seconds, and their names."""
    if name not in known:
        below = max((chain_to(it, used, took, known) for it in used[name]), default=(0, []))
        known[name] = below[0] + took.get((name, 'proof'), 0), [*below[1], name]
    return known[name]


def tell(log):
    used = crates()
    begins, ends, processor, last = read(log, used)
    took = {key: ends[key] - begins[key] for key in ends if key in begins}
    print(f"{'crate':<16}", *(f'{kind:>8}' for kind in KINDS), f"{'processor':>10}")
    for name in used:
        spent = sum(processor.get((name, kind), 0) for kind in KINDS) / 60
        keys = [(name, kind) for kind in KINDS]
        print(f'{name:<16}', *(f'{took[key] / 60:8.1f}' if key in took else f"{'-':>8}" for key in keys), f'{spent:10.1f}')
    sums = [sum(took.get((name, kind), 0) for name in used) / 60 for kind in KINDS]
    print(f"{'all':<16}", *(f'{it:8.1f}' for it in sums), f'{sum(processor.values()) / 60:10.1f}')
    length, names = max(chain_to(name, used, took, {}) for name in used)
    chain = ', '.join(f"{name} {took.get((name, 'proof'), 0) / 60:.1f}" for name in names)
    print(f'the longest chain, {length / 60:.1f} of {last / 60:.1f} minutes: {chain}')


if __name__ == '__main__':
    if len(sys.argv) == 3 and sys.argv[1] == 'run':
        if not shutil.which('rt'):
            sys.exit("gate.py: the toolchain's command rt isn't on the path")
        sys.exit(run(sys.argv[2]))
    if len(sys.argv) != 2:
        sys.exit(__doc__)
    tell(sys.argv[1])
