#!/usr/bin/env python3
"""Proves the libraries below the program orca side by side: scripts/prove.py RT, where RT is the toolchain's command.

The command `rt run` would prove them too, but one after another. This takes from that command how it proves a library
and how its gate shares processors and memory. Each library that is proved is kept as `rt` keeps it, so a run that is
interrupted goes on where it stopped. It says on standard error how far it is, and ends with 0 if all are proved, 1 if
one is not, and 2 if this command `rt` has no such parts.
"""
import copy
import importlib.machinery
import importlib.util
import os
import signal
import sys
import tempfile
import threading
import time

TOP = os.path.dirname(os.path.dirname(os.path.realpath(__file__)))


def load(path):
    """The command `rt`, as a module."""
    sys.dont_write_bytecode = True
    loader = importlib.machinery.SourceFileLoader('rt', path)
    module = importlib.util.module_from_spec(importlib.util.spec_from_loader('rt', loader))
    loader.exec_module(module)
    return module


class Progress:
    """What is proved so far, of how many, since when."""

    def __init__(self, count):
        self.count, self.proved, self.begin, self.lock = count, 0, time.monotonic(), threading.Lock()

    def tell(self, crate, output):
        with self.lock:
            self.proved += 1
            minutes = (time.monotonic() - self.begin) / 60
            print(f'== {crate.name}\n{output}', end='', flush=True)
            print(f'orca: {self.proved} of {self.count} libraries proved after {minutes:.1f} minutes: {crate.name}',
                  file=sys.stderr, flush=True)


def prove(rt, crate, jobs, progress):
    crate = copy.copy(crate)
    with tempfile.TemporaryFile('a+', errors='replace') as crate.out:
        os.makedirs(crate.folder + '/out', exist_ok=True)
        status = crate.build_rlib(['--jobs', str(jobs)], anew=False)
        crate.out.seek(0)
        output = crate.out.read()
    if status:
        print(f'== {crate.name}\n{output}', end='', flush=True)
        print(f'orca: {crate.name} is not proved', file=sys.stderr, flush=True)
    else:
        # Other checkouts on this machine then begin with what was proved here.
        rt.offer(crate, crate.stamp())
        progress.tell(crate, output)
    return status == 0


def task(rt, crate, missing, progress):
    """What the crate waits for, how much it is, what memory it may take, and the work itself."""
    below = [(it.name, 'proof') for it in crate.below() if it in missing]
    lines = sum(rt.rtlib.text_of(file).count('\n') for file in rt.rtlib.files_of(crate.folder))

    def work(given, jobs):
        return all(given[it] for it in below) and prove(rt, crate, jobs, progress)

    return below, lines, rt.need(crate), work


def main(path):
    os.chdir(TOP)
    try:
        rt = load(os.path.realpath(path))
        rt.rtlib.guarded()
        signal.signal(signal.SIGINT, signal.SIG_DFL)
        crates = rt.rtlib.crates_below(TOP + '/crates/orca')
        held = rt.rtlib.lock(crates)
        missing = [it for it in crates if it.makes_rlib() and not it.is_built()]
        progress = Progress(len(missing))
        tasks = {(it.name, 'proof'): task(rt, it, missing, progress) for it in missing}
        given = rt.in_lanes(tasks)
    except (AttributeError, ImportError, KeyError, TypeError, ValueError) as error:
        print(f'these parts are not in {path}: {error!r}')
        return 2
    except OSError as error:
        print(f'the system fails: {error}')
        return 1
    return 0 if all(given.values()) else 1


if __name__ == '__main__':
    sys.exit(main(sys.argv[1]))
