#!/usr/bin/env python3
"""Tells whether a frame of one program takes longer than that of another one: bench/pairs.py OLD NEW [--rounds N]

OLD and NEW are built programs. Each run of NEW stands between two of OLD, and its ratio is its time over their mean. So
what the machine does meanwhile slows both, where two measurements an hour apart would tell of the machine.

Each line is a grid: the nanoseconds of a frame of OLD, the median of the ratios, and the interval in which the true
median lies in 19 of 20 measurements. From each time the least one of some short runs is taken off, so starting, loading
and printing drop out.
"""
import math
import os
import subprocess
import sys
import tempfile
import time

import grids
from built import program_of

ROUNDS = int(sys.argv[sys.argv.index('--rounds') + 1]) if '--rounds' in sys.argv else 40
# A grid's name, what it is, and the frames of a short and of a long run, which takes some 30 milliseconds.
GRIDS = [('25 x 57, the piece', grids.piece(), 4000, 104000)]
for side, counts in ((64, ((4000, 164000), (4000, 84000), (1200, 15000), (300, 3700))),
                     (256, ((2000, 52000), (400, 6400), (100, 700), (30, 180)))):
    for percent, (few, many) in zip((0, 1, 10, 50), counts):
        grid = grids.crowded(side, side, percent) if percent else grids.dots(side, side)
        GRIDS.append((f'{side} x {side}, {percent} %', grid, few, many))


def seconds(program, path, frames):
    """How long a run of so many frames takes."""
    begin = time.perf_counter()
    subprocess.run([program, 'run', path, str(frames)], stdout=subprocess.DEVNULL, check=True)
    return time.perf_counter() - begin


def ratios(old, new, path, few, many):
    """The times of the frames of OLD, and the ratios of NEW to it."""
    starts = {it: min(seconds(it, path, few) for _ in range(15)) for it in (old, new)}

    def taken(program):
        return seconds(program, path, many) - starts[program]

    times, found = [taken(old)], []
    for _ in range(ROUNDS):
        between = taken(new)
        times.append(taken(old))
        found.append(2 * between / (times[-2] + times[-1]))
    return sorted(times), sorted(found)


def main():
    if len(sys.argv) < 3:
        sys.exit(__doc__)
    old, new = program_of(sys.argv[1:]), program_of(sys.argv[2:])
    # So many of the sorted ratios lie below the interval, and as many above it.
    beside = max(0, int(ROUNDS / 2 - 0.98 * math.sqrt(ROUNDS)))
    print(f"{'grid':<20} {'old ns':>12} {'new/old':>8} {'interval':>18}")
    with tempfile.TemporaryDirectory() as folder:
        for name, grid, few, many in GRIDS:
            path = folder + '/grid'
            with open(path, 'wb') as file:
                file.write(grid)
            times, found = ratios(old, new, path, few, many)
            print(f'{name:<20} {times[ROUNDS // 2] / (many - few) * 1e9:12.0f} {found[ROUNDS // 2]:8.3f} '
                  f'{found[beside]:9.3f} to {found[-1 - beside]:.3f}', flush=True)


if __name__ == '__main__':
    main()
