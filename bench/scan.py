#!/usr/bin/env python3
"""Compares a frame of `orca run` with one of a full scan in C: bench/scan.py [PROGRAM] [--instructions] [--only GRID]

The scan is bench/scan.c, which is compiled here. PROGRAM is crates/orca/out/orca if it is not given. Both have to leave
the same grid. Each line is a grid: the nanoseconds of a frame of the scan and of the program, and what part these are
of those. Below 1 the program is faster. Each time is the least one of some tries, in which the two alternate.

With --instructions they are counted in place of the time, by callgrind, a tool of valgrind. They are the same on every
machine. A frame is the difference of a short and of a long run, so starting, loading and printing drop out.
"""
import argparse
import os
import re
import subprocess
import tempfile
import time

import grids

HERE = os.path.dirname(os.path.abspath(__file__))
TRIES = 12
# A grid's name, what it is, and the frames of a long run.
GRIDS = [('the piece, 25 x 57', grids.piece(), 100000)]
for side, counts in ((64, (60000, 40000, 12000, 3000)), (256, (6000, 4000, 800, 250)), (1024, (400, 200, 40, 15))):
    for percent, many in zip((0, 1, 10, 50), counts):
        grid = grids.crowded(side, side, percent) if percent else grids.dots(side, side)
        GRIDS.append((f'{side} x {side}, {percent} %', grid, many))


def nanoseconds(words):
    begin = time.perf_counter_ns()
    subprocess.run(words, stdout=subprocess.DEVNULL, check=True)
    return time.perf_counter_ns() - begin


def instructions(words):
    counted = subprocess.run(['valgrind', '--tool=callgrind', '--callgrind-out-file=/dev/null', *words],
                             capture_output=True, check=True, text=True)
    return int(re.search(r'Collected : (\d+)', counted.stderr)[1])


def frame(cost, words, few, many):
    """What a frame of these words costs."""
    return (cost([*words, str(many)]) - cost([*words, str(few)])) / (many - few)


def grid_after(words, frames):
    """The rows that are printed after so many frames."""
    done = subprocess.run([*words, str(frames)], capture_output=True, check=True)
    return [row for row in done.stdout.splitlines() if not row.startswith(b'tick ')]


def main():
    parser = argparse.ArgumentParser(description=__doc__, formatter_class=argparse.RawDescriptionHelpFormatter)
    parser.add_argument('program', nargs='?', default=HERE + '/../crates/orca/out/orca', type=os.path.abspath)
    parser.add_argument('--instructions', action='store_true')
    parser.add_argument('--only', default='', help='a part of the name of a grid')
    asked = parser.parse_args()
    print(f"{'grid':<20} {'scan':>12} {'orca':>12} {'ratio':>8}")
    with tempfile.TemporaryDirectory() as folder:
        scan, path = folder + '/scan', folder + '/grid'
        subprocess.run(['cc', '-std=c11', '-O3', '-o', scan, HERE + '/scan.c'], check=True)
        both = [scan, path], [asked.program, 'run', path]
        for name, grid, many in GRIDS:
            if asked.only not in name:
                continue
            with open(path, 'wb') as file:
                file.write(grid)
            if grid_after(both[0], 15) != grid_after(both[1], 15):
                raise SystemExit(f'{name}: the two leave different grids')
            if asked.instructions:
                costs = [frame(instructions, it, max(1, many // 2000), max(4, many // 200)) for it in both]
            else:
                tries = [[frame(nanoseconds, it, max(1, many // 10), many) for it in both] for _ in range(TRIES)]
                costs = [min(some) for some in zip(*tries)]
            print(f'{name:<20} {costs[0]:12.0f} {costs[1]:12.0f} {costs[1] / costs[0]:8.4f}', flush=True)


if __name__ == '__main__':
    main()
