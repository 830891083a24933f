#!/usr/bin/env python3
"""Goes back and forward over long histories: .ci/rewinds.py [PROGRAM]

A replay that goes back to a moment has to end as one that never went farther, and a redo after it as one that never went
back. The histories are so long that checkpoints are loaded and their spacing doubles; the moments are those at its edges
and at the edge of the patches, and some at random. PROGRAM is crates/orca/out/orca if it is not given.
"""
import os
import random
import subprocess
import sys
import tempfile

HERE = os.path.dirname(os.path.abspath(__file__))
sys.path.insert(0, os.path.join(HERE, '../bench'))
import grids

# How many patches are kept at most, and lengths around those at which the spacing doubles.
PATCHES = 1_024
RESIZES = 1_024
LENGTHS = (16_639, 16_640, 16_641, 17_000, 33_281, 70_000)
EDGES = (0, 1, 255, 256, 257, 511, 512, 513, 16_384)


def expect(holds, *what):
    """Ends all, with these words, if this does not hold."""
    if not holds:
        sys.exit(' '.join(str(it) for it in ('rewinds:', *what)))


def ended(lines):
    """The grid and the tick at the end of a replay."""
    with open('script', 'w') as file:
        file.writelines(line + '\n' for line in lines)
    done = subprocess.run([PROGRAM, 'replay', 'grid', 'script', '--limit', '4000000'], capture_output=True, text=True)
    expect(done.returncode == 0, done.returncode, done.stderr)
    *rows, state = done.stdout.splitlines()
    return rows, state.split()[1]


def played(count):
    return ['frame'] * count


def look(length, moment):
    """Goes back to a moment, forward again, and back to one inside what came back."""
    back = played(length) + [f'rewind {moment}']
    last = max(moment - 1, 0)
    expect(ended(back) == ended(played(moment)), 'a rewind', length, moment)
    expect(ended(back + ['redo']) == ended(played(length)), 'a redo', length, moment)
    again = back + ['redo', f'rewind {moment // 2}', 'redo', f'rewind {last}']
    expect(ended(again) == ended(played(last)), 'a rewind into what came back', length, moment)


def resized(count):
    """Resizes by turns between 256 rows of 256 and fewer. Each touches the cells of both sizes, so that the last 545 keep their
    patches."""
    return [f'resize {256 if turn % 2 else 192 + turn // 2 % 64} 256' for turn in range(count)]


def look_resized():
    """Goes back over the resizes, by a rewind and by undos, and one forward again."""
    lines = resized(RESIZES)
    for moment in (0, *range(476, 484), RESIZES - 1):
        there = ended(lines[:moment])
        expect(ended(lines + [f'rewind {moment}']) == there, 'a rewind', moment)
        expect(ended(lines + ['undo'] * (RESIZES - moment)) == there, 'undos', moment)
        expect(ended(lines + [f'rewind {moment}', 'redo']) == ended(lines[:moment + 1]), 'a redo', moment)


def main():
    draw, count = random.Random(1), 0
    with open('grid', 'wb') as file:
        file.write(grids.crowded(24, 40, 12))
    for length in LENGTHS:
        moments = [*EDGES, length - PATCHES - 1, length - PATCHES, length - 1, *(draw.randrange(length) for _ in range(6))]
        for moment in moments:
            look(length, moment)
            count += 1
    with open('grid', 'wb') as file:
        file.write(grids.crowded(256, 256, 12))
    look_resized()
    print(f'{RESIZES} resizes: each rewind, undo and redo leads where it must')
    print(f'{count} moments of histories of up to {LENGTHS[-1]} entries: each rewind and redo leads where it must')


if __name__ == '__main__':
    PROGRAM = os.path.abspath(sys.argv[1] if len(sys.argv) > 1 else os.path.join(HERE, '../crates/orca/out/orca'))
    if not os.access(PROGRAM, os.X_OK):
        sys.exit(f"rewinds.py: {PROGRAM} isn't built")
    with tempfile.TemporaryDirectory() as folder:
        os.chdir(folder)
        main()
