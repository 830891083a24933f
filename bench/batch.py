#!/usr/bin/env python3
"""Measures the memory and the time of whole sessions: bench/batch.py [PROGRAM] [--share N]

Each line is one run, or the difference of two. --share N does an Nth of each, for a first look. PROGRAM is
crates/orca/out/orca if it is not given. For times that mean something nothing else may run.

The memory of a run is the most that the program itself has touched (VmHWM). It is read while the program waits at its
last line, since nobody takes what it prints until then.
"""
import os
import random
import subprocess
import sys
import tempfile
import time

import grids
from built import program_of

SHARE = int(sys.argv[sys.argv.index('--share') + 1]) if '--share' in sys.argv else 1
# How often a time is taken; the least counts.
TRIES = 3


def field(process, file, name):
    """A field of a running program, as the system tells it; none once it has ended."""
    try:
        for line in open(f'/proc/{process.pid}/{file}'):
            if line.startswith(name + ':'):
                return line.split()[1]
    except (FileNotFoundError, ProcessLookupError):
        pass
    return None


def full_pipe():
    """A pipe that has no room."""
    reader, writer = os.pipe()
    os.set_blocking(writer, False)
    try:
        while True:
            os.write(writer, b'.' * 4096)
    except BlockingIOError:
        os.set_blocking(writer, True)
    return reader, writer


def megabytes(*words):
    """The most memory that a run touches."""
    reader, writer = full_pipe()
    process = subprocess.Popen([PROGRAM, *map(str, words)], stdout=writer, stderr=subprocess.PIPE)
    os.close(writer)
    kilobytes, waits = 0, 0
    # It waits at its last line if it has slept for a while.
    while process.poll() is None and waits < 20:
        kilobytes = max(kilobytes, int(field(process, 'status', 'VmHWM') or 0))
        waits = waits + 1 if field(process, 'status', 'State') == 'S' else 0
        time.sleep(0.002)
    while os.read(reader, 1 << 16):
        pass
    os.close(reader)
    if process.wait() not in (0, 3):
        sys.exit(f'{words}: {process.stderr.read()}')
    return kilobytes / 1024


def seconds(*words):
    """The least time of some runs."""
    least = 1e9
    for _ in range(TRIES):
        begin = time.monotonic()
        done = subprocess.run([PROGRAM, *map(str, words)], stdout=subprocess.DEVNULL, stderr=subprocess.PIPE)
        least = min(least, time.monotonic() - begin)
        if done.returncode != 0:
            sys.exit(f'{words} ends with {done.returncode}: {done.stderr}')
    return least


def tell(name, *words):
    print(f'{name:<76} {seconds(*words):8.3f} seconds {megabytes(*words):7.1f} megabytes', flush=True)


def replayed(grid, script):
    """The time of a replay."""
    save('script', script)
    return seconds('replay', grid, 'script', '--limit', 4_000_000)


def tell_each(name, grid, before, more, count):
    """How long each of some commands takes that come after others: the time of all, without that of those before."""
    each = (replayed(grid, before + more) - replayed(grid, before)) / count
    print(f'{name:<76} {each * 1e6:8.1f} microseconds each', flush=True)
    return each


def save(name, content):
    with open(name, 'wb') as file:
        file.write(content if isinstance(content, bytes) else ''.join(line + '\n' for line in content).encode())


def mixed(count, height, width):
    """Edits of all kinds, each now and then after a frame."""
    draw = random.Random(1)

    def place():
        return f'{draw.randrange(height)} {draw.randrange(width)}'

    def block():
        return f'{place()} {draw.randint(1, 16)} {draw.randint(1, 16)}'

    kinds = [
        lambda: f"write {place()} {draw.choice('ABCDE0123456789*')}",
        lambda: f"fill {block()} {draw.choice('.1A')}",
        lambda: f'erase {block()}', lambda: f'copy {block()}', lambda: f'cut {block()}',
        lambda: f'paste {place()}', lambda: f'move {block()} {place()}', lambda: 'frame',
    ]
    return [draw.choice(kinds)() for _ in range(count)]


def tell_rooms():
    """What a session holds."""
    for side in (1, 256, 1_024):
        save('dots', grids.dots(side, side))
        tell(f'a session at its start, {side} x {side}', 'run', 'dots', 0)
    frames = 4_000_000 // SHARE
    tell(f'{frames} frames on an empty grid', 'run', 'dot', frames, '--limit', 4_000_000)
    # As many as a script has room for, and all of them are cut off.
    frames = 2_790_000 // SHARE
    save('cut', ['frame'] * frames + ['rewind 0'])
    tell(f'{frames} frames, and a rewind to the first', 'replay', 'dot', 'cut', '--limit', 4_000_000)
    fills = 1_030 // SHARE
    save('fills', [f"fill 0 0 256 256 {'AB'[number % 2]}" for number in range(fills)])
    save('dots', grids.dots(256, 256))
    tell(f'{fills} fills of 256 x 256', 'replay', 'dots', 'fills')
    fills = 70 // min(SHARE, 7)
    save('fills', [f"fill 0 0 1024 1024 {'AB'[number % 2]}" for number in range(fills)])
    save('dots', grids.dots(1_024, 1_024))
    tell(f'{fills} fills of 1,024 x 1,024', 'replay', 'dots', 'fills')
    most = 16_777_216 // SHARE
    save('longest', b'#' + b' ' * (most - 1))
    tell(f'a script of {most} bytes with no command', 'replay', 'dot', 'longest')


def tell_edits():
    """What edits and undos take."""
    edits = 20_000 // SHARE
    tell_each('a mixed edit on 64 x 64 with 10 %', 'crowd', [], mixed(edits, 64, 64), edits)
    turns = 20_000 // SHARE
    for side in (64, 1_024):
        save('grid', grids.crowded(side, side, 10))
        writes, undone = ['write 0 0 A'] * turns, ['write 0 0 A', 'undo'] * turns
        each = (replayed('grid', undone) - replayed('grid', writes)) / turns
        name = f'an undo of a write on {side} x {side} with 10 %'
        print(f'{name:<76} {each * 1e6:8.2f} microseconds each', flush=True)
    # Writes all over the grid, as many as the ring has patches for. Each round begins with the opened grid again.
    turns, draw = max(20 // SHARE, 2), random.Random(2)
    writes = [f'write {draw.randrange(1_024)} {draw.randrange(1_024)} A' for _ in range(1_023)]
    save('grid', grids.dots(1_024, 1_024))
    start, once = replayed('grid', []), replayed('grid', writes)
    each = (replayed('grid', (writes + ['rewind 0']) * turns) - start) / turns - (once - start)
    print(f"{'a rewind over 1,023 writes on 1,024 x 1,024':<76} {each * 1e3:8.2f} milliseconds each", flush=True)


def tell_rewinds():
    """What going back beyond the patches takes."""
    save('tall', grids.dots(256, 1))
    # Each round goes back and plays on. Rounds of twice as many frames tell what these take, so the rest is the rewind.
    turns, there = 400 // SHARE, ['frame'] * 2_000

    def rounds(count):
        return replayed('tall', there + (['rewind 900'] + ['frame'] * count) * turns) / turns

    start, short, long = replayed('tall', there) / turns, rounds(1_100), rounds(2_200)
    frame = (long - short) / 1_100
    rewind = short - start - 1_100 * frame
    print(f"{'a rewind of 1,100 frames on 256 rows':<76} {rewind * 1e6:8.1f} microseconds, "
          f'and 900 frames {frame * 900e6:8.1f}: {rewind / frame / 900:.2f}', flush=True)

    frames, draw = 100_000 // SHARE, random.Random(3)
    moments = sorted((draw.randrange(frames - 1_100) for _ in range(40)), reverse=True)
    played = ['frame'] * frames
    name = f'{frames} frames on 64 x 64 with 10 %'
    print(f"{name:<76} {replayed('crowd', played):8.3f} seconds", flush=True)
    tell_each('a rewind to a random one of these moments, beyond the patches', 'crowd', played,
              [f'rewind {moment}' for moment in moments], len(moments))


def tell_retracts():
    """What it takes to take out an edit that thousands of frames came after."""
    turns, frames = max(20 // SHARE, 2), ['frame'] * 4_096
    # What a round before has left: the frames, and the end of the notes in place of the edit.
    edits = [['write 0 0 A'] + frames for _ in range(turns)]
    taken = [edit + [f'retract {turn * (len(frames) + 1)}'] for turn, edit in enumerate(edits)]
    each = (replayed('crowd', sum(taken, [])) - replayed('crowd', sum(edits, []))) / turns
    print(f"{'a retract of an edit 4,096 frames ago':<76} {each * 1e3:8.2f} milliseconds each", flush=True)


def main():
    save('dot', grids.dots(1, 1))
    save('crowd', grids.crowded(64, 64, 10))
    tell_rooms()
    tell_edits()
    tell_rewinds()
    tell_retracts()


if __name__ == '__main__':
    PROGRAM = program_of(sys.argv[1:])
    with tempfile.TemporaryDirectory() as folder:
        os.chdir(folder)
        main()
