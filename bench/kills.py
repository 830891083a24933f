#!/usr/bin/env python3
"""Kills performances at random, for a long time: bench/kills.py [--minutes M] [--seed S]

For M minutes (30) one performance after the other is played by ./perform at 999 beats a minute, in a terminal of its own,
with random keys. After some seconds its program, its keeper or all of its processes are killed, or the key Quit ends it. Then
--recover has to give each glyph that was typed half a second before, in order; its grid has to be what the model of the rules
in model/ makes of its script; and no note may be on at its port. It ends with 1 if something of that does not hold.
"""
import os
import pty
import random
import signal
import subprocess
import sys
import tempfile
import threading
import time

from live import option

HERE = os.path.dirname(os.path.abspath(__file__))
sys.path.insert(0, os.path.join(HERE, '..'))
sys.dont_write_bytecode = True      # the checkout stays as it is

from model.grids import Grid, text_of
from model.script import read_script
from model.session import Session

PERFORM = os.path.join(HERE, '../perform')
GLYPHS = b'.....0123459DEEHNSWdehnswABab**::'
# Keys without a glyph: moves, selections and slides, those that erase, copy, cut, paste, fill, undo, redo, go back, step and
# reset, and a pasted text.
KEYS = ([b'\x1b[A', b'\x1b[B', b'\x1b[C', b'\x1b[D', b'\x1b[1;2B', b'\x1b[1;2C', b'\x1b[1;3C', b'\x1b[1;5B', b'\x1b[H'] * 4 +
        [b'\x7f', b'\x03', b'\x18', b'\x16', b'\x1a', b'\x19', b'\x02', b'\x06', b'\x12', b'\x0b',
         b'\x1b[200~12 3\n4\x1b[201~'])
# How long before a kill a key was surely taken, in seconds.
SURE = 0.5


def grid_of(script, opened):
    """The text of the grid after a script, by the model; and the glyphs that it writes."""
    seed, items = read_script(script.encode())
    session = Session(opened, seed, 1_000_000)
    for item in items:
        for _ in range(item.times):
            session.obey(item.command)
    written = [chr(item.command.values[2]) for item in items if item.command.name == 'write']
    return text_of(session.piece.grid).decode(), written


def notes_on(data):
    on = set()
    for i in range(0, len(data), 3):
        kind, channel, key = data[i] >> 4, data[i] & 15, data[i + 1]
        if kind == 9:
            on.add((channel, key))
        elif kind == 8:
            on.discard((channel, key))
        elif kind == 11 and key == 123:
            on = {note for note in on if note[0] != channel}
    return on


def children(pid):
    found = subprocess.run(['pgrep', '-P', str(pid)], stdout=subprocess.PIPE).stdout.split()
    return [int(child) for child in found]


def program_of(pid):
    """The process that plays, somewhere below this one."""
    for child in children(pid):
        with open(f'/proc/{child}/cmdline', 'rb') as file:
            if b'\0play\0' in file.read():
                return child
        found = program_of(child)
        if found:
            return found


def show(terminal, seen):
    """Reads what is shown, until the terminal is closed."""
    try:
        while True:
            seen.append(os.read(terminal, 1 << 16))
    except OSError:
        pass


def start(draw):
    """A performance in a terminal of its own: its process, its keyboard, and what it shows."""
    pid, terminal = pty.fork()
    if pid == 0:
        os.execv(PERFORM, [PERFORM, '--bpm', '999', '--midi', 'midi', '--rows', '20', '--cols', '70', 'piece'])
    seen = []
    threading.Thread(target=show, args=(terminal, seen), daemon=True).start()
    end = time.time() + 60
    while b' play 999' not in b''.join(seen[-3:]):
        if time.time() > end:
            sys.exit(f"there is no picture: {b''.join(seen)[-300:]!r}")
        time.sleep(0.02)
    return pid, terminal


def type_keys(draw, terminal, seconds):
    """Types for so long: the glyphs, each with its moment."""
    typed, end = [], time.time() + seconds
    while time.time() < end:
        key = draw.choice(KEYS) if draw.random() < 0.5 else bytes([draw.choice(GLYPHS)])
        os.write(terminal, key)
        if len(key) == 1 and 32 < key[0] < 127:
            typed.append((time.time(), key.decode()))
        time.sleep(draw.expovariate(60))
    return typed


def end_by(kind, pid, terminal):
    if kind == 'quit':
        os.write(terminal, b'\x11')
    elif kind == 'program':
        os.kill(program_of(pid), signal.SIGKILL)
    elif kind == 'keeper':
        os.kill(children(pid)[0], signal.SIGKILL)
    else:
        os.killpg(pid, signal.SIGKILL)
    moment = time.time()
    os.waitpid(pid, 0)
    os.close(terminal)
    return moment


def recover():
    """What --recover gives: the grid and the script; none if there was nothing that was not saved."""
    end = time.time() + 20
    while True:
        done = subprocess.run([PERFORM, '--recover', 'piece'], stderr=subprocess.PIPE)
        if done.returncode == 0:
            with open('piece.recovered.orca') as grid, open('piece.recovered.script') as script:
                return grid.read(), script.read()
        if b'nothing to recover' in done.stderr:
            return None
        if time.time() > end:
            sys.exit(f'it is not recovered: {done.stderr.decode()}')
        time.sleep(0.1)


def one_round(draw, kind):
    for name in os.listdir('.'):
        if not os.path.isdir(name):
            os.remove(name)
    height, width = draw.randint(2, 19), draw.randint(2, 70)
    opened = Grid(height, width, bytes(draw.choices(GLYPHS, k=height * width)))
    with open('piece', 'wb') as file:
        file.write(text_of(opened))
    open('midi', 'w').close()
    pid, terminal = start(draw)
    typed = type_keys(draw, terminal, draw.uniform(0.5, 8))
    moment = end_by(kind, pid, terminal)
    given = recover()
    sure = [glyph for at, glyph in typed if at < moment - SURE]
    if given is None:
        return f'is lost, though {len(sure)} glyphs were typed' if sure else None
    grid, glyphs = grid_of(given[1], opened)
    if given[0] != grid:
        return 'is recovered as another grid than the model makes of its script'
    if glyphs != [glyph for at, glyph in typed][:len(glyphs)] or len(glyphs) < len(sure):
        return f'has {len(glyphs)} of the {len(sure)} glyphs that were typed in time, of {len(typed)}'
    with open('midi', 'rb') as file:
        on = notes_on(file.read())
    return f'leaves notes on: {on!r}' if on else None


def main():
    minutes, seed = option('--minutes', 30), option('--seed', 1)
    draw, end, rounds = random.Random(seed), time.time() + 60 * minutes, 0
    os.chdir(tempfile.mkdtemp())
    while time.time() < end:
        kind = draw.choice(['quit', 'program', 'keeper', 'group'])
        fault = one_round(draw, kind)
        if fault:
            sys.exit(f'round {rounds + 1}, which ended by {kind}, {fault}; its files are in {os.getcwd()}')
        rounds += 1
    print(f'{rounds} performances: all that was typed is recovered')


if __name__ == '__main__':
    main()
