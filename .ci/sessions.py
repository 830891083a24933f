#!/usr/bin/env python3
"""Random sessions: the built program's `replay` does scripts of 3,000 commands each, and the model of the rules in `model/`
does the same commands. After every hundredth one both have to print the same refusals, the same grid, tick, moments and
number of notes that sound, and the MIDI bytes have to be the same. Each grid begins with instruments, and more are written.
The history is short in every third session.

.ci/sessions.py                       8 sessions by the program that the gate has built
.ci/sessions.py PROGRAM 100 7         100 sessions by another one, the first of them drawn with seed 7
"""
import argparse
import os
import random
import subprocess
import sys
import tempfile

TOP = os.path.dirname(os.path.dirname(os.path.realpath(__file__)))
sys.path.insert(0, TOP)
sys.dont_write_bytecode = True      # the checkout stays as it is

from model.draw_texts import grid as some_grid, instrument
from model.edits import apply
from model.grids import MOST_COLUMNS, MOST_ROWS, read_grid, text_of
from model.messages import midi_bytes
from model.script import COMMANDS, GLYPH, GREATEST_NUMBER
from model.session import Command, Refused, Session

COUNT = 3000
LOOK = 100
# What is drawn most often, and then every operator.
GLYPHS = b'....................0123450123459DDEEHHNSWdehnsw****::::ABCFGIJKLMOPQRTUVXYZabcfgijklmopqrtuvxyz#%!?;='
# How often each command is drawn: as when a piece is played, and as when it is edited.
PLAYING = {'frame': 86, 'write': 6, 'fill': 1, 'erase': 1, 'copy': 1, 'cut': 1, 'clip': 2, 'paste': 1, 'move': 1,
           'resize': 0.6, 'reset': 0.3, 'undo': 0.5, 'rewind': 0.6, 'redo': 1.2}
EDITING = {'frame': 40, 'write': 22, 'fill': 5, 'erase': 4, 'copy': 5, 'cut': 4, 'clip': 9, 'paste': 6, 'move': 5,
           'resize': 3, 'reset': 2, 'undo': 2.5, 'rewind': 1.5, 'redo': 4}


# What is drawn.

def some_place(dice, grid):
    if dice.random() < 0.02:
        return dice.choice([(grid.height, 0), (0, grid.width), (grid.height + dice.randrange(300), 0),
                            (GREATEST_NUMBER, 0), (0, GREATEST_NUMBER)])
    return dice.randrange(grid.height), dice.randrange(grid.width)


def some_block(dice, grid):
    lengths = [0, 7, 300, GREATEST_NUMBER] if dice.random() < 0.05 else [1, 2, 3, 4]
    return some_place(dice, grid) + (dice.choice(lengths), dice.choice(lengths))


def some_side(dice):
    return dice.choice([0, 1, MOST_ROWS + 1, GREATEST_NUMBER]) if dice.random() < 0.04 else dice.randint(3, 12)


def some_cell(dice):
    """A cell of what is copied: the first one, one near it, or one at the edge of what that may hold."""
    if dice.random() < 0.02:
        return dice.choice([(MOST_ROWS - 1, 0), (0, MOST_COLUMNS - 1), (MOST_ROWS, 0), (0, MOST_COLUMNS)])
    return dice.choice([(0, 0), (dice.randrange(5), dice.randrange(5))])


def some_moment(dice, session):
    moments = session.moments
    nearly = [0, moments - 1, moments, moments + 1, moments - 1024, moments - 1025, dice.randrange(moments + 1)]
    return max(0, dice.choice(nearly) if dice.random() < 0.1 else moments - dice.randint(1, 40))


def some_command(dice, session, weights):
    grid = session.piece.grid
    name = dice.choices(list(weights), list(weights.values()))[0]
    if name == 'resize':
        values = (some_side(dice), some_side(dice))
    elif name == 'rewind':
        values = (some_moment(dice, session),)
    elif name == 'clip':
        values = some_cell(dice)
    elif name in ('write', 'paste'):
        values = some_place(dice, grid)
    elif name in ('fill', 'erase', 'copy', 'cut', 'move'):
        values = some_block(dice, grid)
    else:
        values = ()
    if name == 'move':
        values += some_place(dice, grid)
    return Command(name, values + (dice.choice(GLYPHS),) * (GLYPH in COMMANDS[name]))


def some_commands(dice, session, weights):
    """Mostly one command, and now and then those that write an instrument."""
    if dice.random() < 0.985:
        return [some_command(dice, session, weights)]
    grid = session.piece.grid
    row, column = dice.randrange(grid.height), dice.randrange(grid.width)
    return [Command('write', (row + down, column + right, glyph)) for down, text in enumerate(instrument(dice))
            for right, glyph in enumerate(text)]


def line_of(dice, command):
    """The line of a command, perhaps with more blanks, and zeros before its numbers."""
    words, zeros = [command.name], dice.random() < 0.1
    for kind, value in zip(COMMANDS[command.name], command.values):
        words.append(chr(value) if kind == GLYPH else str(value).zfill(dice.randint(1, 10) if zeros else 1))
    end = dice.choice(['\n', '\n', '\n', '\r\n'])
    return dice.choice([' ', ' ', ' ', '   ']).join(words) + ' ' * dice.choice([0, 0, 0, 2]) + end


# One session, by the model and by the program.

def fold(session):
    """The piece that the entries of a session make, one after another."""
    piece = session.start
    for entry in session.history:
        change, _ = apply(piece, entry, session.seed)
        piece = change.piece
    return piece


def difference(words, lines, wanted, sent):
    """What the program does otherwise, if anything: what it is called, and how the program ended."""
    *_, midi, _, script = words
    with open(script, 'w', newline='') as file:
        file.write(''.join(lines))
    done = subprocess.run(words, stdout=subprocess.PIPE, stderr=subprocess.PIPE)
    if done.returncode != 0 or done.stderr or done.stdout != wanted:
        return 'what it prints', wanted, done
    with open(midi, 'rb') as file:
        return None if file.read() == sent else ('its MIDI bytes', wanted, done)


def compare(program, folder, seed):
    dice = random.Random(seed)
    limit = dice.choice([1, 7, 200]) if seed % 3 == 0 else 1_000_000
    weights = PLAYING if seed % 2 == 0 else EDITING
    opened = read_grid(some_grid(dice, 9, 16, sounds=1))
    session, lines, refused, sent, following = Session(opened, 1, limit), [], b'', b'', []
    grid, script, midi = (os.path.join(folder, f'{name}{seed}') for name in ('grid', 'script', 'midi'))
    with open(grid, 'wb') as file:
        file.write(text_of(opened))
    words = [program, 'replay', '--limit', str(limit), '--midi', midi, grid, script]
    for number in range(1, COUNT + 1):
        while dice.random() < 0.02:
            lines.append(dice.choice(['\n', '   \r\n', '# a comment\n']))
        following = following or some_commands(dice, session, weights)
        command = following.pop(0)
        lines.append(line_of(dice, command))
        answer, messages = session.obey(command)
        sent += b''.join(midi_bytes(messages))
        if isinstance(answer, Refused):
            refused += b'refused %d %s\n' % (len(lines), str(answer).encode())
        if number % LOOK == 0:
            piece = session.piece
            state = b'tick %d moments %d sounding %d\n' % (piece.tick, session.moments, len(piece.notes))
            differs = difference(words, lines, refused + text_of(piece.grid) + state,
                                 sent + b''.join(midi_bytes(session.close())))
            if differs:
                return differs
    if session.piece != fold(session):
        sys.exit(f'seed {seed}: the model is not what its entries make')
    return None


def tell(seed, folder, what, wanted, done):
    print(f'seed {seed}: {what} differs; grid{seed} and script{seed} are in {folder}')
    print(f'status {done.returncode}')
    print(done.stderr.decode(errors='replace'), end='')
    lines = (text.decode(errors='replace').splitlines() + [''] for text in (wanted, done.stdout))
    for number, (model, program) in enumerate(zip(*lines), 1):
        if model != program:
            print(f'line {number} is {program!r} and not {model!r}')
            break


def main():
    parser = argparse.ArgumentParser(description=__doc__, formatter_class=argparse.RawDescriptionHelpFormatter)
    parser.add_argument('program', nargs='?', default=os.path.join(TOP, 'crates/orca/out/orca'), type=os.path.abspath)
    parser.add_argument('count', nargs='?', default=8, type=int)
    parser.add_argument('seed', nargs='?', default=1, type=int)
    words = parser.parse_args()
    if not os.access(words.program, os.X_OK):
        sys.exit(f"sessions.py: {words.program} isn't built")
    folder = tempfile.mkdtemp()
    for seed in range(words.seed, words.seed + words.count):
        differs = compare(words.program, folder, seed)
        if differs:
            tell(seed, folder, *differs)
            sys.exit(1)
    for name in os.listdir(folder):
        os.remove(os.path.join(folder, name))
    os.rmdir(folder)
    print(f'{words.count} sessions of {COUNT} commands agree')


if __name__ == '__main__':
    main()
