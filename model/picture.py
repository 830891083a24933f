"""What a player sees: rows of cells, each a byte and a style, and the bytes that paint them in a terminal (ECMA-48)."""
import functools
import os
from typing import NamedTuple, Optional

from .editor import Editor
from .edits import Piece
from .glyphs import BANG, CAPITALS, COMMENT, EMPTY, OPERATORS
from .keys import FAR
from .messages import in_words
from .operators import INPUT, LOCK, OUTPUT, SLEEP

PLAIN, BRIGHT, FAINT, UNDERLINED, REVERSED = 0, 1, 2, 4, 7
MAGENTA, MAGENTA_GROUND, RED, BLUE = 35, 45, 91, 94

OPERATOR_NAMES = {
    'A': 'add', 'B': 'subtract', 'C': 'clock', 'D': 'delay', 'E': 'east', 'F': 'if', 'G': 'generator', 'H': 'halt',
    'I': 'increment', 'J': 'jumper', 'K': 'konkat', 'L': 'lesser', 'M': 'multiply', 'N': 'north', 'O': 'read',
    'P': 'push', 'Q': 'query', 'R': 'random', 'S': 'south', 'T': 'track', 'U': 'uclid', 'V': 'variable', 'W': 'west',
    'X': 'write', 'Y': 'jymper', 'Z': 'lerp', '*': 'bang', '#': 'comment', ':': 'midi', '%': 'mono',
    '!': 'control change', '?': 'pitch bend', ';': 'udp', '=': 'osc'}


class Scene(NamedTuple):
    """What a picture is of: a terminal's size, a piece with the marks of its next frame, and an editor; in its last
    row the length of the history, the tempo, what fails, and what the last key came to."""
    rows: int
    columns: int
    piece: Piece
    marks: bytes                # none before the first frame is looked at
    editor: Editor
    others: set                 # the places of the cursors of other hands
    moments: int
    tempo: object
    warnings: list
    word: str
    warns: bool                 # whether warnings are red
    traffic: Optional[tuple]    # the last frame that sent something: its tick, and what


def picture_of(scene):
    """The rows of a picture: the grid, or a page of the help, and the status row."""
    rows, columns, editor = scene.rows, scene.columns, scene.editor
    if editor.page:
        return [text_row(line, columns) for line in help_page(editor.page, rows - 1)] + [status_row(scene)]
    top, left = editor.window(rows, columns)
    picture = [[cell_of(scene, row, column) for column in range(left, left + columns)]
               for row in range(top, top + rows - 1)]
    if editor.traffic and rows >= 3:
        picture[-1] = text_row(traffic_text(scene.traffic), columns)
    return picture + [status_row(scene)]


def text_row(text, columns):
    """A row with a text, cut or filled with blanks."""
    return [(byte, PLAIN) for byte in text.ljust(columns)[:columns]]


# The grid.

def cell_of(scene, row, column):
    """Beyond the grid there is nothing. The guide has a ruler: a `+` at each eighth faint empty cell, each way."""
    grid, editor = scene.piece.grid, scene.editor
    if not grid.holds(row, column):
        return ord(' '), PLAIN
    glyph, style = grid.glyph(row, column), style_of(scene, row, column)
    if editor.guide and (glyph, style) == (EMPTY, FAINT) and row % FAR == 0 and column % FAR == 0:
        glyph = ord('+')
    return glyph, style


def style_of(scene, row, column):
    """The first that holds: selected, another's cursor, an output, an input, not at work, a glyph of its own colour."""
    grid, editor = scene.piece.grid, scene.editor
    glyph, marks = grid.glyph(row, column), scene.marks[row * grid.width + column]
    if 0 <= row - editor.row < editor.height and 0 <= column - editor.column < editor.width:
        return REVERSED
    if (row, column) in scene.others:
        return MAGENTA_GROUND
    if marks & OUTPUT:
        return RED if editor.guide and glyph == BANG else BRIGHT
    if marks & INPUT:
        return UNDERLINED
    if marks & (LOCK | SLEEP) or glyph == EMPTY:
        return FAINT
    return colour_of(glyph) if editor.guide else PLAIN


def colour_of(glyph):
    """Operators that work in each frame are blue, and those that wait for a bang magenta."""
    if glyph in (BANG, COMMENT):
        return RED if glyph == BANG else FAINT
    if glyph in CAPITALS:
        return BLUE
    return MAGENTA if glyph in OPERATORS else PLAIN


# Rows of text.

@functools.lru_cache(None)
def help_lines(name):
    with open(os.path.join(os.path.dirname(__file__), 'help', name), 'rb') as file:
        return file.read().splitlines()


def help_page(page, rows):
    """The first rows of a page of the help."""
    return (help_lines(('keys.txt', 'operators.txt')[page - 1]) + [b''] * rows)[:rows]


def traffic_text(traffic):
    """What the last frame sent that sent anything but ends of notes."""
    if traffic is None:
        return b''
    tick, messages = traffic
    return b' '.join([b'%d:' % tick] + [in_words(message) for message in messages])


def status_row(scene):
    """Where the session stands, what fails, and what the last key came to. Warnings are red, but not the blanks
    between."""
    editor, piece = scene.editor, scene.piece
    words = [f'{piece.tick} {scene.moments} {len(piece.notes)} {editor.row},{editor.column} '
             f'{editor.height}x{editor.width}', 'pause' if editor.paused else 'play']
    if editor.guide:
        words += [str(scene.tempo), '*' if piece.tick % 4 == 1 else '.']
    words += ['append'] * editor.append + ['paste'] * (editor.flow is not None)
    styles = [(word, PLAIN) for word in words]
    styles += [(warning, RED if scene.warns else PLAIN) for warning in scene.warnings]
    styles.append((scene.word, RED if scene.warns and scene.word not in ('ok', 'saved') else PLAIN))
    glyph = chr(piece.grid.glyph(editor.row, editor.column))
    if editor.guide and glyph.upper() in OPERATOR_NAMES:
        styles.append((f'{glyph} {OPERATOR_NAMES[glyph.upper()]}', PLAIN))
    cells = []
    for word, style in styles:
        cells += [(byte, style) for byte in word.encode()] + [(ord(' '), PLAIN)]
    return (cells + [(ord(' '), PLAIN)] * scene.columns)[:scene.columns]


# Painting.

def painting(shown, picture):
    """The bytes that make a terminal show a picture: the rows that are not shown yet, or all where that is not
    known."""
    return b''.join(row_painting(number, row) for number, row in enumerate(picture, 1)
                    if shown is None or shown[number - 1] != row)


def row_painting(number, row):
    """The cursor goes to the row, the style is plain, and each style is said where it begins."""
    text, current = bytearray(b'\x1b[%d;1H\x1b[0m' % number), PLAIN
    for byte, style in row:
        if style != current:
            text += b'\x1b[0m' + (b'\x1b[%dm' % style if style else b'')
            current = style
        text.append(byte)
    return bytes(text)
