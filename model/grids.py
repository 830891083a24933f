"""Grids, and the text of a grid."""
from typing import NamedTuple

from .glyphs import EMPTY, is_glyph

MOST_ROWS = MOST_COLUMNS = 1024


class Grid(NamedTuple):
    """Rows of glyphs, of one length, one row after another. A block that was copied is a grid too."""
    height: int
    width: int
    cells: bytes

    def holds(self, row, column):
        return 0 <= row < self.height and 0 <= column < self.width

    def glyph(self, row, column):
        return self.cells[row * self.width + column]

    def rows(self):
        return [self.cells[row * self.width:(row + 1) * self.width] for row in range(self.height)]


def grid_of(rows, width):
    """Rows as a grid, filled with `.` at their right."""
    return Grid(len(rows), width, b''.join(bytes(row).ljust(width, b'.') for row in rows))


class GridRefused(Exception):
    """Why a text is no grid, in words."""


def read_grid(text):
    """The grid of a text. A row ends by a line feed, perhaps behind a return; the last end may be missing. A blank is
    an empty cell. The first byte that breaks a rule is refused, and a text without a cell, which has none, last of
    all."""
    rows = [bytearray()]
    for offset, byte in enumerate(text):
        if len(rows) > MOST_ROWS:
            raise GridRefused('too many rows')
        if is_glyph(byte) or byte == ord(' '):
            if len(rows[-1]) == MOST_COLUMNS:
                raise GridRefused(f'row {len(rows)} too wide')
            rows[-1].append(byte if is_glyph(byte) else EMPTY)
        elif byte == ord('\n'):
            rows.append(bytearray())
        elif text[offset:offset + 2] != b'\r\n':
            raise GridRefused(f'bad byte at {offset}')
    if text.endswith(b'\n'):
        rows.pop()
    width = max(map(len, rows), default=0)
    if width == 0:
        raise GridRefused('no cells')
    return grid_of(rows, width)


def text_of(grid):
    return b''.join(row + b'\n' for row in grid.rows())
