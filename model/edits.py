"""The entries of a history, and what each makes of a piece."""
from typing import NamedTuple

from .glyphs import EMPTY
from .grids import Grid, grid_of
from .notes import ends_of, sound
from .scan import scan_of


class Piece(NamedTuple):
    """A grid, the number of its next frame, and the notes that sound."""
    grid: Grid
    tick: int
    notes: dict


class Area(NamedTuple):
    """A rectangle inside the grid."""
    row: int
    column: int
    height: int
    width: int

    def places(self):
        return [(row, column) for row in range(self.row, self.row + self.height)
                for column in range(self.column, self.column + self.width)]


class Fill(NamedTuple):
    area: Area
    glyph: int


class Put(NamedTuple):
    """A block with its first cell at a place; what reaches over the edge of the grid is dropped."""
    row: int
    column: int
    block: Grid


class Move(NamedTuple):
    """What stands in an area goes to a place, and leaves empty cells."""
    area: Area
    row: int
    column: int


class Resize(NamedTuple):
    height: int
    width: int


class Reset(NamedTuple):
    """All notes end, and the tick is 0."""


class Frame(NamedTuple):
    pass


class Hush(NamedTuple):
    """All notes end."""


EDITS = (Fill, Put, Move, Resize, Reset)


def is_edit(entry):
    """Whether an undo goes back to before it: frames and hushes are passed over."""
    return isinstance(entry, EDITS)


class Change(NamedTuple):
    """What an entry makes of a piece, and by what it costs: the cells that it touched and, of a frame, the operators
    that it reached."""
    piece: Piece
    touched: int
    reached: int = 0


def block_of(grid, area):
    rows = grid.rows()[area.row:area.row + area.height]
    return Grid(area.height, area.width, b''.join(row[area.column:area.column + area.width] for row in rows))


def block_with(block, row, column, glyph):
    """A block with a glyph in a cell, as large as holds it. New cells are empty."""
    height, width = max(block.height, row + 1), max(block.width, column + 1)
    cells = bytearray(grid_of(block.rows() + [b''] * (height - block.height), width).cells)
    cells[row * width + column] = glyph
    return Grid(height, width, bytes(cells))


def glyphs_written(entry, grid):
    """Which places of the grid a fill, a put or a move writes, and what it writes there."""
    if isinstance(entry, Fill):
        return {place: entry.glyph for place in entry.area.places()}
    if isinstance(entry, Put):
        return {(entry.row + row, entry.column + column): entry.block.glyph(row, column)
                for row in range(min(entry.block.height, grid.height - entry.row))
                for column in range(min(entry.block.width, grid.width - entry.column))}
    down, right = entry.row - entry.area.row, entry.column - entry.area.column
    moved = {(row + down, column + right): grid.glyph(row, column) for row, column in entry.area.places()
             if grid.holds(row + down, column + right)}
    return {**dict.fromkeys(entry.area.places(), EMPTY), **moved}


def apply(piece, entry, seed):
    """The change that an entry makes, and its messages."""
    grid = piece.grid
    if isinstance(entry, Frame):
        scan = scan_of(grid, piece.tick, seed)
        notes, messages = sound(piece.notes, piece.tick, scan.events)
        after = Piece(grid._replace(cells=bytes(scan.cells)), piece.tick + 1, notes)
        return Change(after, len(scan.written), scan.reached), messages
    if isinstance(entry, (Hush, Reset)):
        tick = 0 if isinstance(entry, Reset) else piece.tick
        return Change(Piece(grid, tick, {}), 0), ends_of(piece.notes)
    if isinstance(entry, Resize):
        rows = [row[:entry.width] for row in grid.rows()[:entry.height]]
        after = grid_of(rows + [b''] * (entry.height - len(rows)), entry.width)
        return Change(piece._replace(grid=after), len(grid.cells) + len(after.cells)), []
    written, cells = glyphs_written(entry, grid), bytearray(grid.cells)
    for (row, column), glyph in written.items():
        cells[row * grid.width + column] = glyph
    return Change(piece._replace(grid=grid._replace(cells=bytes(cells))), len(written)), []
