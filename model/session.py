"""A session: a piece with its history, and the commands that change both. docs/SESSIONS.md shows them."""
from typing import NamedTuple, Optional

from .edits import (Area, Fill, Frame, Hush, Move, Piece, Put, Reset, Resize, apply, block_of, block_with, is_edit)
from .glyphs import EMPTY
from .grids import MOST_COLUMNS, MOST_ROWS, Grid
from .notes import ends_of


class Command(NamedTuple):
    """The word of a script line, and its numbers and glyph."""
    name: str
    values: tuple = ()


FRAME = Command('frame')


class Edited(NamedTuple):
    """A change of the piece that stands in the history."""


class Copied(NamedTuple):
    """What is copied has changed, and nothing else."""


class Framed(NamedTuple):
    """A frame was played, of this tick."""
    tick: int


class Jumped(NamedTuple):
    """An undo or a rewind has gone back to this moment."""
    moment: int


class Redone(NamedTuple):
    """So many entries have come back."""
    entries: int


class Retracted(NamedTuple):
    """The entry of this moment is gone, and all others stand."""
    moment: int


class Refused(Exception):
    """A command that changes nothing, by the rule that refuses it. `kept` is the length of the history where the rule
    tells it. Of several rules the first of the table in docs/SESSIONS.md counts, and each command asks in that
    order."""

    def __init__(self, rule, kept: Optional[int] = None):
        super().__init__(rule)
        self.rule, self.kept = rule, kept

    def __str__(self):
        return self.rule if self.kept is None else f'{self.rule} kept {self.kept}'


class Session:
    """`history` has the entries and `changes` what each made; `tail` is what jumps cut off and a redo brings back.
    Commands are methods of their name that give an answer and messages."""

    def __init__(self, grid, seed, limit):
        self.start, self.seed, self.limit = Piece(grid, 0, {}), seed, limit
        self.history, self.changes, self.tail = [], [], []
        self.copied = None

    def piece_at(self, moment):
        return self.changes[moment - 1].piece if moment else self.start

    @property
    def piece(self):
        return self.piece_at(self.moments)

    @property
    def moments(self):
        return len(self.history)

    def is_full(self):
        return self.moments >= self.limit

    def obey(self, command):
        """The answer to a command, which may be that it is refused, and its messages."""
        try:
            return getattr(self, command.name)(*command.values)
        except Refused as refused:
            return refused, []

    def close(self):
        """At the end of a run all notes end. The messages."""
        return ends_of(self.piece.notes)

    # What rules ask.

    def need(self, holds, rule, kept=None):
        if not holds:
            raise Refused(rule, kept)

    def need_place(self, row, column):
        self.need(self.piece.grid.holds(row, column), 'OutOfGrid')

    def area(self, row, column, height, width):
        """A rectangle that begins in the grid, cut to it."""
        self.need_place(row, column)
        self.need(height and width, 'EmptyBlock')
        grid = self.piece.grid
        return Area(row, column, min(height, grid.height - row), min(width, grid.width - column))

    # Entries.

    def add(self, entry):
        """An entry more. Its messages."""
        change, messages = apply(self.piece, entry, self.seed)
        self.changes.append(change)
        self.history.append(entry)
        return messages

    def cut_to(self, moment):
        """The history ends here. What is cut off."""
        cut = self.history[moment:]
        del self.history[moment:], self.changes[moment:]
        return cut

    def enter(self, entry):
        """An entry that a command makes. It forgets what could have come back."""
        self.need(not self.is_full(), 'HistoryFull')
        self.tail = []
        return self.add(entry)

    # Commands that edit the grid.

    def write(self, row, column, glyph):
        self.need_place(row, column)
        return Edited(), self.enter(Fill(Area(row, column, 1, 1), glyph))

    def fill(self, row, column, height, width, glyph):
        return Edited(), self.enter(Fill(self.area(row, column, height, width), glyph))

    def erase(self, row, column, height, width):
        return self.fill(row, column, height, width, EMPTY)

    def move(self, row, column, height, width, to_row, to_column):
        self.need_place(row, column)
        self.need_place(to_row, to_column)
        return Edited(), self.enter(Move(self.area(row, column, height, width), to_row, to_column))

    def resize(self, height, width):
        self.need(1 <= height <= MOST_ROWS and 1 <= width <= MOST_COLUMNS, 'BadSize')
        return Edited(), self.enter(Resize(height, width))

    # What is copied.

    def copy(self, row, column, height, width):
        self.copied = block_of(self.piece.grid, self.area(row, column, height, width))
        return Copied(), []

    def cut(self, row, column, height, width):
        area = self.area(row, column, height, width)
        block = block_of(self.piece.grid, area)
        messages = self.enter(Fill(area, EMPTY))
        self.copied = block
        return Edited(), messages

    def clip(self, row, column, glyph):
        """A cell of what is copied. The first cell begins anew; no other can."""
        self.need(row < MOST_ROWS and column < MOST_COLUMNS, 'BadSize')
        if (row, column) == (0, 0):
            self.copied = Grid(1, 1, bytes([glyph]))
        else:
            self.need(self.copied, 'EmptyClip')
            self.copied = block_with(self.copied, row, column, glyph)
        return Copied(), []

    def paste(self, row, column):
        self.need_place(row, column)
        self.need(self.copied, 'EmptyClip')
        return Edited(), self.enter(Put(row, column, self.copied))

    # Time and notes.

    def frame(self):
        tick = self.piece.tick
        return Framed(tick), self.enter(Frame())

    def reset(self):
        return Edited(), self.enter(Reset())

    def hush(self):
        return Edited(), self.enter(Hush())

    # The history.

    def undo(self):
        """Goes back to the moment before the last edit."""
        edits = [moment for moment, entry in enumerate(self.history) if is_edit(entry)]
        self.need(edits, 'NothingToUndo')
        return self.jump(edits[-1])

    def rewind(self, moment):
        self.need(moment < self.moments, 'NoSuchMoment', self.moments)
        return self.jump(moment)

    def jump(self, moment):
        """What is cut off can come back, but for the ends of notes that jumps had added. Such an end is added here
        too, so that nothing sounds on; for it there is room always."""
        messages = ends_of(self.piece.notes)
        self.tail = [entry for entry in self.cut_to(moment) if not isinstance(entry, Hush)] + self.tail
        self.add(Hush())
        return Jumped(moment), messages

    def group(self):
        """What one redo brings back: the first entry of the tail, and all before its next edit."""
        return next((count for count, entry in enumerate(self.tail) if count and is_edit(entry)), len(self.tail))

    def redo(self):
        """Nothing is heard of it, and the hush of the jump stays the last entry."""
        count = self.group()
        self.need(self.moments + count <= self.limit or not count, 'HistoryFull')
        self.need(count, 'NothingToRedo')
        self.cut_to(self.moments - 1)
        for entry in self.tail[:count] + [Hush()]:
            self.add(entry)
        del self.tail[:count]
        return Redone(count), []

    def size_in_use(self, moment):
        """Whether an edit came after a change of size, which may not fit the other size. A reset always does."""
        return isinstance(self.history[moment], Resize) and any(
            is_edit(entry) and not isinstance(entry, Reset) for entry in self.history[moment + 1:])

    def retract(self, moment):
        """As if the entry of this moment had never been made: those after it are done again, and nothing is heard of
        it but the ends of notes."""
        self.need(moment < self.moments, 'NothingToUndo')
        self.need(not self.size_in_use(moment), 'SizeInUse')
        messages = ends_of(self.piece.notes)
        for entry in self.cut_to(moment)[1:] + [Hush()]:
            self.add(entry)
        self.tail = []
        return Retracted(moment), messages
