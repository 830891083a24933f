"""What a key makes of cursor and selection, and what it asks for."""
from typing import NamedTuple, Optional

from .glyphs import EMPTY
from .grids import Grid
from .keys import key
from .session import Command

# The largest picture, and so the largest text that is pasted.
LEAST_ROWS, LEAST_COLUMNS = 2, 8
MOST_ROWS, MOST_COLUMNS = 100, 256
# How many moments the key Back goes back.
BACK_MOMENTS = 16
HELP_PAGES = 2


class Around(NamedTuple):
    """What a key is told: the grid, the length of the history, the size of the terminal, and the moment of the hand's
    own last edit that can be taken back."""
    grid: Grid
    moments: int
    rows: int
    columns: int
    own: Optional[int]


class Flow(NamedTuple):
    """A pasted text as far as it was read: the row and the column of its next cell, and whether the last of its cells
    and ends of rows was a return."""
    row: int
    column: int
    returned: bool

    def is_begun(self):
        return (self.row, self.column) != (0, 0)


NOTHING = key('Nothing')


def do(name, *values):
    """The wish that a command be done. All other wishes are keys whose work is not the editor's."""
    return key('Do', Command(name, values))


def stepped(side, by, down, right):
    """A pair of numbers, of which a side makes one greater or less, to 0 at least."""
    if side in ('up', 'down'):
        return (down + by if side == 'down' else max(0, down - by)), right
    return down, (right + by if side == 'right' else max(0, right - by))


class Editor:
    """The cursor is the first cell of the selection, which reaches down and to the right."""

    def __init__(self, full):
        self.row = self.column = 0
        self.height = self.width = 1
        self.paused = False
        self.append = False         # whether the cursor goes on behind a glyph
        self.guide = full           # whether the picture shows more than the grid
        self.anchor = (0, 0)        # the place of the last click
        self.flow = None            # a text that is pasted, while it is read
        self.page = 0               # the page of the help that is shown, or none
        self.traffic = False        # whether the picture tells what is sent

    def selection(self):
        return self.row, self.column, self.height, self.width

    def cut(self, height, width):
        """The selection ends with the grid."""
        self.height = max(1, min(self.height, height - self.row))
        self.width = max(1, min(self.width, width - self.column))

    def go(self, row, column, height, width):
        """The cursor goes to a place, as far as a grid of this size reaches."""
        self.row, self.column = min(row, height - 1), min(column, width - 1)
        self.cut(height, width)

    def fit(self, height, width):
        self.go(self.row, self.column, height, width)

    def select_one(self):
        self.height = self.width = 1

    def press(self, pressed, around):
        """What a key does here, and what it asks for: a wish. Any key but Help closes the help, but for what is no
        key of the player; in a text that is read only its end does."""
        name = pressed.name
        if name == 'Help' and self.flow is None:
            self.page = (self.page + 1) % (HELP_PAGES + 1)
            return NOTHING
        if name in ('PasteEnd', 'Escape') or self.flow is None and name not in ('Screen', 'Redraw'):
            self.page = 0
        if name == 'PasteBegin':
            self.flow = Flow(0, 0, False)
            return NOTHING
        if self.flow is not None:
            return self.read_text(pressed)
        act = getattr(self, 'press_' + name.lower(), None)
        return (act(around, *pressed.values) if act else pressed) or NOTHING

    # Keys that ask for Slower, Faster, Redraw, Screen, Save or Quit do nothing else. Those that follow may.

    def press_line(self, around):
        """The keys of a pasted text mean nothing outside of one."""

    press_return = press_pasteend = press_line

    def press_pause(self, around):
        self.paused = not self.paused
        return key('Toggle')

    def press_append(self, around):
        self.append = not self.append

    def press_guide(self, around):
        self.guide = not self.guide

    def press_traffic(self, around):
        self.traffic = not self.traffic

    def press_escape(self, around):
        self.select_one()
        self.append = False

    def press_all(self, around):
        self.row, self.column, self.height, self.width = 0, 0, around.grid.height, around.grid.width

    # Edits.

    def press_glyph(self, around, glyph):
        wish = do('write', self.row, self.column, glyph)
        if self.append:
            self.go(self.row, self.column + 1, around.grid.height, around.grid.width)
        return wish

    def press_rub(self, around):
        """While the cursor goes on behind a glyph, the one before it is erased."""
        if self.append and (self.height, self.width) == (1, 1):
            self.column = max(0, self.column - 1)
        return self.press_erase(around)

    def press_erase(self, around):
        return do('erase', *self.selection())

    def press_fill(self, around):
        return do('fill', *self.selection(), around.grid.glyph(self.row, self.column))

    def press_copy(self, around):
        return do('copy', *self.selection())

    def press_cut(self, around):
        return do('cut', *self.selection())

    def press_paste(self, around):
        return do('paste', self.row, self.column)

    # Time and the history.

    def press_step(self, around):
        return do('frame')

    def press_reset(self, around):
        return do('reset')

    def press_hush(self, around):
        return do('hush')

    def press_undo(self, around):
        return do('undo')

    def press_redo(self, around):
        return do('redo')

    def press_back(self, around):
        return do('rewind', max(0, around.moments - BACK_MOMENTS))

    def press_retract(self, around):
        """Without an edit of one's own it asks for one that is not there, which is refused."""
        return do('retract', around.moments if around.own is None else around.own)

    # Arrows.

    def press_arrow(self, around, deed, side, by):
        return getattr(self, deed)(around, side, by)

    def move(self, around, side, by):
        self.go(*stepped(side, by, self.row, self.column), around.grid.height, around.grid.width)

    def stretch(self, around, side, by):
        self.height, self.width = stepped(side, by, self.height, self.width)
        self.cut(around.grid.height, around.grid.width)

    def slide(self, around, side, by):
        """What is selected goes along, as far as all of it stays in the grid."""
        row, column = stepped(side, by, self.row, self.column)
        row, column = min(row, around.grid.height - self.height), min(column, around.grid.width - self.width)
        if (row, column) == (self.row, self.column):
            return NOTHING
        wish = do('move', *self.selection(), row, column)
        self.row, self.column = row, column
        return wish

    def grow(self, around, side, by):
        """A size that no grid can have is asked for, too, and is refused."""
        return do('resize', *stepped(side, by, around.grid.height, around.grid.width))

    # The mouse.

    def window(self, rows, columns):
        """The first row and column that the picture shows: it turns pages."""
        return self.row // (rows - 1) * (rows - 1), self.column // columns * columns

    def pointed(self, around, row, column):
        """The place that a cell of the terminal shows, or the nearest one that it shows."""
        top, left = self.window(around.rows, around.columns)
        row, column = min(row, around.rows - 2), min(column, around.columns - 1)
        return min(top + row, around.grid.height - 1), min(left + column, around.grid.width - 1)

    def press_press(self, around, row, column):
        self.row, self.column = self.anchor = self.pointed(around, row, column)
        self.select_one()

    def press_drag(self, around, row, column):
        """Selects from the last click, or what is nearest to it in the grid by now, to this place."""
        row, column = self.pointed(around, row, column)
        from_row, from_column = min(self.anchor[0], around.grid.height - 1), min(self.anchor[1], around.grid.width - 1)
        self.row, self.column = min(row, from_row), min(column, from_column)
        self.height, self.width = abs(row - from_row) + 1, abs(column - from_column) + 1

    # A pasted text. Its cells become what is copied, one by one, and its end pastes that.

    def read_text(self, pressed):
        """A key in a text. A glyph is a cell, and a blank and a tab are empty ones; returns and line feeds end rows.
        The end of the text and an Escape end it. A size is the terminal's. All other keys are dropped."""
        name, flow = pressed.name, self.flow
        if name in ('PasteEnd', 'Escape'):
            self.flow = None
            return do('paste', self.row, self.column) if name == 'PasteEnd' and flow.is_begun() else NOTHING
        if name in ('Glyph', 'Pause', 'Append'):
            self.flow = Flow(flow.row, min(flow.column + 1, MOST_COLUMNS), False)
            if flow.row < MOST_ROWS and flow.column < MOST_COLUMNS:
                return do('clip', flow.row, flow.column, pressed.values[0] if name == 'Glyph' else EMPTY)
        if name == 'Line' and flow.returned:        # a return and a line feed end one row
            self.flow = flow._replace(returned=False)
        elif name in ('Line', 'Return'):            # before the first cell no row ends
            row = min(flow.row + 1, MOST_ROWS) if flow.is_begun() else 0
            self.flow = Flow(row, 0, name == 'Return')
        return pressed if name == 'Screen' else NOTHING
