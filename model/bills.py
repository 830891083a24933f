"""What a command may cost at most, in steps: its bill. docs/SESSIONS.md has the table.

A session keeps what was before each of its newest entries (the ring), and the grid of some moments (the checkpoints).
Three numbers say which: the first entry that the ring has, how far checkpoints lie apart, and the longest history so
far.
"""
import copy

from .edits import Frame
from .session import Copied, Edited, Framed, Jumped, Redone, Refused, Retracted, Session

COMMAND_PRICE = 8
CELL_PRICE = 4
OPERATOR_PRICE = 1200
FIRST_SPACING = 256
MOST_CHECKPOINTS = 65
RING_ENTRIES = 1024
RING_CELLS = 67_108_864


class BilledSession(Session):
    """A session that knows what is kept."""

    def __init__(self, grid, seed, limit):
        super().__init__(grid, seed, limit)
        self.first, self.spacing, self.peak = 0, FIRST_SPACING, 0

    def obey(self, command):
        before = self.moments
        answer, messages = super().obey(command)
        if isinstance(answer, Jumped):
            self.first = min(self.first, answer.moment)
        if isinstance(answer, Redone):
            self.first = before + answer.entries - 1
            for length in range(before, self.moments):
                self.count(length)
        if isinstance(answer, Retracted):
            self.first = before - 1
        if isinstance(answer, (Edited, Framed, Jumped)):
            self.wear()
        if not isinstance(answer, (Refused, Copied, Retracted)):
            self.count(self.moments)
        return answer, messages

    def wear(self):
        """The ring holds so many entries, and no more than touched so many cells together."""
        self.first = max(self.first, self.moments - RING_ENTRIES)
        touched = sum(change.touched for change in self.changes[self.first:])
        while touched > RING_CELLS:
            touched -= self.changes[self.first].touched
            self.first += 1

    def count(self, length):
        """Checkpoints lie twice as far apart once there would be too many."""
        self.peak = max(self.peak, length)
        if length == MOST_CHECKPOINTS * self.spacing:
            self.spacing *= 2

    # Prices.

    def cells_at(self, moment):
        return len(self.piece_at(moment).grid.cells)

    def price(self, moment):
        """Of doing the entry of this moment."""
        change = self.changes[moment]
        if isinstance(self.history[moment], Frame):
            return COMMAND_PRICE + change.piece.grid.height + OPERATOR_PRICE * change.reached
        return COMMAND_PRICE + CELL_PRICE * change.touched

    def checkpoints(self, moments, spacing):
        """The cells of those that are made at these moments."""
        return sum(self.cells_at(moment) for moment in moments if moment % spacing == 0)

    def bill(self, command):
        """Of a command that would be done now."""
        after = copy.copy(self)
        after.history, after.changes, after.tail = self.history[:], self.changes[:], self.tail[:]
        answer, _ = after.obey(command)
        before = self.moments
        if isinstance(answer, (Edited, Framed)):
            return after.price(before) + after.checkpoints([before + 1], self.spacing)
        if isinstance(answer, Jumped):
            return self.bill_of_jump(answer.moment) + after.checkpoints([answer.moment + 1], self.spacing)
        if isinstance(answer, Redone):
            again = sum(after.price(moment) for moment in range(before - 1, after.moments - 1))
            return COMMAND_PRICE + again + after.checkpoints(range(before, after.moments + 1), self.spacing)
        if isinstance(answer, Retracted):
            point = answer.moment // self.spacing * self.spacing
            again = sum(after.price(moment) for moment in range(point, before - 1))
            cells = self.cells_at(before) + self.cells_at(point)
            return COMMAND_PRICE + cells + again + after.checkpoints(range(point + 1, before + 1), self.spacing)
        return COMMAND_PRICE

    def bill_of_jump(self, moment):
        """As far as the ring reaches, entry after entry is taken back; before that, the last checkpoint is loaded and
        the entries after it are done again."""
        if moment >= self.first:
            return COMMAND_PRICE + sum(COMMAND_PRICE + CELL_PRICE * change.touched for change in self.changes[moment:])
        point = moment // self.spacing * self.spacing
        again = sum(self.price(entry) for entry in range(point, moment))
        return COMMAND_PRICE + self.cells_at(self.moments) + self.cells_at(point) + again
