"""A frame: each cell is visited once, row by row from the left, and what it holds then decides."""
from .glyphs import OPERATORS, SMALL_LETTERS
from .operators import ACTS, LOCK, SLEEP, Visit


class Scan:
    """The grid as far as the frame has come. Marks, variables and events begin anew in each frame."""

    def __init__(self, grid, tick, seed):
        self.height, self.width, self.cells = grid.height, grid.width, bytearray(grid.cells)
        self.tick, self.seed = tick, seed
        self.marks = bytearray(len(self.cells))
        self.variables = bytearray(b'.' * 36)
        self.events = []
        # What a frame may cost: the operators that were reached, and the cells that were written.
        self.reached, self.written = 0, set()

    def visit(self, row, column):
        """An operator works unless it is locked or asleep; a small letter waits for a bang beside it."""
        if self.marks[row * self.width + column] & (LOCK | SLEEP):
            return
        visit = Visit(self, row, column)
        if visit.glyph in SMALL_LETTERS and not visit.has_bang():
            return
        ACTS[ord(chr(visit.glyph).upper())](visit)
        for place, glyph in visit.writes:
            self.cells[place] = glyph
            self.written.add(place)


def scan_of(grid, tick, seed):
    scan = Scan(grid, tick, seed)
    for place in range(len(scan.cells)):
        if scan.cells[place] in OPERATORS:
            scan.reached += 1
            scan.visit(*divmod(place, grid.width))
    return scan
