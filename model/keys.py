"""The keys that the bytes of a terminal are. Plain keys are read always, the others with full keys alone.

A terminal sends a character, or a sequence of ECMA-48: an escape, `[`, what is collected, and a last byte.
"""
import re
from typing import NamedTuple

from .glyphs import is_glyph
from .grids import MOST_COLUMNS

ESCAPE, BRACKET = 0x1B, ord('[')
MOST_COLLECTED = 12
# How far Control goes, and how far Home and End.
FAR, ALL_THE_WAY = 8, MOST_COLUMNS


class Key(NamedTuple):
    name: str
    values: tuple = ()


def key(name, *values):
    return Key(name, values)


def arrow(deed, side, by):
    """Moves the cursor, stretches the selection, slides the block in it, or makes the grid grow, to a side by so
    much."""
    return key('Arrow', deed, side, by)


BYTES = {0x02: 'Back', 0x03: 'Copy', 0x06: 'Step', 0x08: 'Rub', 0x11: 'Quit', 0x12: 'Reset', 0x13: 'Save',
         0x16: 'Paste', 0x18: 'Cut', 0x19: 'Redo', 0x1A: 'Undo', 0x20: 'Pause', 0x7F: 'Rub'}
FULL_BYTES = {0x01: 'All', 0x05: 'Hush', 0x07: 'Guide', 0x09: 'Append', 0x0A: 'Line', 0x0B: 'Fill', 0x0C: 'Redraw',
              0x0D: 'Return', 0x10: 'Help', 0x14: 'Traffic', 0x15: 'Retract'}

# Arrows, Home and End by their last byte; pages, Home and End by the number before `~`.
SIDES = {'A': ('up', 1), 'B': ('down', 1), 'C': ('right', 1), 'D': ('left', 1), 'H': ('left', ALL_THE_WAY),
         'F': ('right', ALL_THE_WAY)}
NUMBERED_SIDES = {1: ('left', ALL_THE_WAY), 4: ('right', ALL_THE_WAY), 5: ('up', FAR), 6: ('down', FAR),
                  7: ('left', ALL_THE_WAY), 8: ('right', ALL_THE_WAY)}
DEEDS = ('move', 'stretch', 'slide', 'grow')
# Other keys by the number before `~`.
NUMBERED = {2: key('Append'), 3: key('Erase'), 11: key('Help'), 12: key('Traffic'), 17: key('Slower', 10),
            18: key('Slower', 1), 19: key('Faster', 1), 20: key('Faster', 10), 200: key('PasteBegin'),
            201: key('PasteEnd')}
WHEEL = {64: ('up', FAR), 65: ('down', FAR)}


def modified(found, modifier=1):
    """A side and a reach with the keys that are held: one more than the sum of 1 for Shift, 2 for Alt and 4 for
    Control."""
    if found is None or not 1 <= modifier <= 8:
        return None
    (side, by), held = found, modifier - 1
    return arrow(DEEDS[held % 4], side, max(by, FAR) if held >= 4 else by)


# With full keys, after an escape and `O`, and on the Linux console after an escape and two `[`: None is no key.
AFTER_O = {**{ord(last): modified(side) for last, side in SIDES.items()},
           ord('P'): key('Help'), ord('Q'): key('Traffic'), ord('R'): None, ord('S'): None}
CONSOLE = {ord('A'): key('Help'), ord('B'): key('Traffic'), ord('C'): None, ord('D'): None, ord('E'): None}

PLAIN_SEQUENCES = {**{last: arrow('move', *SIDES[last]) for last in 'ABCD'},
                   **{'1;2' + last: arrow('stretch', *SIDES[last]) for last in 'ABCD'}}


def mouse(button, column, row):
    """A report of the mouse, whose cells count from 1: a click, a motion with the button held, the wheel."""
    if row == 0 or column == 0:
        return None
    name = {0: 'Press', 32: 'Drag'}.get(button)
    return key(name, row - 1, column - 1) if name else modified(WHEEL.get(button))


def full_sequence(collected, last):
    """The key of a sequence by its numbers, of 1 to 3 digits each, and its last byte."""
    is_mouse = collected.startswith('<')
    numbers = collected[is_mouse:]
    if len(collected) > MOST_COLLECTED or not re.fullmatch(r'(\d{1,3}(;\d{1,3})*)?', numbers):
        return None
    numbers = [int(number) for number in numbers.split(';') if number]
    if is_mouse:
        return mouse(*numbers) if len(numbers) == 3 and last == 'M' else None
    if len(numbers) == 0:
        return modified(SIDES.get(last))
    if len(numbers) == 1 and last == '~':
        return NUMBERED.get(numbers[0]) or modified(NUMBERED_SIDES.get(numbers[0]))
    if len(numbers) == 2 and last == '~':
        return modified(NUMBERED_SIDES.get(numbers[0]), numbers[1])
    if len(numbers) == 2 and numbers[0] == 1:
        return modified(SIDES.get(last), numbers[1])
    if len(numbers) == 3 and numbers[0] == 8 and last == 't':
        return key('Screen', *numbers[1:])
    return None


class Reader:
    """Makes keys of the bytes of a hand. `pending` is what was begun: an escape, an escape and `O`, the console's two
    `[`, or a sequence with what it has collected."""

    def __init__(self, full):
        self.full, self.pending, self.collected = full, None, ''

    def read(self, byte):
        """The keys that a byte gives, in their order."""
        pending, self.pending = self.pending, None
        if pending == 'sequence':
            return self.in_sequence(byte)
        if pending == 'escape':
            return self.after_escape(byte)
        if pending == 'o':
            return self.after_o(byte)
        if pending == 'console' and byte in CONSOLE:
            return [CONSOLE[byte]] if CONSOLE[byte] else []
        return self.outside(byte)

    def outside(self, byte):
        if byte == ESCAPE:
            self.pending = 'escape'
        elif is_glyph(byte):
            return [key('Glyph', byte)]
        elif byte in BYTES or self.full and byte in FULL_BYTES:
            return [key(BYTES.get(byte) or FULL_BYTES[byte])]
        return []

    def after_escape(self, byte):
        """An escape before another byte than `[` is the key Escape with full keys, and lost with plain ones."""
        if byte == BRACKET:
            self.pending, self.collected = 'sequence', ''
            return []
        if byte == ESCAPE:
            self.pending = 'escape'
            return [key('Escape')]
        if self.full and byte == ord('O'):
            self.pending = 'o'
            return []
        return [key('Escape')] * self.full + self.outside(byte)

    def after_o(self, byte):
        if byte in AFTER_O:
            return [AFTER_O[byte]] if AFTER_O[byte] else []
        return [key('Escape'), key('Glyph', ord('O'))] + self.outside(byte)

    def in_sequence(self, byte):
        """A byte that no sequence has drops it, and is read anew."""
        if 0x20 <= byte <= 0x3F:
            self.pending = 'sequence'
            self.collected += chr(byte)
            return []
        if not 0x40 <= byte <= 0x7E:
            return self.outside(byte)
        if self.full and self.collected == '' and byte == BRACKET:
            self.pending = 'console'
            return []
        found = PLAIN_SEQUENCES.get(self.collected + chr(byte))
        if self.full and found is None:
            found = full_sequence(self.collected, chr(byte))
        return [found] if found else []

    def wait(self):
        """The keys that it gives that nothing came for a while: what may have been more was none. A sequence goes
        on."""
        if self.pending == 'sequence':
            return []
        pending, self.pending = self.pending, None
        return {'escape': [key('Escape')], 'o': [key('Escape'), key('Glyph', ord('O'))]}.get(pending, [])
