"""Glyphs: what may stand in a cell, the characters of ASCII from `!` to `~`, each as its number."""

EMPTY, BANG, COMMENT = b'.*#'
DIGITS = b'0123456789'
CAPITALS = b'ABCDEFGHIJKLMNOPQRSTUVWXYZ'
SMALL_LETTERS = b'abcdefghijklmnopqrstuvwxyz'
LETTERS = CAPITALS + SMALL_LETTERS
SIGNS = b'*#:%!?;='
OPERATORS = frozenset(LETTERS + SIGNS)

# What a digit or a letter counts as, 0 to 35. Any other glyph counts as 0.
VALUES = [0] * 128
for number, digit in enumerate(DIGITS + SMALL_LETTERS):
    VALUES[digit] = number
    VALUES[ord(chr(digit).upper())] = number


def is_glyph(byte):
    return ord('!') <= byte <= ord('~')


def value(glyph):
    return VALUES[glyph]


def glyph_of(number):
    """The digit, or the small letter, of a value."""
    return (DIGITS + SMALL_LETTERS)[number]


def glyph_like(number, model):
    """The same, as a capital where the model is one."""
    glyph = glyph_of(number)
    return ord(chr(glyph).upper()) if model in CAPITALS else glyph


# The steps of C major above C, by the letters C to B.
STEPS = (0, 2, 4, 5, 7, 9, 11)


def note_number(glyph):
    """How far the note of a letter lies above C: `C` to `G` and then `H`, `I` and so on go up the white keys, over as
    many octaves as there are letters; `A` and `B` are `H` and `I`. A small letter is a semitone higher. None for
    other glyphs."""
    if glyph not in LETTERS:
        return None
    letter = chr(glyph).upper()
    letter = {'A': 'H', 'B': 'I'}.get(letter, letter)
    octave, step = divmod(ord(letter) - ord('C'), 7)
    return 12 * octave + STEPS[step] + (glyph in SMALL_LETTERS)
