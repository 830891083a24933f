"""Grids and scripts by chance. `dice` is the source of chance, a `random.Random`."""
from .glyphs import DIGITS, LETTERS, SIGNS

GLYPHS = DIGITS + LETTERS + SIGNS + b'....$"~'
FAR_NUMBERS = (0, 1, 1023, 1024, 1025, 2 ** 32 - 1)


def often(dice, odds):
    """Whether something is so, that is so with these odds."""
    return dice.random() < odds


def glyphs(dice, count, among=GLYPHS):
    return bytes(dice.choice(among) for _ in range(count))


# Grids.

def snippet(dice):
    """A few glyphs that do something together: of each part one, or of a part in brackets all."""
    def any_of(text):
        return dice.choice(text)

    value, few = '0123456789abcxyz', '.0123'
    return ''.join(any_of(part) if isinstance(part, str) else part[0] for part in dice.choice([
        ('.12', ['D'], '.1234'), (value, 'ABCFILMRUZabcfilmruz', value), (value, 'CDU', value),
        ([':'], '0123f.', '0345789z', 'CcDEFGaAbB9', '.0f4z', '.0123z'), (['%'], '012', '345', 'CDEFGA', '.f', '.14'),
        (['!'], '01fg.', value, value), (['?'], '01fg.', value, value), ([';'],) + ('abz09*.',) * dice.randint(1, 18),
        (['='], 'aZ0.*', few, value, value, value), ('.ab', ['V'], '.ab5'), (few, ['K'], 'ab.', 'ab.', 'ab.'),
        (value, value, few, ['G'], value, value, value), (few, few, ['X'], 'EeSN*5D'), (few, few, ['O']),
        (few, few, few, ['Q']), (value, few, ['T'], value, value, value), (value, few, ['P'], value),
        ('EWSNewsn', '.*'), (['JJ'],), (['YY'],), ('JYjy',), (['#'], 'EC.', 'EC.', '#.'), ('H*',)])).encode()


def put(rows, row, column, text):
    rows[row][column:column + len(text)] = text[:max(0, len(rows[row]) - column)]


def instrument(dice):
    """Two rows that send in some frames."""
    channel, note = glyphs(dice, 1, b'0001fgz.'), glyphs(dice, 1, b'034589z') + glyphs(dice, 1, b'CCdEGABb')
    length = glyphs(dice, 1, b'.8fz') + glyphs(dice, 1, b'.1248z')
    sent = dice.choice([b':', b':', b'%', b'%', b'!', b'?', b';', b'='])
    return b'.D' + glyphs(dice, 1, b'111234'), b'..' + sent + channel + note + length


def text_of_rows(rows):
    return b''.join(bytes(row) + b'\n' for row in rows)


def grid(dice, most_rows=12, most_columns=28, sounds=0.5):
    """The text of a grid: single glyphs, snippets, perhaps instruments."""
    height, width = dice.randint(1, most_rows), dice.randint(1, most_columns)
    density = dice.choice([0, 0.02, 0.1, 0.4])
    rows = [bytearray(dice.choice(GLYPHS) if often(dice, density) else ord('.') for _ in range(width))
            for _ in range(height)]
    for _ in range(height * width // 14):
        put(rows, dice.randrange(height), dice.randrange(width), snippet(dice))
    if height > 1 and width > 8 and often(dice, sounds):
        for _ in range(dice.randint(1, 4)):
            row, column = dice.randrange(height - 1), dice.randrange(width - 7)
            for down, text in enumerate(instrument(dice)):
                put(rows, row + down, column, text)
    return text_of_rows(rows)


def size_of(text):
    rows = text.splitlines()
    return len(rows), len(rows[0])


def large_grid(dice):
    """A few long rows or columns, with jumpers and comments as long as they reach."""
    width = dice.choice([256, 257, 511, 512, 1023, 1024])
    rows = [bytearray(b'.' * width) for _ in range(dice.randint(1, 3))]
    for _ in range(dice.randint(1, 5)):
        reach = dice.randint(253, 258)
        text = dice.choice([b'5' + dice.choice([b'Y', b'y']) * reach + b'..', b'#' + b'E' * reach + b'#E', b'39G123',
                            snippet(dice)])
        column = dice.choice([0, 1, 63, 64, 255, 256, width - 2, dice.randrange(width)])
        put(rows, dice.randrange(len(rows)), column, text)
    return text_of_rows(rows if often(dice, 0.7) else [bytearray(column) for column in zip(*rows)])


# Scripts.

def line(dice, height, width, count):
    """A line of a script, for a grid of about this size and a history of about this length."""
    def place():
        return dice.choice([dice.randint(0, height), dice.randrange(height)]), dice.randint(0, width)

    def block():
        return place() + (dice.randint(0, height + 1), dice.randint(0, width + 1))

    glyph = chr(dice.choice(GLYPHS))
    moment = dice.choice([0, 1, count // 2, max(0, count - 1), count, dice.randint(0, 9)])
    words = dice.choice([
        *[('frame',)] * 12, *[('write', *place(), glyph)] * 4, ('fill', *block(), glyph), ('erase', *block()),
        ('copy', *block()), ('cut', *block()), ('paste', *place()), ('paste', *place()), ('clip', 0, 0, glyph),
        ('clip', *place(), glyph), ('move', *block(), *place()), ('resize', dice.randint(0, height + 3),
                                                                    dice.randint(0, width + 3)),
        ('reset',), ('hush',), ('undo',), ('undo',), ('redo',), ('redo',), ('rewind', moment), ('retract', moment),
        ('retract', moment), ('resize', dice.choice(FAR_NUMBERS), 1),
        ('clip', dice.choice([0, 1024]), dice.choice(FAR_NUMBERS), glyph)])
    return ' '.join(map(str, words))


def script(dice, height, width, length=40):
    """The text of a script, of either format."""
    lines = [line(dice, height, width, count) for count in range(dice.randint(0, length))]
    lines += dice.choice([[], ['frame'] * 3, ['undo', 'redo'], ['copy 0 0 2 2', 'paste 0 0'],
                          ['resize 2 9', 'write 0 0 7'] + [f'retract {count}' for count in range(9)]])
    if often(dice, 0.1):
        lines[:0] = ['frame'] * 256 + [f'retract {dice.randint(0, 256)}', 'rewind 1', 'redo']
    for _ in range(dice.choice([0, 0, 1, 2])):
        lines.insert(dice.randint(0, len(lines)), dice.choice(['', '# note', '  ', 'frame  ', 'write  0   0 7 ']))
    if often(dice, 0.5):
        lines = [f'!orca 2 seed {dice.choice([0, 1, 7, 2 ** 32 - 1])}'] + [
            f'frames {dice.randint(0, 9)}' if often(dice, 0.1) else text for text in lines]
    end = dice.choice(['\n', '\r\n'])
    return (end.join(lines) + dice.choice(['', end])).encode()


def spoil(dice, text, among):
    """The text with a few bytes more or less."""
    text = bytearray(text)
    for _ in range(dice.randint(1, 3)):
        at = dice.randint(0, len(text))
        if often(dice, 0.5):
            text.insert(at, dice.choice(among))
        else:
            del text[at:at + dice.choice([1, 1, 2, len(text)])]
    return bytes(text)
