"""The grids that are measured: made by a fixed generator, so they are the same each time."""

OPERATORS = b'ABCDEFGHIJKLMNOPQRSTUVWXYZabcdefghijklmnopqrstuvwxyz*#:%!?;='
# A small piece that plays three instruments, on a grid of 25 x 57.
PIECE = [b'', b'.D4', b'..:92Cf1', b'', b'.3U8', b'...:92Fc1', b'', b'..C4', b'D2.4TCEGA', b'.:04.82'] + [b''] * 15


def piece():
    return b'\n'.join(row.ljust(57, b'.') for row in PIECE) + b'\n'


def dots(height, width):
    return (b'.' * width + b'\n') * height


def crowded(height, width, percent):
    """A grid in which this share of the cells holds an operator."""
    word, rows = 1, []
    for _ in range(height):
        row = bytearray()
        for _ in range(width):
            word = (word * 6364136223846793005 + 1442695040888963407) % 2 ** 64
            draw = word >> 33
            row.append(OPERATORS[draw // 100 % len(OPERATORS)] if draw % 100 < percent else 46)
        rows.append(bytes(row))
    return b'\n'.join(rows) + b'\n'
