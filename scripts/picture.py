#!/usr/bin/env python3
# Draws a piece as it stands in a terminal. The built program paints it, a small terminal reads what it paints, and
# docs/night.svg is written anew; picture.py --check only tells whether that file is what the program paints now.
import os
import re
import subprocess
import sys
import tempfile
from html import escape

TOP = os.path.dirname(os.path.dirname(os.path.realpath(__file__)))
PIECE, FRAMES, ROWS, COLUMNS = "night", 81, 24, 80
PAUSE, FRAME, DOWN, RIGHT, FASTER, FASTER_BY_TEN = b" ", b"\x06", b"\x1b[B", b"\x1b[C", b"\x1b[19~", b"\x1b[20~"
WIDE, HIGH, EDGE = 8.4, 18, 12

# The colours of the picture: of a terminal's text, and of what is faint, bright or in one of its sixteen colours.
GROUND, TEXT, FAINT, BRIGHT = "#14171c", "#aeb6c0", "#5d6876", "#ffffff"
COLOURS = {30: "#5d6876", 31: "#e06c75", 32: "#8fc379", 33: "#d9b36c", 34: "#61a8e8", 35: "#c585dd", 36: "#56b6c2",
           37: "#aeb6c0", 90: "#6b7584", 91: "#ff8a93", 92: "#b0e59a", 93: "#ffd68a", 94: "#8ac6ff", 95: "#e2a8f5",
           96: "#7fdbe6", 97: "#ffffff"}


def fails(text):
    sys.exit(f"picture.py: {text}")


def paint():
    """What the program sends to a terminal by ./perform, at the tempo that a piece begins with. It is so slow before that no
    frame plays but those that are asked for."""
    program = os.path.join(TOP, "crates/orca/out/orca")
    if not os.access(program, os.X_OK):
        fails("the program isn't built: ./orca run pieces/first.orca 8 builds it")
    with tempfile.NamedTemporaryFile() as keys:
        keys.write(PAUSE + FRAME * FRAMES + DOWN * 8 + RIGHT + FASTER_BY_TEN * 11 + FASTER * 8 + PAUSE)
        keys.flush()
        words = ["play", os.path.join(TOP, f"pieces/{PIECE}.orca"), keys.name, f"--rows={ROWS}", f"--cols={COLUMNS}"]
        played = subprocess.run([program, *words, "--bpm=2", "--keys=full"], stdin=subprocess.DEVNULL, stdout=subprocess.PIPE)
    if played.returncode != 0:
        fails(f"orca play ends with {played.returncode}")
    return played.stdout.decode("ascii")


def show(painted):
    """The rows of a terminal that gets this, each a list of glyphs with their styles."""
    cells = [[(" ", ())] * COLUMNS for _ in range(ROWS)]
    row, column, styles = 0, 0, ()
    for place, style, glyph in re.findall(r"\x1b\[(\d+;\d+)H|\x1b\[(\d+)m|([ -~])", painted):
        if place:
            row, column = (int(number) - 1 for number in place.split(";"))
        elif style:
            styles = () if style == "0" else (*styles, int(style))
        else:
            cells[row][column] = (glyph, styles)
            column += 1
    return cells


def runs(row):
    """The row in pieces of one style: the column that each begins at, its styles and its text."""
    found = []
    for column, (glyph, styles) in enumerate(row):
        if found and found[-1][1] == styles:
            found[-1][2] += glyph
        else:
            found.append([column, styles, glyph])
    return found


def ink(styles):
    """The colour of a text."""
    shades = [COLOURS[style] for style in styles if style in COLOURS]
    return shades[-1] if shades else FAINT if 2 in styles else BRIGHT if 1 in styles else TEXT


def draw(cells):
    wide, high = COLUMNS * WIDE + 2 * EDGE, ROWS * HIGH + 2 * EDGE
    lines = [f'<svg xmlns="http://www.w3.org/2000/svg" viewBox="0 0 {wide:g} {high}" role="img">',
             f"<title>The piece {PIECE} in a terminal, after {FRAMES} frames</title>",
             f'<rect width="{wide:g}" height="{high}" rx="6" fill="{GROUND}"/>',
             f'<g font-family="ui-monospace,Menlo,Consolas,\'DejaVu Sans Mono\',monospace" font-size="14" fill="{TEXT}">']
    for number, row in enumerate(cells):
        text = ""
        for column, styles, glyphs in runs(row):
            shown = escape(glyphs.replace(" ", "\xa0"), quote=False)
            left, colour, is_reverse = EDGE + column * WIDE, ink(styles), 7 in styles
            if is_reverse:
                lines.append(f'<rect x="{left:g}" y="{EDGE + number * HIGH}" width="{len(glyphs) * WIDE:g}" height="{HIGH}" '
                             f'fill="{colour}"/>')
            looks = [f'fill="{GROUND if is_reverse else colour}"'] if is_reverse or colour != TEXT else []
            looks += ['font-weight="bold"'] if 1 in styles else []
            looks += ['text-decoration="underline"'] if 4 in styles else []
            text += f"<tspan {' '.join(looks)}>{shown}</tspan>" if looks else shown
        lines.append(f'<text x="{EDGE}" y="{EDGE + number * HIGH + 14}" textLength="{COLUMNS * WIDE:g}">{text}</text>')
    return "\n".join([*lines, "</g>", "</svg>", ""])


def main():
    name = f"docs/{PIECE}.svg"
    path, drawn = os.path.join(TOP, name), draw(show(paint()))
    if sys.argv[1:] == ["--check"]:
        if not os.path.exists(path) or open(path, encoding="utf-8").read() != drawn:
            fails(f"{name} isn't what the program paints now: scripts/picture.py draws it anew")
    elif sys.argv[1:]:
        fails("usage: picture.py [--check]")
    else:
        with open(path, "w", encoding="utf-8") as file:
            file.write(drawn)


if __name__ == "__main__":
    main()
