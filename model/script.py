"""The text of a script, in both formats: which lines there are, and how a script is printed."""
from typing import NamedTuple

from .glyphs import is_glyph
from .session import FRAME, Command

GREATEST_NUMBER = 2 ** 32 - 1
NUMBER, GLYPH = 'number', 'glyph'

# What follows the word of each command.
COMMANDS = {
    'frame': (), 'write': (NUMBER, NUMBER, GLYPH), 'fill': (NUMBER,) * 4 + (GLYPH,), 'erase': (NUMBER,) * 4,
    'copy': (NUMBER,) * 4, 'cut': (NUMBER,) * 4, 'clip': (NUMBER, NUMBER, GLYPH), 'paste': (NUMBER,) * 2,
    'move': (NUMBER,) * 6, 'resize': (NUMBER,) * 2, 'reset': (), 'hush': (), 'undo': (), 'rewind': (NUMBER,),
    'retract': (NUMBER,), 'redo': ()}
# Lines are words, numbers and glyphs with blanks between them. Of a line of format 2 the word may be `frames`, too, and
# its first line is the header.
FORMS = [(name.encode(),) + values for name, values in COMMANDS.items()]
FORMS_2 = FORMS + [(b'frames', NUMBER)]
HEADER = (b'!orca', b'2', b'seed', NUMBER)


class Faulty(Exception):
    """A line of no form: so many of its bytes begin one."""

    def __init__(self, reach):
        super().__init__(reach)
        self.reach = reach


class ScriptRefused(Exception):
    """The line and the column, from 1, of the first byte that no line could have there."""

    def __init__(self, line, column):
        super().__init__(line, column)
        self.line, self.column = line, column


class Reader:
    """A line that is read from the left as one form."""

    def __init__(self, line):
        self.line, self.at = line, 0

    def rest(self):
        return self.line[self.at:]

    def take(self, count):
        self.at += count
        return self.line[self.at - count:self.at]

    def need(self, holds):
        if not holds:
            raise Faulty(self.at)

    def blanks(self):
        return self.take(len(self.rest()) - len(self.rest().lstrip(b' ')))

    def word(self, word):
        while word:
            self.need(self.rest()[:1] == word[:1])
            self.take(1)
            word = word[1:]

    def number(self):
        """1 to 10 digits, and no more than the greatest number."""
        digits = b''
        while self.rest()[:1].isdigit():
            digits += self.rest()[:1]
            self.need(len(digits) <= 10 and int(digits) <= GREATEST_NUMBER)
            self.take(1)
        self.need(digits)
        return int(digits)

    def glyph(self):
        self.need(self.rest() and is_glyph(self.rest()[0]))
        return self.take(1)[0]

    def form(self, form):
        """The numbers and the glyph of a line of this form."""
        values = []
        for count, part in enumerate(form):
            self.need(count == 0 or self.blanks())
            if part in (NUMBER, GLYPH):
                values.append(self.number() if part == NUMBER else self.glyph())
            else:
                self.word(part)
        self.blanks()
        self.need(not self.rest())
        return values


def read_line(line, forms):
    """The form of a line, and its values."""
    reach = len(line) - len(line.lstrip(b' '))      # a line of blanks is one, too
    for form in forms:
        try:
            return form, Reader(line).form(form)
        except Faulty as faulty:
            reach = max(reach, faulty.reach)
    raise Faulty(reach)


class Item(NamedTuple):
    """A command of a script, how often it is done, and the number of its line."""
    command: Command
    times: int
    line: int


def lines_of(text):
    """Lines end by a line feed, perhaps behind a return; the last end may be missing."""
    *lines, last = text.split(b'\n')
    return [line[:-1] if line.endswith(b'\r') else line for line in lines] + [last] * (last != b'')


def read_script(text):
    """The seed that a script of format 2 gives, or none, and its items. A text that begins with `!` is of format 2."""
    seed, items = None, []
    is_2 = text.startswith(b'!')
    for number, line in enumerate(lines_of(text), 1):
        try:
            if is_2 and number == 1:
                seed = read_line(line, [HEADER])[1][0]
            elif line.strip(b' ') and not line.startswith(b'#'):
                (word, *_), values = read_line(line, FORMS_2 if is_2 else FORMS)
                is_run = word == b'frames'
                items.append(Item(FRAME, values[0], number) if is_run
                             else Item(Command(word.decode(), tuple(values)), 1, number))
        except Faulty as faulty:
            raise ScriptRefused(number, faulty.reach + 1) from None
    return seed, items


def line_of(command):
    """The line of a command, with single blanks and no zeros before a number."""
    words = [command.name.encode()]
    for kind, number in zip(COMMANDS[command.name], command.values):
        words.append(bytes([number]) if kind == GLYPH else b'%d' % number)
    return b' '.join(words) + b'\n'


def header_of(seed):
    return b'!orca 2 seed %d\n' % seed


def frames_of(count):
    """Frames one after another, in as few lines as can say it."""
    text = b''
    while count:
        part = min(count, GREATEST_NUMBER)
        text += b'frame\n' if part == 1 else b'frames %d\n' % part
        count -= part
    return text


def script_of(seed, items):
    """A script of format 2. Frames that follow one another are one run, however they were given."""
    text, frames = [header_of(seed)], 0
    for item in items:
        if item.command == FRAME:
            frames += item.times
        else:
            text += [frames_of(frames), line_of(item.command)]
            frames = 0
    return b''.join(text + [frames_of(frames)])
