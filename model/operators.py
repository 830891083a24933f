"""What each operator does, once its cell is visited. The names of the ports are those of docs/OPERATORS.md."""
from .chance import Words
from .glyphs import BANG, COMMENT, DIGITS, EMPTY, LETTERS, glyph_like, note_number, value
from .messages import Bend, Control, Datagram, Note, Osc

COMMENT_REACH = 255
JUMP_REACH = 256
LONGEST_TEXT = 16
# What a cell is marked with during a frame.
LOCK, INPUT, PARAM, OUTPUT, SLEEP = 1, 2, 4, 8, 16

# The act of each operator, by its capital or its sign.
ACTS = {}


def operator(name):
    def named(act):
        ACTS[ord(name)] = act
        return act
    return named


class Visit:
    """An operator at its cell. Other cells are named by how far they are below it and to its right. What it reads is
    the grid as it was before; what it writes is done in order once it is through. Outside the grid there is `.`, and
    no more."""

    def __init__(self, scan, row, column):
        self.scan, self.row, self.column = scan, row, column
        self.glyph = self.look(0, 0)
        self.writes = []

    def place(self, down, right):
        scan, row, column = self.scan, self.row + down, self.column + right
        inside = 0 <= row < scan.height and 0 <= column < scan.width
        return row * scan.width + column if inside else None

    def look(self, down, right):
        place = self.place(down, right)
        return EMPTY if place is None else self.scan.cells[place]

    def mark(self, marks, down, right):
        place = self.place(down, right)
        if place is not None:
            self.scan.marks[place] |= marks

    def write(self, glyph, down, right):
        place = self.place(down, right)
        if place is not None:
            self.writes.append((place, glyph))

    def become(self, glyph):
        self.write(glyph, 0, 0)

    def parameter(self, down, right):
        self.mark(INPUT | PARAM | LOCK, down, right)
        return self.look(down, right)

    def input(self, down, right):
        self.mark(INPUT | LOCK, down, right)
        return self.look(down, right)

    def output(self, glyph, down, right):
        self.mark(OUTPUT | LOCK, down, right)
        self.write(glyph, down, right)

    def far_output(self, glyph, down, right):
        self.mark(OUTPUT | SLEEP, down, right)
        self.write(glyph, down, right)

    def has_bang(self):
        return BANG in (self.look(-1, 0), self.look(0, -1), self.look(0, 1), self.look(1, 0))

    def emit(self, event):
        """Those that send do so beside a bang, and are shown as an output then."""
        if event is not None and self.has_bang():
            self.mark(OUTPUT, 0, 0)
            self.scan.events.append(event)


# Operators with a parameter at the left and an input at the right, which write what they make of both below.

def value_operator(name):
    def named(result):
        @operator(name)
        def act(visit):
            left, right = visit.parameter(0, -1), visit.input(0, 1)
            visit.output(result(visit, left, right), 1, 0)
        return act
    return named


def bang_if(condition):
    return BANG if condition else EMPTY


def step_of(glyph):
    """A step, or a count of bangs: 1 where nothing is said, or a bang says it."""
    return 1 if glyph in (EMPTY, BANG) else value(glyph)


@value_operator('A')
def add(visit, a, b):
    return glyph_like((value(a) + value(b)) % 36, b)


@value_operator('B')
def subtract(visit, a, b):
    return glyph_like(abs(value(a) - value(b)), b)


@value_operator('C')
def clock(visit, rate, modulus):
    return glyph_like(visit.scan.tick // (value(rate) or 1) % (value(modulus) or 8), modulus)


@value_operator('D')
def delay(visit, rate, modulus):
    return bang_if(visit.scan.tick % ((value(rate) or 1) * (value(modulus) or 8)) == 0)


@value_operator('F')
def same(visit, a, b):
    return bang_if(a == b)


@value_operator('I')
def increment(visit, step, modulus):
    below = visit.input(1, 0)
    return glyph_like((value(below) + step_of(step)) % (value(modulus) or 36), modulus)


@value_operator('L')
def lesser(visit, a, b):
    return EMPTY if EMPTY in (a, b) else glyph_like(min(value(a), value(b)), b)


@value_operator('M')
def multiply(visit, a, b):
    return glyph_like(value(a) * value(b) % 36, b)


@value_operator('R')
def random(visit, a, b):
    """A value from the lesser of both to just below the greater, by a word that seed, tick and place decide."""
    low, high = sorted((value(a), value(b) or 36))
    scan = visit.scan
    word = Words(scan.seed * 2 ** 32 + scan.tick, visit.row * scan.width + visit.column).next()
    return glyph_like(low + word % (high - low) if low < high else low, b)


@value_operator('U')
def uclid(visit, step, maximum):
    """`step` bangs in `maximum` frames, as even as can be."""
    step, maximum = step_of(step), value(maximum) or 8
    return bang_if(step * (visit.scan.tick + maximum - 1) % maximum + step >= maximum)


@value_operator('Z')
def lerp(visit, rate, target):
    at, to, rate = value(visit.input(1, 0)), value(target), step_of(rate)
    return glyph_like(min(at + rate, to) if at < to else max(at - rate, to), target)


# Operators that move. What has moved sleeps until the next frame, and what can't becomes a bang.

def mover(name, down, right):
    @operator(name)
    def act(visit):
        if visit.place(down, right) is None or visit.look(down, right) != EMPTY:
            visit.become(BANG)
        else:
            visit.mark(SLEEP, down, right)
            visit.write(visit.glyph, down, right)
            visit.become(EMPTY)


mover('N', -1, 0)
mover('E', 0, 1)
mover('S', 1, 0)
mover('W', 0, -1)


@operator('*')
def bang(visit):
    visit.become(EMPTY)


@operator('H')
def halt(visit):
    visit.parameter(1, 0)


@operator('#')
def comment(visit):
    for right in range(1, COMMENT_REACH + 1):
        visit.mark(LOCK, 0, right)
        if visit.look(0, right) == COMMENT:
            return


def jumper(name, down, right):
    """Copies what stands before it to the first cell behind it that is no such jumper; those between sleep. A jumper
    whose neighbour before it is the same leaves the work to that one."""
    @operator(name)
    def act(visit):
        if visit.look(-down, -right) == visit.glyph:
            return
        copied = visit.input(-down, -right)
        for far in range(1, JUMP_REACH + 1):
            if visit.look(far * down, far * right) != visit.glyph:
                for near in range(1, far):
                    visit.mark(SLEEP, near * down, near * right)
                visit.output(copied, far * down, far * right)
                return


jumper('J', 1, 0)
jumper('Y', 0, 1)


# Operators that read and write elsewhere. `x` counts to the right and `y` down; a read begins one place to the right of
# the operator, and a write one place below.

@operator('G')
def generator(visit):
    x, y, length = (value(visit.parameter(0, right)) for right in (-3, -2, -1))
    for k in range(length):
        visit.far_output(visit.input(0, k + 1), y + 1, x + k)


@operator('X')
def write(visit):
    x, y = (value(visit.parameter(0, right)) for right in (-2, -1))
    visit.far_output(visit.input(0, 1), y + 1, x)


@operator('O')
def read(visit):
    x, y = (value(visit.parameter(0, right)) for right in (-2, -1))
    visit.output(visit.input(y, x + 1), 1, 0)


@operator('Q')
def query(visit):
    x, y, length = (value(visit.parameter(0, right)) for right in (-3, -2, -1))
    for k in range(length):
        visit.output(visit.input(y, x + 1 + k), 1, k + 1 - length)


@operator('T')
def track(visit):
    key, length = (value(visit.parameter(0, right)) for right in (-2, -1))
    length = length or 1
    for right in range(1, length + 1):
        visit.mark(LOCK, 0, right)
    visit.output(visit.input(0, key % length + 1), 1, 0)


@operator('P')
def push(visit):
    key, length = (value(visit.parameter(0, right)) for right in (-2, -1))
    length = length or 1
    for right in range(length):
        visit.mark(LOCK, 1, right)
    visit.output(visit.input(0, 1), 1, key % length)


# Variables.

@operator('V')
def variable(visit):
    name, right = visit.parameter(0, -1), visit.input(0, 1)
    if name != EMPTY:
        visit.scan.variables[value(name)] = right
    elif right != EMPTY:
        visit.output(visit.scan.variables[value(right)], 1, 0)


@operator('K')
def konkat(visit):
    length = value(visit.parameter(0, -1)) or 1
    for right in range(1, length + 1):
        name = visit.input(0, right)
        if name != EMPTY:
            visit.output(visit.scan.variables[value(name)], 1, right)


# Operators that send. Their ports are marked in each frame, beside a bang or not.

def note_of(visit, mono):
    channel, octave, letter, velocity, length = (visit.input(0, right) for right in range(1, 6))
    number = note_number(letter)
    if octave == EMPTY or number is None or velocity != EMPTY and value(velocity) == 0:
        return None
    key = min(127, 12 * min(9, value(octave)) + number)
    loudness = 127 if velocity == EMPTY else min(127, 8 * value(velocity) - 1)
    return Note(min(15, value(channel)), key, loudness, value(length) or 1, mono)


@operator(':')
def midi(visit):
    visit.emit(note_of(visit, False))


@operator('%')
def mono(visit):
    visit.emit(note_of(visit, True))


@operator('!')
def control_change(visit):
    channel, controller, level = (visit.input(0, right) for right in range(1, 4))
    if EMPTY not in (channel, controller) and value(channel) < 16:
        visit.emit(Control(value(channel), value(controller), value(level) * 127 // 35))


@operator('?')
def pitch_bend(visit):
    channel, high, low = (visit.input(0, right) for right in range(1, 4))
    if channel != EMPTY and value(channel) < 16:
        visit.emit(Bend(value(channel), value(low) * 127 // 35, value(high) * 127 // 35))


@operator(';')
def udp(visit):
    text = bytearray()
    while len(text) < LONGEST_TEXT and visit.look(0, len(text) + 1) != EMPTY:
        text.append(visit.look(0, len(text) + 1))
        visit.mark(LOCK, 0, len(text))
    visit.emit(Datagram(bytes(text)) if text else None)


@operator('=')
def osc(visit):
    path, length = visit.parameter(0, 1), visit.parameter(0, 2)
    values = tuple(value(visit.input(0, right)) for right in range(3, value(length) + 3))
    visit.emit(Osc(path, values) if path in LETTERS + DIGITS else None)
