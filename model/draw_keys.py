"""What hands and clocks send, by chance. `dice` is the source of chance, a `random.Random`."""
from .draw_texts import often, snippet
from .outside import Outside

PASTE, PASTED = b'\x1b[200~', b'\x1b[201~'
PLAIN_KEYS = [b'\x1b[A', b'\x1b[B', b'\x1b[C', b'\x1b[D', b'\x1b[1;2B', b'\x1b[1;2C', b'\x1b[1;2A', b'\x1b[1;2D',
              b'\x06', b'\x06', b'\x1a', b'\x19', b'\x02', b'\x03', b'\x16', b'\x18', b'\x12', b'\x7f', b'\x08',
              b'\x1b', b' ', b'\x13']
FULL_KEYS = [b'\x01', b'\x05', b'\x07', b'\x09', b'\x0b', b'\x0c', b'\x10', b'\x14', b'\x15', b'\x15', b'\x0a',
             b'\x0d', b'\x1b[3~', b'\x1b\x1b', b'\x1b[F', b'\x1b[1;3C', b'\x1b[1;4C', b'\x1b[1;4B']
NO_KEYS = [b'\x00', b'\x04', b'\x1f', b'\x80', b'\xc3\xa4', b'\xff', b'\x1b[9~', b'\x1b[1;9A', b'\x1b[12345678A',
           b'\x1b[?1;2c', b'\x1b[\x01', b'\x1bx']


def plain_key(dice):
    return dice.choice(PLAIN_KEYS)


def full_key(dice):
    return dice.choice(FULL_KEYS)


def no_key(dice):
    return dice.choice(NO_KEYS)


def letters(dice):
    return snippet(dice)[:3]


def number(dice, value):
    """A number as a terminal sends it, perhaps with zeros before it."""
    return '0' * dice.choice([0, 0, 0, 0, 1, 2]) + str(value)


def sequence(dice):
    """A sequence that full keys know, or nearly know."""
    modifier = dice.choice(['', '1;', f'1;{number(dice, dice.randint(0, 9))}'])
    last = dice.choice('ABCDHF')
    return b'\x1b' + dice.choice([
        f'[{modifier}{last}', f'[1;{dice.randint(2, 8)}{last}', f'[1;{dice.randint(2, 8)}{last}',
        f'[{number(dice, dice.choice([1, 2, 3, 4, 5, 6, 7, 8, 11, 12, 13]))}~',
        f'[{number(dice, dice.randint(17, 20))}~',
        f'[{dice.randint(7, 9)};{dice.randint(0, 30)};{dice.randint(0, 90)}t',
        f'[{dice.randint(4, 7)};{dice.randint(0, 9)}~', f'O{dice.choice("ABCDHFPQRSTx[")}',
        f'[[{dice.choice("ABCDEFx7[")}',
        '[' + ''.join(dice.choice('0123456789;<~M') for _ in range(dice.randint(0, 13))) + dice.choice('ABF~tMmZ')
    ]).encode()


def size(dice):
    """What a terminal tells of its size."""
    if often(dice, 0.2):
        return b'\x1b[8;0;0t'
    rows = dice.choice([2, 3, 4, 5, 8, 24, 0, 1, 100, 999])
    columns = dice.choice([8, 9, 20, 40, 76, 90, 0, 7, 256, 999])
    return f'\x1b[8;{number(dice, rows)};{number(dice, columns)}t'.encode()


def mouse(dice):
    """A click with what may follow it, or another report."""
    def report(button, last='M'):
        column = dice.choice([dice.randint(1, 12), dice.randint(0, 90), 999])
        row = dice.choice([dice.randint(1, 5), dice.randint(1, 5), 0, 999])
        return f'\x1b[<{button};{number(dice, column)};{number(dice, row)}{last}'.encode()

    return report(dice.choice([0, 0, 0, 32, 64, 65, 1, 35, 128])) + dice.choice([
        b'', report(32), report(0, 'm'), b'7', b'\x1b[6~' + report(32), b'\x1b[1;4A' + report(32)])


def text(dice):
    """A pasted text, with what else may come in it."""
    inside = b''.join(dice.choice([snippet(dice)[:5], b' ', b'\r\n', b'\n', b'\r', b'\t', b'ab', b'7', no_key(dice),
                                   plain_key(dice), full_key(dice), size(dice)])
                      for _ in range(dice.randint(0, 9)))
    if often(dice, 0.05):
        inside = dice.choice([b'x' * dice.choice([255, 256, 257]), b'1' + b'\n' * dice.choice([98, 99, 100])]) + b'2\n3'
    begin, end = dice.choice([PASTE, PASTE, PASTE, PASTE + PASTE, b'']), dice.choice([PASTED] * 4 + [b'\x1b\x1b', b''])
    return begin + inside + end + dice.choice([b'', b'\x16', b'8', b'\x1a'])


def take_back(dice):
    """Edits, some of which are taken back, with a frame or a jump between."""
    return b''.join(dice.choice([b'E', b'7', b'\x1b[C8', b'\x1b[1;4C', b'\x1b[1;4B', b'\x06', b'\x05', b'\x12', b'\x1a',
                                 b'\x19', b'\x15', b'\x15\x15', b'\x02']) for _ in range(dice.randint(2, 7)))


def typed(dice, full):
    """What a hand types before anything else comes of it."""
    if often(dice, 0.05):
        return dice.choice(PLAIN_KEYS) * dice.randint(3, 14)
    some = [plain_key, plain_key, letters, letters, no_key]
    if full:
        some += [full_key, full_key, sequence, sequence, mouse, size, size, text, take_back]
    return b''.join(dice.choice(some)(dice) for _ in range(dice.randint(1, 5)))


def clock_bytes(dice):
    """Bytes of a MIDI clock, and what else may come with it."""
    return b''.join(dice.choice([b'\xf8', b'\xf8', b'\xf8' * dice.randint(1, 12), b'\xfa', b'\xfb', b'\xfc',
                                 b'\x90\x24\x77', b'\xfe', b'7\x11 ']) for _ in range(dice.randint(1, 4)))


class Hands(Outside):
    """An outside whose hands type while the run goes on, so that a due moment can be the one that is waited for."""

    def __init__(self, dice, case, hands, full, clock=None):
        super().__init__(case.files)
        self.dice, self.count, self.full, self.clock = dice, hands, full, clock
        self.left, self.at = dice.randint(2, 50 if hands < 3 else 30), 0
        begun = [b''] * 5 + [b'\x14', b'\x14', b'\x10', b'\t', b'\x1b[1;2C'] * full      # what each hand begins with
        self.rests = [dice.choice(begun) for _ in range(hands)]

    def next_arrival(self, until):
        while self.left:
            self.left -= 1
            if self.clock not in (None, 'lead') and often(self.dice, 0.5):
                return self.came(self.count, clock_bytes(self.dice))
            if until is None or often(self.dice, 0.35 if self.clock == 'lead' else 0.6):
                return self.came(*self.keys())
            self.wait(until)
            if self.at >= until:
                return ('due', self.at)
        return ('end',)

    def came(self, hand, data):
        self.at += self.dice.choice([0, 0, 1, 999, 30_000, 125_000])
        self.arrivals.append(('bytes', hand, self.at, data[:64]))
        return self.arrivals[-1]

    def wait(self, until):
        """A due moment: the one that is waited for, a later one, or one that is too early and comes to nobody."""
        late = self.at + self.dice.choice([0, 1000, 60_000, 250_000])
        self.at = max(self.at, until) + self.dice.choice([0, 0, 1, 400_000]) if often(self.dice, 0.8) else late
        self.arrivals.append(('due', self.at))

    def keys(self):
        """What comes next of a hand, cut anywhere. A quit is rare."""
        dice = self.dice
        hand = dice.randrange(self.count) if often(dice, 0.97) else self.count + dice.choice([1, 200])
        if hand >= self.count:
            return hand, b'7'
        quit = dice.choice([b''] * 40 + [b'\x11'])
        rest = self.rests[hand] or typed(dice, self.full or often(dice, 0.1)) + quit or b'x'
        cut = dice.choice([len(rest), len(rest), dice.randint(1, len(rest)), rest.find(b'\x1b') + 1 or 1])
        cut = min(cut, 64)
        self.rests[hand] = rest[cut:]
        return hand, rest[:cut]
