"""New cases by chance, kind by kind. `dice` is the source of chance, a `random.Random`."""
import random

from .cases import hex_of
from .draw_keys import Hands, clock_bytes
from .draw_texts import grid, instrument, large_grid, line, often, script, size_of, spoil
from .outside import PORTS, Outside
from .program import status_of


class Case:
    """A case as it is drawn: words, files, and what else its lines say."""

    def __init__(self, words, files, wanted=(), fail=(), arrivals=()):
        self.words, self.files, self.wanted = [str(word) for word in words], files, list(wanted)
        self.fail, self.arrivals = list(fail), list(arrivals)

    def fails(self, port):
        return [number for of, number in self.fail if of == port]

    def outside(self):
        fail = {port: self.fails(port) for port in ('files', 'inbox') + PORTS}
        return Outside(self.files, fail, 0, self.arrivals)

    def run(self, outside):
        status_of([word.encode() for word in self.words], outside)
        return outside

    def lines(self):
        lines = [f'word {hex_of(word.encode())}' for word in self.words]
        lines += [f'file {name} {hex_of(data)}' for name, data in self.files.items()]
        lines += [f'want {name}' for name in self.wanted] + [f'fail {of} {number}' for of, number in self.fail]
        for kind, *rest in self.arrivals:
            lines.append(f'bytes {rest[0]} {rest[1]} {hex_of(rest[2])}' if kind == 'bytes' else f'due {rest[0]}')
        return lines


# Words.

def options(dice, names):
    """Options that a run may have."""
    words = []
    for name, among in (('seed', (0, 1, 99, 2 ** 32 - 1)), ('limit', (1, 2, 3, 5, 9, 20, 1000)),
                        ('bpm', (4, 60, 121, 995, 999))):
        if name in names and often(dice, 0.3):
            text = str(dice.choice(among))
            words += [f'--{name}={text}'] if often(dice, 0.5) else ['--' + name, text]
    return words


def mix(dice, words, more):
    """Words with others among them, behind the first and not between an option and its text."""
    at = dice.randint(1, len(words))
    while words[at - 1].startswith('--') and '=' not in words[at - 1]:
        at -= 1
    return words[:at] + more + words[at:]


# Kinds without keys.

def frames(dice):
    """A frame alone."""
    return [f'scan {dice.choice([0, 1, 5, dice.randint(0, 10 ** 6)])} {dice.choice([0, 1, 2 ** 32 - 1])}',
            f'file g {hex_of(grid(dice))}']


def runs(dice):
    words = mix(dice, [dice.choice(['run', 'events', 'events']), 'g', str(dice.randint(0, 30))],
                options(dice, ('seed', 'limit')))
    return Case(words, {'g': grid(dice)})


def grids(dice):
    """Texts that are grids, or nearly."""
    text = grid(dice)
    if often(dice, 0.3):
        text = dice.choice([b'.', b'.\n', b'\n', b' \n', b'.\r\n']) * dice.choice([1023, 1024, 1025]) + text
    if often(dice, 0.6):
        text = spoil(dice, text, b'\0\t\n\r  \x7f\x80\xff~')
    return Case(['run', 'g', 0], {'g': text.replace(b'\n', dice.choice([b'\n', b'\r\n']))})


def large(dice):
    text = large_grid(dice)
    height, width = size_of(text)
    if often(dice, 0.4):
        return Case(['run', 'g', dice.randint(0, 3)], {'g': text})
    lines = [dice.choice([line(dice, height, width, 3), line(dice, height, width, 3),
                          f'resize {dice.choice([1, 2, 1024])} {dice.choice([1, 1024, 1025])}',
                          f'fill 0 {dice.randrange(width)} 1 1024 E', f'move 0 {dice.randrange(width)} 2 300 0 0'])
             for _ in range(dice.randint(1, 6))]
    return Case(['replay', 'g', 's'], {'g': text, 's': '\n'.join(lines).encode()})


def scripts(dice):
    text = grid(dice)
    return Case(mix(dice, ['replay', 'g', 's'], options(dice, ('seed', 'limit'))),
                {'g': text, 's': script(dice, *size_of(text))})


def lines(dice):
    """Scripts with a line that may be faulty."""
    text = line(dice, 3, 3, 3)
    if often(dice, 0.3):
        text += dice.choice([' ', ' 1', ' ~', ' 4294967296', ' 00000000001', '  0000000001'])
    text = spoil(dice, text.encode(), b' 0a9#!\t\0\xffQ') if often(dice, 0.8) else text.encode()
    head = dice.choice([b'', b'', b'frame\n', b'!orca 2 seed 5\n', spoil(dice, b'!orca 2 seed 5', b' 0a!') + b'\n'])
    return Case(['replay', 'g', 's'], {'g': b'...\n', 's': head + text + dice.choice([b'', b'\n', b'\r\nundo', b'\r'])})


def migrated(dice):
    words = mix(dice, ['migrate', 's', 'o'], options(dice, ('seed',)))
    return Case(words, {'s': script(dice, 3, 5)}, ['o', 's'])


def made(dice):
    height, width, count = dice.randint(1, 12), dice.randint(1, 12), dice.randint(0, 150)
    if often(dice, 0.1):
        height, width, count = 2, 5, dice.randint(1020, 1100)
    return Case(['make', dice.randrange(2 ** 32), height, width, count], {})


def songs(dice):
    words = ['smf', 'g', str(dice.randint(0, 40)), 'o']
    return Case(mix(dice, words, options(dice, ('seed', 'limit', 'bpm'))), {'g': grid(dice, sounds=0.95)}, ['o'])


def waves(dice):
    text = b'\n'.join(row[:8].ljust(8, b'.') for row in instrument(dice))
    words = ['wav', 'g', str(dice.randint(0, 4)), 'o', '--bpm', str(dice.choice([999, 998, 700]))]
    return Case(words + options(dice, ('limit',)), {'g': text}, ['o'])


def takes(dice):
    text = grid(dice, sounds=0.95)
    wave = ['--bpm', '999', '--wav', 'w'] if often(dice, 0.3) else options(dice, ('bpm',))
    words = mix(dice, ['take', 'g', 's', 'o'], options(dice, ('seed', 'limit')) + wave)
    return Case(words, {'g': text, 's': script(dice, *size_of(text), length=8 if '--wav' in words else 40)}, ['o', 'w'])


def words(dice):
    """Words that ask for nothing, or nearly."""
    good = dice.choice([['run', 'g', '1'], ['replay', 'g', 's'], ['make', '1', '2', '3', '4'], ['play', 'g', 'a:1'],
                        ['migrate', 's', 'o'], ['smf', 'g', '1', 'o'], ['jam', 'g', 'a:1', '2'], ['wav', 'g', '1', 'o'],
                        ['follow', 'g', 'a:1'], ['lead', 'g', 'a:1'], ['take', 'g', 's', 'o']])
    pool = ['', '-', '--', '--', '--', '-x', '--help', 'g', 'o', 's', '0', '8', '9', '+3', '-3', '3x', '4294967296',
            '0000000003', '00000000003']
    texts = ['1', '2', '8', 'full', 'all', 'g', 'o', 'j', '', '1000']
    for name in ('seed', 'limit', 'midi', 'udp', 'osc', 'bpm', 'rows', 'cols', 'keys', 'views', 'save', 'script',
                 'journal', 'clock', 'wav'):
        pool += [f'--{name}={dice.choice(texts)}', f'--{name}={dice.choice(texts)}'] + [f'--{name}'] * often(dice, 0.2)
    for _ in range(dice.choice([0, 1, 1, 1, 2])):
        good = mix(dice, good, [dice.choice(pool)] + ['7'] * often(dice, 0.2))
    if often(dice, 0.1):
        del good[dice.randrange(len(good))]
    return Case(good, {'g': b'E.\n', 's': b'frame\n'}, ['o'])


# Performances and clocks.

def performance(dice, word, full=False, clock=None, ports=0.2):
    """A performance, played as it is drawn."""
    hands = 1 if word == 'play' else dice.choice([1, 2, 2, 3, 4])
    words = [word, 'g', 'here:1'] + [str(hands)] * (word == 'jam')
    more = options(dice, ('seed', 'limit', 'bpm'))
    more += ['--rows', str(dice.choice([2, 3, 4, 8, 24])), '--cols', str(dice.choice([8, 20, 40, 60, 76, 90, 120]))]
    more += ['--keys=full'] if full else dice.choice([[], ['--keys', 'plain']])
    more += [f'--views={dice.choice(["all", "all", "one"])}'] if word == 'jam' and often(dice, 0.7) else []
    more += ['--clock', clock] if clock else []
    wanted = ['g']
    for port in ('midi', 'udp', 'osc'):
        more += ['--' + port, port[0]] if often(dice, ports) else []
    for name, file in (('save', 'o'), ('script', 's'), ('journal', 'j')):
        if often(dice, 0.5):
            more += ['--' + name, file]
            wanted.append(file)
    case = Case(words + more, {'g': grid(dice, sounds=0.6)}, wanted)
    case.arrivals = case.run(Hands(dice, case, hands, full, clock)).arrivals
    return case


def play(dice):
    return performance(dice, 'play')


def hands(dice):
    return performance(dice, 'jam')


def keys(dice):
    return performance(dice, 'play', full=True)


def views(dice):
    return performance(dice, 'jam', full=True)


def clocked(dice):
    clock = dice.choice(['lead', 'lead', 'c', './lead'])
    return performance(dice, dice.choice(['play', 'play', 'jam']), often(dice, 0.7), clock, ports=0.5)


def clocks(dice):
    """`follow` and `lead`."""
    word, arrivals, at = dice.choice(['follow', 'lead']), [], 0
    for _ in range(dice.randint(0, 40)):
        at += dice.choice([0, 20_833, 20_833, 30_000])
        data = clock_bytes(dice)[:64] if word == 'follow' else dice.choice([b' ', b' ', b'  ', b'x', b'\x12 ', b'\x11'])
        due = word == 'lead' and often(dice, 0.8)
        arrivals.append(('due', at) if due else ('bytes', dice.choice([0, 0, 0, 0, 1]), at, data))
    words = mix(dice, [word, 'g', 'here:1'], options(dice, ('seed', 'limit') + ('bpm',) * (word == 'lead')))
    return Case(words, {'g': grid(dice)}, [], arrivals=arrivals)


def failing(dice, case):
    """The case with calls that fail, near those that it makes. A file whose save failed may hold anything."""
    outside = case.run(case.outside())
    counts = {'files': outside.files.calls.count, 'inbox': outside.inbox.count,
              **{port: calls.count for port, calls in outside.ports.items()}}
    called = [port for port, count in counts.items() if count]
    for _ in range(dice.randint(1, 4)):
        port = dice.choice(called + ['files'])
        least = 2 if port in ('files', 'inbox') and often(dice, 0.9) else 1     # the first opens the run
        first = dice.randint(least, max(least, counts[port] + 1))
        case.fail += [(port, first + more) for more in range(dice.choice([1, 1, 1, 2, 8]))]
    case.fail = sorted(set(case.fail))
    done = case.run(case.outside()).files.done
    failed = {done[number - 1] for number in case.fails('files') if number <= len(done)}
    case.wanted = [name for name in case.wanted if ('save', name) not in failed]
    return case


def faults(dice):
    return failing(dice, dice.choice([runs, scripts, play, hands, clocks])(dice))


def told(dice):
    """What players are told of what fails."""
    return failing(dice, performance(dice, dice.choice(['play', 'play', 'jam']), full=True, ports=0.7))


KINDS = {act.__name__: act for act in (
    frames, runs, grids, large, scripts, lines, migrated, made, songs, waves, takes, words, play, hands, keys, views,
    clocked, clocks, faults, told)}


def drawn(kind, seed, count):
    """So many cases of a kind, each the lines between its first and its last one."""
    dice = random.Random(f'{kind} {seed}')
    for _ in range(count):
        case = KINDS[kind](dice)
        yield case if isinstance(case, list) else case.lines()
