"""The words of the command line. docs/COMMANDS.md has what each means."""
import re
from typing import NamedTuple, Optional, Tuple

GREATEST = 2 ** 32 - 1
USAGE = 'usage: orca run|events|replay|make|play|migrate|smf|jam|wav|follow|lead'


class Number(NamedTuple):
    """A number from `low` to `high`; an option that is not given is `default`."""
    low: int
    high: int
    default: Optional[int] = None


class Choice(NamedTuple):
    """One of these texts; an option that is not given is the first."""
    texts: Tuple[str, ...]


TEXT = None

FRAMES = Number(0, GREATEST)
BPM, SONG_BPM = Number(1, 999, 120), Number(4, 999, 120)
SEED = {'seed': Number(0, GREATEST, 1)}
SESSION = {**SEED, 'limit': Number(1, 4_000_000, 1_000_000)}
PORTS = {'midi': TEXT, 'udp': TEXT, 'osc': TEXT}
PLAY = {**SESSION, **PORTS, 'bpm': BPM, 'rows': Number(2, 100, 24), 'cols': Number(8, 256, 80),
        'keys': Choice(('plain', 'full')), 'save': TEXT, 'script': TEXT, 'journal': TEXT, 'room': TEXT, 'clock': TEXT}
SIDE = Number(1, 1024)

# What follows each word, in order, and its options.
FORMS = {
    'run': ({'grid': TEXT, 'frames': FRAMES}, {**SESSION, **PORTS}),
    'events': ({'grid': TEXT, 'frames': FRAMES}, {**SESSION, **PORTS}),
    'replay': ({'grid': TEXT, 'script': TEXT}, {**SESSION, **PORTS}),
    'make': ({'seed': Number(0, GREATEST), 'height': SIDE, 'width': SIDE, 'frames': Number(0, 100_000)}, {}),
    'play': ({'grid': TEXT, 'address': TEXT}, PLAY),
    'migrate': ({'script': TEXT, 'out': TEXT}, SEED),
    'smf': ({'grid': TEXT, 'frames': FRAMES, 'out': TEXT}, {**SESSION, 'bpm': SONG_BPM}),
    'jam': ({'grid': TEXT, 'address': TEXT, 'hands': Number(1, 8)}, {**PLAY, 'views': Choice(('one', 'all'))}),
    'wav': ({'grid': TEXT, 'frames': FRAMES, 'out': TEXT}, {**SESSION, 'bpm': BPM}),
    'follow': ({'grid': TEXT, 'address': TEXT}, {**SESSION, **PORTS}),
    'lead': ({'grid': TEXT, 'address': TEXT}, {**SESSION, **PORTS, 'bpm': BPM}),
    'take': ({'grid': TEXT, 'script': TEXT, 'out': TEXT}, {**SESSION, 'bpm': SONG_BPM, 'wav': TEXT}),
    'recover': ({'room': TEXT, 'out': TEXT}, {'script': TEXT, 'midi': TEXT, 'limit': SESSION['limit']})}


class Faulty(Exception):
    """Words that ask for nothing."""


def need(holds):
    if not holds:
        raise Faulty


def value_of(kind, text):
    """A text, a number of 1 to 10 digits, or one of some texts."""
    if isinstance(kind, Number):
        need(re.fullmatch('[0-9]{1,10}', text) and kind.low <= int(text) <= kind.high)
        return int(text)
    need(not isinstance(kind, Choice) or text in kind.texts)
    return text


def default_of(kind):
    return kind.default if isinstance(kind, Number) else kind.texts[0] if isinstance(kind, Choice) else None


def sorted_words(words, options):
    """The words that stand for themselves, and the texts of the options. Behind `--` all words stand for themselves."""
    plain, given, words = [], {}, list(words)
    while words:
        word = words.pop(0)
        if word == '--':
            return plain + words, given
        if word.startswith('--'):
            name, equals, text = word[2:].partition('=')
            need(name in options and name not in given)
            if not equals:
                need(words and (words[0] == '-' or not words[0].startswith('-')))
                text = words.pop(0)
            given[name] = text
        else:
            need(word == '-' or not word.startswith('-'))
            plain.append(word)
    return plain, given


def differ(texts):
    """Whether names that are given differ."""
    texts = [text for text in texts if text is not None]
    return len(texts) == len(set(texts))


def read_words(words):
    """The first word, and by their names the values of all others, given or not. The words are bytes, of UTF-8."""
    try:
        words = [word.decode() for word in words]
    except UnicodeDecodeError:
        raise Faulty from None
    need(words and words[0] in FORMS)
    places, options = FORMS[words[0]]
    plain, given = sorted_words(words[1:], options)
    need(len(plain) == len(places))
    values = {name: value_of(kind, text) for (name, kind), text in zip(places.items(), plain)}
    for name, kind in options.items():
        values[name] = value_of(kind, given[name]) if name in given else default_of(kind)
    if values.get('journal') is not None:       # what else writes to the journal would take its lines away
        need(all(values['journal'] != values[name] for name in ('grid', 'address', 'save', 'script', 'midi')))
        need(values['room'] is None)
    if words[0] == 'take':
        need(differ(values[name] for name in ('grid', 'script', 'out', 'wav')))
    return words[0], values
