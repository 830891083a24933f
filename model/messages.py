"""What operators ask to be sent, what is sent, and its bytes and words."""
from typing import NamedTuple, Tuple

from .glyphs import glyph_of


class Note(NamedTuple):
    """A note of so many frames. It is what an operator asks for; `On` and `Off` are sent of it."""
    channel: int
    key: int
    velocity: int
    length: int
    mono: bool


class On(NamedTuple):
    channel: int
    key: int
    velocity: int


class Off(NamedTuple):
    channel: int
    key: int


class Control(NamedTuple):
    channel: int
    controller: int
    level: int


class Bend(NamedTuple):
    channel: int
    low: int
    high: int


class Datagram(NamedTuple):
    """A text, as it goes out by UDP."""
    text: bytes


class Osc(NamedTuple):
    path: int
    values: Tuple[int, ...]


def osc_text(text):
    """A text of OSC ends in a zero byte, and is filled with more to a multiple of four."""
    return text + bytes(4 - len(text) % 4)


def wire(message):
    """The port of a message and its bytes: MIDI 1.0, a plain text, OSC 1.0."""
    if isinstance(message, On):
        return 'midi', bytes([0x90 + message.channel, message.key, message.velocity])
    if isinstance(message, Off):
        return 'midi', bytes([0x80 + message.channel, message.key, 0])
    if isinstance(message, Control):
        return 'midi', bytes([0xB0 + message.channel, message.controller, message.level])
    if isinstance(message, Bend):
        return 'midi', bytes([0xE0 + message.channel, message.low, message.high])
    if isinstance(message, Datagram):
        return 'udp', message.text
    tags = b',' + b'i' * len(message.values)
    values = b''.join(number.to_bytes(4, 'big') for number in message.values)
    return 'osc', osc_text(b'/%c' % message.path) + osc_text(tags) + values


def midi_bytes(messages):
    """The bytes of those that are MIDI."""
    sent = [wire(message) for message in messages]
    return [data for port, data in sent if port == 'midi']


def in_words(message):
    """A message as a player reads it, nearly as the operator that sends it is written. The end of a note is told
    nowhere."""
    if isinstance(message, On):
        octave, step = divmod(message.key, 12)
        return b':%c%c%c' % (glyph_of(message.channel), glyph_of(octave), b'CcDdEFfGgAaB'[step])
    if isinstance(message, Control):
        return b'!%c %d=%d' % (glyph_of(message.channel), message.controller, message.level)
    if isinstance(message, Bend):
        return b'?%c=%d' % (glyph_of(message.channel), 128 * message.high + message.low)
    if isinstance(message, Datagram):
        return b';' + message.text
    return b'=%c' % message.path + bytes(map(glyph_of, message.values))
