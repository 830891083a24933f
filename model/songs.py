"""Standard MIDI Files of one track, with four ticks to a beat: a frame is a tick."""
from .pacing import FRAMES_A_BEAT, MINUTE

MOST_BYTES = 16_777_216


class TooLong(Exception):
    """The track would have too many bytes."""


def variable_length(number):
    """Seven bits to a byte, the highest first; each byte but the last has its highest bit set."""
    text = bytes([number % 128])
    while number >= 128:
        number //= 128
        text = bytes([128 + number % 128]) + text
    return text


class Track:
    """A track that begins with its tempo. Its end has four bytes at least, for which room is kept."""

    def __init__(self, bpm):
        self.events, self.tick = bytearray(b'\x00\xff\x51\x03' + (MINUTE // bpm).to_bytes(3, 'big')), 0

    def add(self, tick, message, kept=4):
        event = variable_length(tick - self.tick) + message
        if len(self.events) + len(event) + kept > MOST_BYTES:
            raise TooLong
        self.events += event
        self.tick = tick

    def add_all(self, tick, messages):
        for message in messages:
            self.add(tick, message)

    def song(self, tick):
        """The file of a track that ends at this tick."""
        self.add(tick, b'\xff\x2f\x00', 0)
        head = b'MThd' + bytes([0, 0, 0, 6, 0, 0, 0, 1, 0, FRAMES_A_BEAT]) + b'MTrk'
        return head + len(self.events).to_bytes(4, 'big') + bytes(self.events)
