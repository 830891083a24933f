"""When the next frame is due, in microseconds, and the MIDI clocks of others and of one's own."""

GREATEST_MOMENT = 2 ** 64 - 1
MINUTE = 60_000_000
FRAMES_A_BEAT = 4
CLOCKS_A_BEAT = 24
CLOCKS_A_FRAME = CLOCKS_A_BEAT // FRAMES_A_BEAT
CLOCK, START, CONTINUE, STOP = 0xF8, 0xFA, 0xFB, 0xFC


class Pacer:
    """Equal parts of a beat, each due an interval after the one before."""

    def __init__(self, at, bpm, parts):
        self.parts = parts
        self.set_tempo(bpm)
        self.due = min(GREATEST_MOMENT, at + self.interval)

    def set_tempo(self, bpm):
        self.bpm, self.interval = bpm, MINUTE // (self.parts * bpm)

    def retime(self, bpm):
        """Another tempo: due a new interval after the moment from which the old one was counted."""
        begun = max(0, self.due - self.interval)
        self.set_tempo(bpm)
        self.due = min(GREATEST_MOMENT, begun + self.interval)

    def fired(self, at):
        """A part was done at this moment. What is late is not made up for."""
        following = min(GREATEST_MOMENT, self.due + self.interval)
        self.due = following if following > at else min(GREATEST_MOMENT, at + self.interval)


class Follower:
    """Heeds the clock of another: the first clock after a start plays a frame, and each sixth from there. A stop stands
    still, and a continue goes on. What else comes is no clock."""

    def __init__(self):
        self.running, self.count = False, 0

    def heed(self, byte):
        """What a byte asks for: a restart, a frame or nothing."""
        if byte == START:
            self.running, self.count = True, 0
            return 'restart'
        if byte in (CONTINUE, STOP):
            self.running = byte == CONTINUE
        if byte != CLOCK or not self.running:
            return None
        first = self.count == 0
        self.count = (self.count + 1) % CLOCKS_A_FRAME
        return 'frame' if first else None
