"""The words `follow` and `lead`: a piece that nobody edits, at a MIDI clock that comes or that it gives."""
from .pacing import CLOCK, CLOCKS_A_BEAT, CLOCKS_A_FRAME, CONTINUE, START, STOP, Follower, Pacer
from .runs import DONE, HISTORY_FULL, INBOX_FAULT
from .session import FRAME, Command

QUIT, PAUSE = 0x11, ord(' ')


def follow(run):
    """Plays at the bytes that come: a restart is a reset."""
    run.open_and_listen()
    follower, status = Follower(), None
    while status is None:
        kind, *arrival = run.poll(None)
        if kind == 'bytes' and arrival[0] == 0:
            status = heed(run, follower, arrival[2])
        elif kind in ('end', 'failed'):
            status = DONE if kind == 'end' else INBOX_FAULT
    return end(run, status)


def heed(run, follower, data):
    """A status, where the bytes end the run."""
    for byte in data:
        beat = follower.heed(byte)
        if beat == 'frame' and run.session.is_full():
            return HISTORY_FULL
        if beat:
            run.give(FRAME if beat == 'frame' else Command('reset'))
    return None


def end(run, status):
    if status == DONE:
        run.text(run.state_text())
    run.close()
    return status


class Leader:
    """Gives a clock, and a frame with each sixth. While it is paused no moment is waited for."""

    def __init__(self, run, began):
        self.run, self.count, self.bpm = run, 0, run.values['bpm']
        self.pacer = Pacer(began, self.bpm, CLOCKS_A_BEAT)
        self.give(START)

    def give(self, byte):
        self.run.send('midi', bytes([byte]))

    def clock(self, at):
        """A status, where the history has no room for the frame."""
        self.give(CLOCK)
        first = self.count == 0
        self.count = (self.count + 1) % CLOCKS_A_FRAME
        self.pacer.fired(at)
        if first and self.run.session.is_full():
            return HISTORY_FULL
        if first:
            self.run.give(FRAME)
        return None

    def keys(self, data, at):
        """A status, where the player quits."""
        for byte in data:
            if byte == QUIT:
                return DONE
            if byte == PAUSE:
                self.give(CONTINUE if self.pacer is None else STOP)
                self.pacer = Pacer(at, self.bpm, CLOCKS_A_BEAT) if self.pacer is None else None
        return None


def lead(run):
    leader, status = Leader(run, run.open_and_listen()), None
    while status is None:
        kind, *arrival = run.poll(leader.pacer and leader.pacer.due)
        if kind == 'due':
            status = leader.clock(*arrival)
        elif kind == 'bytes' and arrival[0] == 0:
            status = leader.keys(arrival[2], arrival[1])
        elif kind in ('end', 'failed'):
            status = DONE if kind == 'end' else INBOX_FAULT
    status = end(run, status)
    leader.give(STOP)
    return status
