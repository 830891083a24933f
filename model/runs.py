"""A run: what all words of the command line share. docs/COMMANDS.md has the statuses by which it ends."""
from typing import NamedTuple

from .grids import GridRefused, read_grid, text_of
from .messages import wire
from .outside import Failed
from .script import ScriptRefused, read_script
from .session import Session


class Status(NamedTuple):
    number: int
    line: str = ''


DONE = Status(0)
OUTPUT_FAULT = Status(3, 'output fault')
FILE_FAULT = Status(4, 'file fault')
HISTORY_FULL = Status(6, 'history full')
INBOX_FAULT = Status(7, 'inbox fault')
SONG_TOO_LONG = Status(11, 'smf too long')
WAVE_TOO_LONG = Status(12, 'wav too long')


class Ended(Exception):
    """The run ends by this status, and does no more."""

    def __init__(self, status):
        super().__init__(status)
        self.status = status


class Run:
    """What a run has at hand: the outside, the values of its words and, once the grid is read, the session."""

    def __init__(self, outside, values):
        self.outside, self.values = outside, values
        self.session = None
        self.save_failed = False
        self.lost = set()           # the ports whose last call failed
        self.unattached = set()     # those that could not be attached, which lose all

    # The opening.

    def attach(self):
        for port in ('midi', 'udp', 'osc'):
            if self.values.get(port) is not None:
                try:
                    self.outside.attach(port)
                except Failed:
                    self.unattached.add(port)

    def load(self, name):
        try:
            return self.outside.files.load(self.values[name])
        except Failed:
            raise Ended(FILE_FAULT) from None

    def load_grid(self):
        try:
            return read_grid(self.load('grid'))
        except GridRefused as refused:
            raise Ended(Status(2, f'grid refused: {refused}')) from None

    def load_script(self):
        """The seed of a script, or of the words for one of format 1, and its items."""
        try:
            seed, items = read_script(self.load('script'))
        except ScriptRefused as refused:
            line = f'script refused: line {refused.line} column {refused.column}'
            raise Ended(Status(5, line)) from None
        return self.values['seed'] if seed is None else seed, items

    def listen(self):
        try:
            return self.outside.listen()
        except Failed:
            raise Ended(INBOX_FAULT) from None

    def poll(self, until):
        try:
            return self.outside.poll(until)
        except Failed:
            return ('failed',)

    def open_session(self, grid, seed):
        self.session = Session(grid, seed, self.values['limit'])

    def open_grid(self):
        """Ports, grid, session."""
        self.attach()
        self.open_session(self.load_grid(), self.values['seed'])

    def open_script(self):
        """Ports, grid, script, session. The items of the script."""
        self.attach()
        grid = self.load_grid()
        seed, items = self.load_script()
        self.open_session(grid, seed)
        return items

    def open_and_listen(self):
        """Ports, grid, inbox, session. The moment at which it listens."""
        self.attach()
        grid = self.load_grid()
        began = self.listen()
        self.open_session(grid, self.values['seed'])
        return began

    # What goes out.

    def send(self, port, data):
        """Whether a send went well."""
        try:
            self.outside.send(port, data)
            self.lost.discard(port)
        except Failed:
            self.lost.add(port)

    def text(self, text):
        self.send('text', text)

    def fault(self, line):
        self.send('fault', line.encode() + b'\n')

    def hand_out(self, messages):
        for message in messages:
            self.send(*wire(message))

    def give(self, command):
        """A command of the session, whose messages are handed out at once."""
        answer, messages = self.session.obey(command)
        self.hand_out(messages)
        return answer, messages

    def close(self):
        messages = self.session.close()
        self.hand_out(messages)
        return messages

    def save(self, name, data):
        """Whether a save went well."""
        try:
            self.outside.files.save(name, data)
            return True
        except Failed:
            self.save_failed = True
            return False

    def grid_text(self):
        return text_of(self.session.piece.grid)

    def state_text(self):
        """The grid, and where the session stands."""
        piece = self.session.piece
        return self.grid_text() + (b'tick %d moments %d sounding %d\n'
                                   % (piece.tick, self.session.moments, len(piece.notes)))
