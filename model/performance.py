"""The words `play` and `jam`: one hand, or several, at a session that plays on."""
import copy

from .editor import LEAST_COLUMNS, LEAST_ROWS, MOST_COLUMNS, MOST_ROWS, Around, Editor
from .hands import NOBODY, Owners, is_first_hands
from .keys import Reader
from .messages import Off
from .outside import Failed
from .pacing import (CLOCK, CLOCKS_A_BEAT, CLOCKS_A_FRAME, CONTINUE, FRAMES_A_BEAT, START, STOP, Follower, Pacer)
from .picture import Scene, painting, picture_of
from .runs import DONE, HISTORY_FULL, INBOX_FAULT
from .scan import scan_of
from .script import Item, header_of, line_of, script_of
from .session import FRAME, Command, Framed, Refused

FASTEST = 999


class Player:
    """A hand: its reader of keys and its editor, its terminal, and what its last key came to."""

    def __init__(self, full, rows, columns):
        self.reader, self.editor = Reader(full), Editor(full)
        self.rows, self.columns = rows, columns
        self.shown = None           # the picture that the terminal shows, if that is known
        self.away = False
        self.word = 'ok'


class Performance:
    """A session and those who play at it."""

    def __init__(self, run, count, shared):
        values = run.values
        self.run, self.session, self.owners = run, run.session, Owners(run.session, shared)
        self.full = values['keys'] == 'full'
        self.all_views = values.get('views') == 'all'
        self.players = [Player(self.full, values['rows'], values['cols']) for _ in range(count)]
        self.leads = values['clock'] == 'lead'
        self.follower = Follower() if values['clock'] not in (None, 'lead') else None
        self.clocks = 0             # how many clocks of this frame a leader has given
        self.owes_start = False     # whether a leader begins anew when the pause ends
        self.pacer = None
        self.commands, self.added = [], 0
        self.refused = None         # the rule that refused the last command
        self.unsaved = self.journal_lost = False
        self.traffic = None
        self.stirred = False        # whether a picture follows

    @property
    def paused(self):
        """All pause with the first hand."""
        return self.players[0].editor.paused

    # A performance, from its opening to its end.

    def perform(self, began):
        self.begin_journal()
        self.pacer = self.new_pacer(began, self.run.values['bpm'])
        self.give_clock(START)
        self.paint(None)
        status = None
        while status is None:
            status = self.step()
        self.run.close()
        self.give_clock(STOP)
        self.add_to_journal()
        if self.run.values['save'] is not None:
            self.run.save(self.run.values['save'], self.run.grid_text())
        if self.run.values['script'] is not None:
            items = [Item(command, 1, 0) for command in self.commands]
            self.run.save(self.run.values['script'], script_of(self.session.seed, items))
        return status

    def step(self):
        """An answer of the inbox, with all that follows from it. A status, where it ends the run."""
        kind, *arrival = self.run.poll(None if self.paused or self.follower else self.pacer.due)
        if kind in ('end', 'failed'):
            return DONE if kind == 'end' else INBOX_FAULT
        self.stirred = self.run.values['clock'] is None
        status = self.bytes_came(*arrival) if kind == 'bytes' else self.moment_came(*arrival)
        if status is None:
            self.add_to_journal()
            if self.stirred:
                self.paint(self.marks())
        return status

    def bytes_came(self, hand, at, data):
        """A clock that is heard is the hand behind the last. Bytes of a hand that is not there are dropped."""
        if self.follower and hand == len(self.players):
            return self.clock_came(data, at)
        self.stirred = True
        if hand < len(self.players):
            for byte in data:
                for pressed in self.players[hand].reader.read(byte):
                    if self.press(hand, pressed, at):
                        return DONE
        return None

    def moment_came(self, at):
        """A frame is due, or with a clock to give the next one of that; of six the first plays a frame."""
        status, first = None, self.clocks == 0
        self.give_clock(CLOCK)
        if first:
            self.stirred = True
            status = self.frame_came(at)
        if self.leads:
            self.clocks = (self.clocks + 1) % CLOCKS_A_FRAME
        self.pacer.fired(at)
        return status

    def frame_came(self, at):
        """Nothing came for a while, which ends an escape, but for the end of a text, which may come in parts. Then a
        frame is played."""
        for hand, player in enumerate(self.players):
            if player.editor.flow is None:
                for pressed in player.reader.wait():
                    self.press(hand, pressed, at)
        if self.session.is_full():
            return HISTORY_FULL
        self.give(NOBODY, FRAME)
        return None

    # Clocks.

    def clock_came(self, data, at):
        """What a clock asks for. While the first hand has paused, frames are left out."""
        for byte in data:
            running = self.follower.running
            beat = self.follower.heed(byte)
            self.stirred |= beat is not None or self.follower.running != running
            if beat == 'restart':
                self.give(NOBODY, Command('reset'))
            if beat == 'frame' and not self.paused:
                status = self.frame_came(at)
                if status is not None:
                    return status
        return None

    def give_clock(self, byte):
        if self.leads:
            self.run.send('midi', bytes([byte]))

    def new_pacer(self, at, bpm):
        return Pacer(at, bpm, CLOCKS_A_BEAT if self.leads else FRAMES_A_BEAT)

    def begin_anew(self):
        """After a reset those who follow begin anew: at once, or once the pause ends."""
        if self.leads:
            self.clocks = 0
            if self.paused:
                self.owes_start = True
            else:
                self.give_clock(START)

    def toggle(self, at):
        """A pause begins or ends. The next frame is due an interval after its end."""
        if self.paused:
            self.give_clock(STOP)
        else:
            self.give_clock(START if self.owes_start else CONTINUE)
            self.owes_start = False
            self.pacer = self.new_pacer(at, self.pacer.bpm)

    # Commands.

    def give(self, hand, command):
        """A command of a hand, or of nobody. The answer."""
        answer, messages = self.session.obey(command)
        self.commands.append(command)
        self.owners.follow(hand, command, answer)
        for player in self.players:
            player.editor.fit(self.session.piece.grid.height, self.session.piece.grid.width)
        self.refused = answer.rule if isinstance(answer, Refused) else None
        heard = [message for message in messages if not isinstance(message, Off)]
        if isinstance(answer, Framed) and heard:
            self.traffic = answer.tick, heard
        self.run.hand_out(messages)
        return answer

    # Keys.

    def press(self, hand, pressed, at):
        """A key of a hand. Whether it ends the run."""
        player, piece = self.players[hand], self.session.piece
        before, editor = copy.copy(player.editor), player.editor
        own = self.owners.own(hand) if pressed.name == 'Retract' else None         # no other key asks for it
        wish = editor.press(pressed, Around(piece.grid, self.session.moments, player.rows, player.columns, own))
        if hand != 0 and is_first_hands(wish, self.full, self.all_views):
            before.page = editor.page           # all else is as before
            player.editor, player.word = before, 'LeaderOnly'
            self.run.fault(f'hand {hand} refused LeaderOnly')
            return False
        if wish.name == 'Screen':               # a size is not the player's, and leaves the word
            self.resize(hand, *wish.values)
            return False
        player.word = 'ok'
        if wish.name == 'Do':
            self.obey(hand, *wish.values)
        elif wish.name == 'Toggle':
            self.toggle(at)
        elif wish.name in ('Slower', 'Faster') and not self.follower:
            beats = wish.values[0] if wish.name == 'Faster' else -wish.values[0]
            self.pacer.retime(max(1, min(FASTEST, self.pacer.bpm + beats)))
        elif wish.name == 'Redraw':
            player.shown = None
        elif wish.name == 'Save':
            self.save(player)
        return wish.name == 'Quit'

    def obey(self, hand, command):
        """Hands that share a session have no redo, and undo their own edits alone."""
        player = self.players[hand]
        if self.owners.shared and command.name == 'redo':
            return
        other = self.owners.in_the_way(hand) if command.name == 'undo' else NOBODY
        if other is not NOBODY:
            player.word = 'NotYours'
            self.run.fault(f'hand {hand} refused NotYours {other}')
            return
        answer = self.give(hand, command)
        if isinstance(answer, Refused):
            player.word = answer.rule
        elif command.name == 'reset':
            self.begin_anew()

    def resize(self, hand, rows, columns):
        """A terminal tells its size, and shows whatever it shows. A size of nothing says that another hand is away,
        which ends its text."""
        player = self.players[hand]
        player.away = hand != 0 and self.all_views and (rows, columns) == (0, 0)
        if player.away:
            player.editor.flow = None
            return
        player.rows = max(LEAST_ROWS, min(MOST_ROWS, rows))
        player.columns = max(LEAST_COLUMNS, min(MOST_COLUMNS, columns))
        player.shown = None

    def save(self, player):
        name = self.run.values['save']
        saved = self.run.save(self.run.values['grid'] if name is None else name, self.run.grid_text())
        self.unsaved = not saved
        if saved:
            player.word = 'saved'

    # The journal: the script as far as it is played, each command at once.

    def begin_journal(self):
        name = self.run.values['journal']
        if name is not None:
            self.journal_lost = not self.run.save(name, header_of(self.session.seed))

    def add_to_journal(self):
        """What was given since, before the picture of it."""
        name, new = self.run.values['journal'], self.commands[self.added:]
        self.added = len(self.commands)
        if name is not None and new:
            try:
                self.run.outside.files.append(name, b''.join(map(line_of, new)))
            except Failed:
                self.journal_lost = self.run.save_failed = True

    # Pictures.

    def marks(self):
        """Those of a frame of the piece as it stands."""
        piece = self.session.piece
        return scan_of(piece.grid, piece.tick, self.session.seed).marks

    def paint(self, marks):
        """The first hand's picture goes to the output, that of another to where its keys come from."""
        for hand, player in enumerate(self.players[:None if self.all_views else 1]):
            if player.away:
                continue
            picture = picture_of(self.scene(hand, marks))
            text = painting(player.shown, picture)
            player.shown = picture
            if text and hand == 0:
                self.run.send('view', text)
            elif text:
                self.run.outside.tell(hand, text)

    def scene(self, hand, marks):
        player, piece = self.players[hand], self.session.piece
        editor = copy.copy(player.editor)
        editor.paused = self.paused
        others = {(other.editor.row, other.editor.column) for other in self.players
                  if other is not player and not other.away}
        tempo = self.pacer.bpm
        if self.follower:
            tempo = 'clock' if self.follower.running else 'stopped'
        return Scene(player.rows, player.columns, piece, marks or bytes(len(piece.grid.cells)), editor,
                     others if self.all_views else set(), self.session.moments, tempo,
                     self.warnings() if self.full else [], self.word(hand), self.full, self.traffic)

    def warnings(self):
        """What fails: ports that could not be attached or lost what was sent last, the journal; and how many are
        away."""
        lost = self.run.unattached | self.run.lost
        away = sum(player.away for player in self.players)
        return ([f'no {port}' for port in ('midi', 'udp', 'osc') if port in lost]
                + ['no journal'] * self.journal_lost + [f'{away} away'] * (away > 0))

    def word(self, hand):
        """What the last key of this hand came to; with plain keys the rule that refused the last command of anybody."""
        if not self.full:
            return self.refused or 'ok'
        word = self.players[hand].word
        return 'unsaved' if hand == 0 and self.unsaved and word == 'ok' else word


def play(run):
    """One hand."""
    began = run.open_and_listen()
    return Performance(run, 1, shared=False).perform(began)


def jam(run):
    """Several hands, who share the session."""
    began = run.open_and_listen()
    return Performance(run, run.values['hands'], shared=True).perform(began)
