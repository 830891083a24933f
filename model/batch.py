"""The words that play and leave: `run`, `events`, `replay`, `make`, `migrate`, `smf`, `wav` and `take`."""
from .chance import Words
from .glyphs import CAPITALS, DIGITS, EMPTY, SIGNS, SMALL_LETTERS
from .grids import Grid
from .messages import midi_bytes, wire
from .runs import DONE, HISTORY_FULL, SONG_TOO_LONG, WAVE_TOO_LONG, Ended
from .script import script_of
from .session import FRAME, Command, Framed, Refused
from .songs import TooLong, Track
from .waves import is_too_long, wave_of


# Frames.

def frames(run, work):
    """Plays the frames of the words, and hands the messages of each to some work. A full history ends them."""
    for _ in range(run.values['frames']):
        if run.session.is_full():
            return HISTORY_FULL
        work()
    return DONE


def play_grid(run):
    """Prints the last grid, if all frames were played."""
    run.open_grid()
    status = frames(run, lambda: run.give(FRAME))
    if status == DONE:
        run.text(run.grid_text())
    run.close()
    return status


def list_events(run):
    """Prints a line for each message, those of a frame behind all of its sends."""
    def print_all(tick, messages):
        for port, data in map(wire, messages):
            run.text(f'{tick} {port} {data.hex(" ").upper()}\n'.encode())

    def frame():
        answer, messages = run.give(FRAME)
        print_all(answer.tick, messages)

    run.open_grid()
    status = frames(run, frame)
    print_all('end', run.close())
    return status


# Scripts.

def answers(items, obey):
    """Does the items of a script. A command that is refused ends its item, and the others go on."""
    for item in items:
        for _ in range(item.times):
            answer, messages = obey(item.command)
            yield item, answer, messages
            if isinstance(answer, Refused):
                break


def replay(run):
    """Prints each refusal when it comes, and where the session stands at last."""
    items = run.open_script()
    for item, answer, _ in answers(items, run.give):
        if isinstance(answer, Refused):
            run.text(b'refused %d %s\n' % (item.line, str(answer).encode()))
    run.text(run.state_text())
    run.close()
    return DONE


def migrate(run):
    seed, items = run.load_script()
    run.save(run.values['out'], script_of(seed, items))
    return DONE


# What is made by chance.

PALETTE = DIGITS + CAPITALS + SMALL_LETTERS + SIGNS


def made_glyph(word):
    """Seventy of a hundred cells are empty."""
    return EMPTY if word % 100 < 70 else PALETTE[word // 100 % len(PALETTE)]


def make(run):
    """A grid and commands by random words; a summary is printed."""
    height, width = run.values['height'], run.values['width']
    words = Words(run.values['seed'], 0)
    cells = bytes(made_glyph(words.next()) for _ in range(height * width))
    run.values['limit'] = 1_000_000
    run.open_session(Grid(height, width, cells), run.values['seed'])
    count = 0
    for turn in range(run.values['frames']):
        commands = [FRAME]
        if turn % 16 == 15:
            row, column, glyph = words.next() % height, words.next() % width, made_glyph(words.next())
            commands.append(Command('write', (row, column, glyph)))
        if turn % 64 == 63:
            commands.append(Command('undo'))
        for command in commands:
            count += len(run.give(command)[1])
        if turn % 1024 == 1023:
            count += len(run.give(Command('rewind', (run.session.moments // 2,)))[1])
    run.text(summary(run.session, count))
    run.close()
    return DONE


def summary(session, messages):
    total, piece = 0, session.piece
    for glyph in piece.grid.cells:
        total = (31 * total + glyph) % 2 ** 32
    return (f'grid {piece.grid.height}x{piece.grid.width}\nmoments {session.moments}\ntick {piece.tick}\n'
            f'messages {messages}\nsum {total}\n').encode()


# Songs and waves. They are deaf: nothing is handed out.

def save_song(run):
    run.open_grid()
    track = Track(run.values['bpm'])

    def frame():
        answer, messages = run.session.obey(FRAME)
        track.add_all(answer.tick, midi_bytes(messages))

    try:
        status = frames(run, frame)
        if status != DONE:
            return status
        track.add_all(run.values['frames'], midi_bytes(run.session.close()))
        song = track.song(run.values['frames'])
    except TooLong:
        return SONG_TOO_LONG
    run.save(run.values['out'], song)
    return DONE


def save_wave(run):
    if is_too_long(run.values['frames'], run.values['bpm']):
        return WAVE_TOO_LONG
    run.open_grid()
    played = []
    status = frames(run, lambda: played.append(run.session.obey(FRAME)[1]))
    if status == DONE:
        run.save(run.values['out'], wave_of(played, run.values['bpm']))
    return status


def save_take(run):
    """The song of a script, and its wave. What was undone was heard, so the time of a song never goes back: each
    frame that was done is a tick, and what other commands end has the tick at which it ends."""
    items = run.open_script()
    bpm, wave = run.values['bpm'], run.values['wav']
    track, played, waiting = Track(bpm), [], []
    try:
        for _, answer, messages in answers(items, run.session.obey):
            track.add_all(len(played), midi_bytes(messages))
            waiting += messages
            if isinstance(answer, Framed):
                played.append(waiting)
                waiting = []
            if wave is not None and is_too_long(len(played), bpm):
                raise Ended(WAVE_TOO_LONG)
        track.add_all(len(played), midi_bytes(run.session.close()))
        song = track.song(len(played))
    except TooLong:
        return SONG_TOO_LONG
    if wave is not None:
        run.save(wave, wave_of(played, bpm))
    run.save(run.values['out'], song)
    return DONE
