#!/usr/bin/env python3
"""Measures `orca play` over a real connection: bench/live.py [PROGRAM] [--short] [--clock] [--hands] [--paste]
[--seconds S] [--turns N] [--keys N] [--flood BYTES] [--text BYTES]

It prints how late frames are, how long a key waits for its painting, near a frame and away from one, how a beat that
fell behind catches up, what eight megabytes of keys, a pasted megabyte and saves do to the frames, how much of a
processor is used, and how many bytes a frame paints; with --short it prints only how late frames and keys are, with
--clock only how late the clock of `lead` is, and a frame of `follow` after its clock, with --hands only how late the
frames of `jam` are while eight hands send nothing, while each of them sends eight megabytes of keys, and while each sees
a picture, and with --paste only what a pasted text does. PROGRAM is crates/orca/out/orca if it is not given. For figures
that mean something nothing else may run.
"""
import os
import random
import select
import signal
import socket
import subprocess
import sys
import tempfile
import threading
import time

import grids
from built import program_of

# A clock and a note in each frame, above a small piece.
BEAT = b'.D1.....\n..:03C82\n' + grids.piece()
# The same above an empty grid of 256 x 256.
WIDE_BEAT = b'.D1.....\n..:03C82\n' + grids.dots(254, 256)
NOTE = b'\x90\x24'
# How a picture shows the cursor, as cursor_on of .ci/join.bash: the glyph follows.
CURSOR = b'\x1b[7m'
# The bytes of a MIDI clock.
CLOCK, START = b'\xf8', b'\xfa'
# How long before a moment a key counts as near it, in seconds.
NEAR = 0.012
# How late a frame may be while hands flood, in seconds.
LATE = 0.005
HANDS = 8
# The size of the largest screen.
LARGE = ('--rows', 100, '--cols', 256)
# The cursor goes where no instrument is. If a frame comes inside an arrow, the rest of that is written there.
AWAY = b'\x1b[B' * 20
# A program that waits for one moment after another, as a player does, and does nothing else: it sleeps, reads the clock for the
# last 80 microseconds, and tells how late it was at each. A virtual machine is stopped by its host, whatever it does; what
# this program is late, no program on this machine could be spared.
WAITER = '''
import select
import sys
import time
interval, late = float(sys.argv[1]), []
print(flush=True)
moment = time.monotonic() + interval
while not select.select([sys.stdin], [], [], 0)[0]:
    time.sleep(max(0, moment - 0.00008 - time.monotonic()))
    while time.monotonic() < moment:
        pass
    late.append(time.monotonic() - moment)
    moment += interval
print(*late)
'''
# A program that answers each byte of a connection at once by a byte of its own, and does nothing else.
ECHO = '''
import os
import socket
listener = socket.create_server(('127.0.0.1', 0))
os.write(1, b'%d\\n' % listener.getsockname()[1])
connection, _ = listener.accept()
while key := connection.recv(1):
    os.write(1, key)
'''


def option(name, default):
    return int(sys.argv[sys.argv.index(name) + 1]) if name in sys.argv else default


def free_port():
    """A port that no socket has."""
    while True:
        port = random.randint(20000, 29999)
        tables = ''.join(open(file).read() for file in ('/proc/net/tcp', '/proc/net/tcp6') if os.path.exists(file))
        if f':{port:04X} ' not in tables:
            return port


class Player:
    """A program that plays, and its connections, of which one is its keys; with a pipe for its notes if its options name
    one."""

    def __init__(self, grid, *options, verb='play', hands=1):
        port = self.port = free_port()
        with open('grid', 'wb') as file:
            file.write(grid)
        os.path.exists('pipe') or os.mkfifo('pipe')
        self.notes = os.open('pipe', os.O_RDWR)
        words = [PROGRAM, verb, 'grid', f'127.0.0.1:{port}', *map(str, options), *[str(hands)] * (verb == 'jam')]
        self.process = subprocess.Popen(words, stdout=subprocess.PIPE, bufsize=0)
        until = time.monotonic() + 10
        while True:
            try:
                self.keys = socket.create_connection(('127.0.0.1', port))
                break
            except ConnectionRefusedError:
                if time.monotonic() >= until or self.process.poll() is not None:
                    sys.exit('the program does not listen')
                time.sleep(0.01)
        self.keys.setsockopt(socket.IPPROTO_TCP, socket.TCP_NODELAY, 1)
        # What is looked for in the paintings, and when it came.
        self.wanted, self.seen = None, None
        self.hands = [self.keys, *(socket.create_connection(('127.0.0.1', port)) for _ in range(1, hands))]

    def painting(self, seconds):
        """The next bytes that are painted; none if there are none in this time."""
        ready, _, _ = select.select([self.process.stdout], [], [], seconds)
        painted = os.read(self.process.stdout.fileno(), 1 << 20) if ready else b''
        if self.wanted and self.wanted in painted:
            self.wanted, self.seen = None, time.monotonic()
        return painted

    def frames(self, seconds, sign=NOTE):
        """The moments at which frames come within this time, one by one, or other bytes. What is painted is read, and
        dropped."""
        until = time.monotonic() + seconds
        while time.monotonic() < until:
            ready, _, _ = select.select([self.notes, self.process.stdout], [], [], 0.1)
            now = time.monotonic()
            # Two frames may have come since the last look.
            for _ in range(os.read(self.notes, 1 << 16).count(sign) if self.notes in ready else 0):
                yield now
            if self.process.stdout in ready:
                self.painting(0)

    def has_unread(self):
        """Whether keys wait that the program has not read."""
        with open('/proc/net/tcp') as file:
            rows = [line.split() for line in file]
        return any(row[1].endswith(f':{self.port:04X}') and int(row[4].split(':')[1], 16) for row in rows)

    def used(self):
        """The time for which the process has had a processor, in seconds."""
        with open(f'/proc/{self.process.pid}/schedstat') as file:
            return int(file.read().split()[0]) / 1e9

    def leave(self):
        for hand in self.hands:
            hand.close()
        while self.painting(1):
            pass
        self.process.wait(10)
        os.close(self.notes)


def spread(name, times, unit, scale):
    times = sorted(times)

    def at(share):
        return times[min(len(times) - 1, int(len(times) * share))] * scale

    print(f'{name:<58} median {at(0.5):8.1f}, 99 of 100 {at(0.99):8.1f}, most {at(1):8.1f} {unit}', flush=True)


def interval_of(bpm):
    return 60_000_000 // (4 * bpm) / 1e6


def late_by(moments, interval):
    """How late each frame is. The least late of a row is taken to be in time; after a frame that is more than an interval
    late another row begins, since the beat begins anew."""
    late, row = [], []

    def close():
        due = min(moment - turn * interval for turn, moment in enumerate(row))
        late.extend(moment - turn * interval - due for turn, moment in enumerate(row))

    for moment in moments:
        row.append(moment)
        if moment - row[0] - (len(row) - 1) * interval > interval:
            close()
            row = []
    if row:
        close()
    return late


class Waiter:
    """The program that only waits, beside a player."""

    def __init__(self, interval):
        words = [sys.executable, '-c', WAITER, str(interval)]
        self.process = subprocess.Popen(words, stdin=subprocess.PIPE, stdout=subprocess.PIPE)
        # Its start takes a processor, and is no part of what is measured.
        self.process.stdout.readline()

    def tell(self):
        """Prints how late it was."""
        said, _ = self.process.communicate(b'\n')
        spread('    a program beside it that only waits for such moments', list(map(float, said.split())), 'microseconds', 1e6)


def lateness(bpm, seconds):
    """How late frames are, and how late a program is meanwhile that only waits."""
    waiter, player = Waiter(interval_of(bpm)), Player(BEAT, '--bpm', bpm, '--midi', 'pipe')
    moments = list(player.frames(seconds))
    player.leave()
    late = late_by(moments, interval_of(bpm))
    spread(f'a frame at {bpm} beats a minute, {len(late)} frames', late, 'microseconds', 1e6)
    waiter.tell()


def clocks(bpm, seconds):
    """How late the clock of a leader is."""
    interval = 60_000_000 // (24 * bpm) / 1e6
    waiter, player = Waiter(interval), Player(BEAT, '--bpm', bpm, '--midi', 'pipe', verb='lead')
    moments = list(player.frames(seconds, CLOCK))
    player.leave()
    spread(f'a clock at {bpm} beats a minute, {len(moments)} clocks', late_by(moments, interval), 'microseconds', 1e6)
    waiter.tell()


def followed(bpm, count):
    """From a clock to the frame that it plays."""
    echo, player, times, echoed = Echo(), Player(BEAT, '--midi', 'pipe', verb='follow'), [], []
    player.keys.send(START)
    begin = time.monotonic() + 0.1
    for turn in range(6 * count):
        time.sleep(max(0, begin + turn * 60 / (24 * bpm) - time.monotonic()))
        start = time.monotonic()
        player.keys.send(CLOCK)
        if turn % 6 == 0:
            times.append(next(player.frames(10)) - start)
            echoed.append(echo.answer_time())
    player.leave()
    echo.leave()
    spread(f'a frame after its clock at {bpm} beats a minute, {count} frames', times, 'microseconds', 1e6)
    spread('    a program beside it that only answers', echoed, 'microseconds', 1e6)


class Echo:
    """The program that only answers."""

    def __init__(self):
        self.process = subprocess.Popen([sys.executable, '-c', ECHO], stdout=subprocess.PIPE, bufsize=0)
        self.keys = socket.create_connection(('127.0.0.1', int(self.process.stdout.readline())))
        self.keys.setsockopt(socket.IPPROTO_TCP, socket.TCP_NODELAY, 1)

    def answer_time(self):
        start = time.monotonic()
        self.keys.send(b'.')
        self.process.stdout.read(1)
        return time.monotonic() - start

    def leave(self):
        self.keys.close()
        self.process.wait(10)


def key_times(name, grid, count, *options):
    """From the byte of a key to its painting, with no frame beside it."""
    player = Player(grid, '--bpm', 1, *options)
    while player.painting(0.3):
        pass
    times = []
    for turn in range(count):
        start = time.monotonic()
        player.keys.send(b'AB'[turn % 2:turn % 2 + 1])
        if not player.painting(10):
            sys.exit('a key is not painted')
        times.append(time.monotonic() - start)
        # The rest of a painting that came in parts.
        while player.painting(0.002):
            pass
    player.leave()
    spread('a key on ' + name, times, 'microseconds', 1e6)


def answer_time(player, key):
    """From the byte of a key to the painting that shows it at the cursor."""
    start, seen = time.monotonic(), b''
    player.keys.send(key)
    while CURSOR + key not in seen:
        seen += player.painting(10)
    return time.monotonic() - start


def keys_by_frames(bpm, count):
    """Keys while a piece plays: those that are typed shortly before a frame, and the others. After each of them a program
    is asked that only answers."""
    echo, player, interval = Echo(), Player(BEAT, '--bpm', bpm, '--midi', 'pipe'), interval_of(bpm)
    player.keys.send(AWAY)
    times, echoed = {True: [], False: []}, []
    for turn in range(count):
        is_near = turn % 2 == 0
        moment = next(player.frames(10))
        left = random.uniform(0.0003, NEAR) if is_near else random.uniform(NEAR, interval - 0.001)
        if left < interval:
            time.sleep(max(0, moment + interval - left - time.monotonic()))
            while player.painting(0):
                pass
            times[is_near].append(answer_time(player, b'12'[turn % 2:turn % 2 + 1]))
            echoed.append(echo.answer_time())
    player.leave()
    echo.leave()
    for is_near, name in ((True, 'less than 12 ms before a frame'), (False, 'away from one')):
        spread(f'a key at {bpm} beats, {name}', times[is_near], 'microseconds', 1e6)
    spread('    a program beside it that only answers', echoed, 'microseconds', 1e6)


def catching_up(bpm):
    """The program is held for an interval and a half, and let go: how late the frames after that are."""
    player, interval = Player(BEAT, '--bpm', bpm, '--midi', 'pipe'), interval_of(bpm)
    moments = list(player.frames(40 * interval))
    os.kill(player.process.pid, signal.SIGSTOP)
    time.sleep(max(0, moments[-1] + 1.5 * interval - time.monotonic()))
    os.kill(player.process.pid, signal.SIGCONT)
    moments += player.frames(6 * interval)
    player.leave()
    base = min(moment - turn * interval for turn, moment in enumerate(moments[:30]))
    late = [(moment - turn * interval - base) * 1e3 for turn, moment in enumerate(moments)][30:]
    first = max(range(len(late)), key=lambda turn: late[turn])
    shown = ', '.join(f'{it:.2f}' for it in late[first:first + 5])
    print(f'held for one and a half intervals at {bpm} beats: {shown} milliseconds late', flush=True)


def flood(bpm, count):
    """So many bytes of keys at once: how late the frames are while they come."""
    player, interval = Player(BEAT, '--bpm', bpm, '--midi', 'pipe'), interval_of(bpm)
    waiter = Waiter(interval)
    before = list(player.frames(20 * interval))
    sender = threading.Thread(target=player.keys.sendall, args=(AWAY + b'\x1b[C\x1b[D' * (count // 6),))
    during, begin = [], time.monotonic()
    sender.start()
    while sender.is_alive() or player.has_unread():
        during += player.frames(10 * interval)
    seconds = time.monotonic() - begin
    player.leave()
    late = late_by(before + during, interval)[len(before):]
    spread(f'a frame at {bpm} beats under {count} bytes of keys in {seconds:.1f} s', late, 'microseconds', 1e6)
    waiter.tell()


def pasted(bpm, grid, count, *options):
    """A text of so many bytes at once: how late the frames are until its picture comes, and how long that takes."""
    player, interval = Player(grid, '--bpm', bpm, '--midi', 'pipe', '--keys', 'full', *options), interval_of(bpm)
    player.keys.send(AWAY)
    waiter = Waiter(interval)
    before = list(player.frames(20 * interval))
    text = (b'7' * 255 + b'\n') * (count // 256) + b'7' * (count % 256)
    sender = threading.Thread(target=player.keys.sendall, args=(b'\x1b[200~' + text + b'\x1b[201~',))
    player.wanted, during, begin = CURSOR + b'7', [], time.monotonic()
    sender.start()
    while not player.seen:
        during += player.frames(10 * interval)
        time.monotonic() < begin + 300 or sys.exit('a text is not painted')
    player.leave()
    late = late_by(before + during, interval)[len(before):]
    spread(f'a frame at {bpm}, a text of {count} bytes seen after {player.seen - begin:.3f} s', late, 'microseconds', 1e6)
    waiter.tell()


class Sender:
    """A process that sends these bytes to a connection, from the word go."""

    def __init__(self, connection, data):
        ready, self.word = os.pipe()
        self.process = os.fork()
        if not self.process:
            os.close(self.word)
            os.read(ready, 1)
            connection.sendall(data)
            os._exit(0)
        os.close(ready)

    def go(self):
        os.write(self.word, b'.')
        os.close(self.word)

    def is_at_work(self):
        return os.waitpid(self.process, os.WNOHANG) == (0, 0)


def hands_flood(bpm, seconds, count):
    """Eight hands, which send nothing for so many seconds, and then so many bytes of keys each: how late the frames are."""
    interval, player = interval_of(bpm), Player(BEAT, '--bpm', bpm, '--midi', 'pipe', verb='jam', hands=HANDS)
    for name, keys in ('nothing', b''), (f'{count} bytes of keys each', AWAY + b'\x1b[C\x1b[D' * (count // 6)):
        senders, waiter = [Sender(hand, keys) for hand in player.hands], Waiter(interval)
        # Frames that came while these began were not looked at.
        for _ in player.frames(2 * interval):
            pass
        begin, moments = time.monotonic(), []
        for sender in senders:
            sender.go()
        while senders or player.has_unread() or not keys and time.monotonic() - begin < seconds:
            moments += player.frames(10 * interval)
            senders = [sender for sender in senders if sender.is_at_work()]
        late = late_by(moments, interval)
        spread(f'{HANDS} hands send {name} in {time.monotonic() - begin:.1f} s', late, 'microseconds', 1e6)
        which = [number for number, it in enumerate(late, 1) if it > LATE]
        first = ': number ' + ', '.join(map(str, which[:8])) if which else ''
        print(f'    {len(which)} of {len(late)} frames at {bpm} beats are more than {LATE * 1e3:.0f} milliseconds late{first}',
              flush=True)
        waiter.tell()
    player.leave()


class Reader:
    """A process that reads what a hand is shown, and drops it."""

    def __init__(self, hand):
        self.process = os.fork()
        if self.process == 0:
            while hand.recv(1 << 16):
                pass
            os._exit(0)

    def end(self):
        os.kill(self.process, signal.SIGKILL)
        os.waitpid(self.process, 0)


def hands_see(bpm, seconds):
    """Eight hands with the largest screens, of whom one reads nothing: how late the frames are while hand 0 alone is shown a
    picture, and while each hand is."""
    interval = interval_of(bpm)
    for views in 'one', 'all':
        player = Player(BEAT, '--bpm', bpm, '--midi', 'pipe', *LARGE, '--views', views, verb='jam', hands=HANDS)
        readers, waiter = [Reader(hand) for hand in player.hands[2:]], Waiter(interval)
        for _ in player.frames(2 * interval):
            pass
        late = late_by(list(player.frames(seconds)), interval)
        spread(f'a frame at {bpm} beats while {HANDS} hands see --views {views}', late, 'microseconds', 1e6)
        waiter.tell()
        for reader in readers:
            reader.end()
        player.leave()


def saving(bpm, count):
    """How late the frames are while the piece is saved in every fifth of them."""
    interval, moments = interval_of(bpm), []
    waiter, player = Waiter(interval), Player(BEAT, '--bpm', bpm, '--midi', 'pipe', '--save', 'saved')
    for _ in range(count):
        moments += [moment for _, moment in zip(range(5), player.frames(10))]
        player.keys.send(b'\x13')
    player.leave()
    spread(f'a frame at {bpm} beats beside {count} saves', late_by(moments, interval), 'microseconds', 1e6)
    waiter.tell()


def processor(name, grid, seconds, keys, *options):
    """The share of a processor, and the bytes of a frame's painting."""
    player = Player(grid, *options)
    player.painting(1)
    player.keys.send(keys)
    player.painting(0.3)
    begin, used, frames, painted = time.monotonic(), player.used(), 0, 0
    while time.monotonic() < begin + seconds:
        bytes_of = player.painting(0.1)
        frames += 1 if bytes_of else 0
        painted += len(bytes_of)
    used, seconds = player.used() - used, time.monotonic() - begin
    player.leave()
    print(f'{name:<58} {100 * used / seconds:6.3f} of 100 of a processor, {painted / max(frames, 1):6.0f} bytes a painting '
          f'({frames})', flush=True)


def main():
    keys, seconds = option('--keys', 1000), option('--seconds', 60)
    if '--clock' in sys.argv:
        for bpm in (120, 999):
            clocks(bpm, seconds)
            followed(bpm, min(keys, 4 * seconds))
        return
    if '--paste' in sys.argv:
        for bpm in (120, 999):
            for count in 25_600, option('--text', 1_000_000):
                pasted(bpm, BEAT, count)
                pasted(bpm, WIDE_BEAT, count, *LARGE)
        return
    if '--hands' in sys.argv:
        for bpm in (120, 999):
            hands_flood(bpm, seconds / 4, option('--flood', 8_000_000))
            hands_see(bpm, seconds / 4)
        return
    # In some of these turns the machine itself may be stopped less than in others.
    for bpm in (120, 999):
        for _ in range(option('--turns', 4)):
            lateness(bpm, seconds / 4)
    for bpm in (120, 999):
        keys_by_frames(bpm, min(keys, 8 * seconds))
        catching_up(bpm)
    saving(999, min(keys, 8 * seconds))
    if '--short' in sys.argv:
        return
    for bpm in (120, 999):
        flood(bpm, option('--flood', 8_000_000))
        pasted(bpm, BEAT, option('--text', 1_000_000))
    key_times('25 x 57, paused', grids.piece(), keys)
    key_times('256 x 256 of dots', grids.dots(256, 256), keys, *LARGE)
    key_times('256 x 256 with 10 %', grids.crowded(256, 256, 10), keys, *LARGE)
    key_times('1,024 x 1,024 of dots, 24 x 80 of it', grids.dots(1_024, 1_024), keys, '--rows', 24, '--cols', 80)
    key_times('1,024 x 1,024 of dots', grids.dots(1_024, 1_024), keys, *LARGE)
    crowd = grids.crowded(64, 64, 10)
    processor('64 x 64 with 10 %, paused', crowd, seconds, b' ')
    processor('64 x 64 with 10 %, playing at 120', crowd, seconds, b'')
    processor('64 x 64 with 10 %, playing at 999', crowd, seconds, b'', '--bpm', 999)
    processor('25 x 57, playing at 120', grids.piece(), seconds, b'')
    processor('25 x 57, playing at 999', grids.piece(), seconds, b'', '--bpm', 999)
    processor('25 x 57 of dots, playing at 120', grids.dots(25, 57), seconds, b'')


if __name__ == '__main__':
    PROGRAM = program_of(sys.argv[1:])
    with tempfile.TemporaryDirectory() as folder:
        os.chdir(folder)
        main()
