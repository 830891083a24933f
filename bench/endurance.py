#!/usr/bin/env python3
"""Plays for a long time to peers that die and come back: bench/endurance.py [PROGRAM] [--minutes M] [--seed S]

For M minutes (30) somebody types random keys and pastes random texts at 999 beats a minute. Meanwhile the readers of the
MIDI pipe and of the picture stop, go and come back at random, and so do UDP and OSC listeners on the loopback. At the end
the saved grid has to be what the replay of the saved script gives, and the reader of the pipe must have had whole
messages. PROGRAM is crates/orca/out/orca if it is not given. It ends with 1 if something of that does not hold.
"""
import fcntl
import os
import random
import socket
import subprocess
import sys
import tempfile
import threading
import time

from built import program_of
from live import free_port, option

# Keys and how often they come: moves, glyphs, edits, and those that save, step, reset and pause.
KEYS = ([b'\x1b[A', b'\x1b[B', b'\x1b[C', b'\x1b[D', b'\x1b[1;2A', b'\x1b[1;2B', b'\x1b[1;2C', b'\x1b[1;2D'] * 6 +
        [bytes([glyph]) for glyph in range(33, 127)] * 2 +
        [b'\x7f', b'\x03', b'\x18', b'\x16', b'\x1a', b'\x1a', b'\x19', b'\x02', b'\x1b', b'\x06', b'\x12', b'\x13', b'  '] * 3)
# The share of texts among them, and what these are of.
PASTES = 0.01
TEXT_GLYPHS = '...  0123456789DEHNSWdehnsw*:'
# About how many keys a second.
KEYS_A_SECOND = 60
# How many bytes a pipe holds, so that a reader that stands still is soon felt.
ROOM = 16384


class Pipe:
    """A reader of a pipe that stops, goes and comes back. The pipe itself stays open, as a shell keeps it."""

    def __init__(self, name):
        os.mkfifo(name)
        self.file, self.is_there, self.got = os.open(name, os.O_RDWR | os.O_NONBLOCK), True, 0
        self.rest, self.is_whole = b'', True
        fcntl.fcntl(self.file, fcntl.F_SETPIPE_SZ, ROOM)

    def read(self):
        """Reads what is there, and looks at it: each message has three bytes, and the first alone is above 127."""
        try:
            data = self.rest + os.read(self.file, 1 << 16)
        except BlockingIOError:
            return
        self.got += len(data) - len(self.rest)
        whole = len(data) - len(data) % 3
        self.rest = data[whole:]
        self.is_whole = self.is_whole and all((byte > 127) == (at % 3 == 0) for at, byte in enumerate(data[:whole]))


class Listener:
    """A UDP listener that goes and comes back."""

    def __init__(self):
        self.address, self.got = ('127.0.0.1', random.randint(30000, 39999)), 0
        self.socket = None
        self.come()

    def come(self):
        self.socket = socket.socket(socket.AF_INET, socket.SOCK_DGRAM)
        self.socket.setblocking(False)
        try:
            self.socket.bind(self.address)
        except OSError:
            self.go()

    def go(self):
        self.socket.close()
        self.socket = None

    def read(self):
        try:
            while self.socket and self.socket.recv(65536):
                self.got += 1
        except OSError:
            pass


def peers(pipe, picture, listeners, is_over):
    """Reads what comes. Each peer goes at random for up to 8 seconds, and comes back."""
    away = {}
    while not is_over.is_set():
        now = time.monotonic()
        for peer in [pipe, picture, *listeners]:
            if now < away.get(peer, 0):
                continue
            if away.pop(peer, 0) and peer in listeners:
                peer.come()
            peer.read()
            if random.random() < 0.0003:
                away[peer] = now + random.uniform(0.1, 8)
                if peer in listeners:
                    peer.go()
        time.sleep(0.005)


class Picture:
    """The terminal: it reads what is painted."""

    def __init__(self, file):
        self.file, self.got = file, 0
        fcntl.fcntl(file, fcntl.F_SETFL, os.O_NONBLOCK)
        fcntl.fcntl(file, fcntl.F_SETPIPE_SZ, ROOM)

    def read(self):
        try:
            self.got += len(os.read(self.file, 1 << 20))
        except BlockingIOError:
            pass


def text():
    """A pasted text of up to 30 rows."""
    rows = (''.join(random.choices(TEXT_GLYPHS, k=random.randrange(60))) for _ in range(random.randrange(30)))
    return ('\x1b[200~' + '\n'.join(rows) + '\x1b[201~').encode()


def type_keys(program, keys, seconds):
    until, typed = time.monotonic() + seconds, 0
    while time.monotonic() < until and program.poll() is None:
        for _ in range(random.randint(1, 8)):
            keys.sendall(text() if random.random() < PASTES else random.choice(KEYS))
            typed += 1
        time.sleep(random.uniform(1, 16) / KEYS_A_SECOND)
    return typed


def connect(program, port):
    until = time.monotonic() + 10
    while True:
        try:
            return socket.create_connection(('127.0.0.1', port), timeout=30)
        except ConnectionRefusedError:
            if time.monotonic() >= until or program.poll() is not None:
                sys.exit('the program does not listen')
            time.sleep(0.02)


def replayed():
    """The grid that the saved script gives, and how many commands it has. The script has the seed."""
    text = subprocess.run([PROGRAM, 'replay', 'piece', 'script', '--limit', '4000000'], stdout=subprocess.PIPE,
                          timeout=600, check=True).stdout
    with open('script', 'rb') as file:
        head, *lines = file.read().splitlines()
    if head != b'!orca 2 seed 7':
        sys.exit(f'the script begins with {head!r}')
    # Frames in a row are one line.
    count = sum(int(line.split()[1]) if line.startswith(b'frames ') else 1 for line in lines)
    return b''.join(line + b'\n' for line in text.splitlines() if b' ' not in line), count


def piece():
    """A grid of many instruments, texts and OSC messages, which the keys then change."""
    notes = b'.D1......D1......D1......D1.......\n..:03C82..:14E82..:25G82..:36A82..\n'
    texts = b'.D1......D1......D1......D1.......\n..;hi.....;ho.....=a12.....=b345..\n'
    return (notes * 3 + texts) * 8


def main():
    random.seed(option('--seed', 1))
    with open('piece', 'wb') as file:
        file.write(piece())
    pipe, listeners, port = Pipe('synth'), [Listener(), Listener()], free_port()
    words = [PROGRAM, 'play', 'piece', f'127.0.0.1:{port}', '--bpm', '999', '--seed', '7', '--limit', '4000000',
             '--keys', 'full', '--midi', 'synth', '--save', 'saved', '--script', 'script']
    for word, (host, number) in zip(('--udp', '--osc'), (it.address for it in listeners)):
        words += [word, f'{host}:{number}']
    program = subprocess.Popen(words, stdout=subprocess.PIPE, bufsize=0)
    keys, picture, is_over = connect(program, port), Picture(program.stdout.fileno()), threading.Event()
    watch = threading.Thread(target=peers, args=(pipe, picture, listeners, is_over))
    watch.start()
    try:
        typed = type_keys(program, keys, 60 * option('--minutes', 30))
        begin = time.monotonic()
        keys.sendall(b'\x11')
        status = program.wait(30)
        seconds = time.monotonic() - begin
    finally:
        program.kill()
        is_over.set()
        watch.join()
    grid, count = replayed()
    with open('saved', 'rb') as file:
        is_same = file.read() == grid
    print(f"{typed} keys, {count} commands, {pipe.got} bytes of MIDI, {picture.got} of the picture, "
          f"{'+'.join(str(it.got) for it in listeners)} datagrams; status {status}, {seconds:.2f} seconds after the key Quit")
    print(f"the replay gives {'the saved grid' if is_same else 'ANOTHER GRID'}; "
          f"the pipe had {'whole' if pipe.is_whole else 'TORN'} messages")
    return 0 if is_same and pipe.is_whole and status in (0, 3) and seconds < 2 else 1


if __name__ == '__main__':
    PROGRAM = program_of(sys.argv[1:])
    with tempfile.TemporaryDirectory() as folder:
        os.chdir(folder)
        sys.exit(main())
