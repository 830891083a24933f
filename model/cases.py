"""Cases as lines of text, with all bytes in hexadecimal. The head of crates/orca_cases/src/main.rt says what they
mean."""
from .grids import read_grid
from .messages import Bend, Control, Datagram, Note
from .outside import Outside
from .program import Unanswered, status_of
from .scan import scan_of


def bytes_of(word):
    return b'' if word == '-' else bytes.fromhex(word)


def hex_of(data):
    return data.hex() or '-'


def answer_of(lines):
    """The lines of the answer to a case, from the lines between its first and its last one."""
    lines = [line.split(' ') for line in lines if line and not line.startswith('#')]
    kinds = {line[0] for line in lines}
    if kinds & {'step', 'held'}:
        raise Unanswered
    return answer_of_scan(lines) if 'scan' in kinds else answer_of_run(lines)


def answer_of_run(lines):
    words, files, wanted, fail, start, arrivals = [], {}, [], {}, 0, []
    for kind, *rest in lines:
        if kind == 'word':
            words.append(bytes_of(rest[0]))
        elif kind == 'file':
            files[rest[0]] = bytes_of(rest[1])
        elif kind == 'want':
            wanted.append(rest[0])
        elif kind == 'fail':
            fail.setdefault(rest[0], []).append(int(rest[1]))
        elif kind == 'start':
            start = int(rest[0])
        elif kind == 'bytes':
            arrivals.append(('bytes', int(rest[0]), int(rest[1]), bytes_of(rest[2])))
        elif kind == 'due':
            arrivals.append(('due', int(rest[0])))
        else:
            raise Unanswered
    outside = Outside(files, fail, start, arrivals)
    status = status_of(words, outside)
    answer = [f'{kind} {to} {hex_of(data)}' for kind, to, data in outside.sent]
    for name in wanted:
        held = outside.files.held.get(name)
        answer.append(f'file {name} {"none" if held is None else hex_of(held)}')
    return answer + [f'status {status}']


def answer_of_scan(lines):
    """One frame alone."""
    tick, seed = next((int(rest[0]), int(rest[1])) for kind, *rest in lines if kind == 'scan')
    text = next(bytes_of(rest[1]) for kind, *rest in lines if kind == 'file')
    scan = scan_of(read_grid(text), tick, seed)
    return [f'cells {hex_of(scan.cells)}', f'marks {hex_of(scan.marks)}', f'vars {hex_of(scan.variables)}',
            *map(line_of_event, scan.events)]


def line_of_event(event):
    if isinstance(event, Note):
        return f'event note {event.channel} {event.key} {event.velocity} {event.length} {int(event.mono)}'
    if isinstance(event, Control):
        return f'event control {event.channel} {event.controller} {event.level}'
    if isinstance(event, Bend):
        return f'event bend {event.channel} {event.low} {event.high}'
    if isinstance(event, Datagram):
        return f'event udp {hex_of(event.text)}'
    return f'event osc {hex_of(bytes([event.path]))} {hex_of(bytes(event.values))}'
