"""The outside in memory: files, ports and the inbox, whose calls fail where a case says so."""

MOST_FILE_BYTES = 16_777_216
PORTS = ('midi', 'udp', 'osc', 'text', 'fault', 'view')


class Failed(Exception):
    """A call of the outside that failed."""


class Calls:
    """Counts calls, and knows which of them are to fail."""

    def __init__(self, fail):
        self.fail, self.count, self.failures = set(fail), 0, 0

    def call(self):
        self.count += 1
        if self.count in self.fail:
            self.fails()

    def fails(self):
        self.failures += 1
        raise Failed


class Files:
    def __init__(self, held, fail=()):
        self.held, self.calls = dict(held), Calls(fail)
        self.spoilt = set()         # nothing is added to a file after a save or an append of it that failed
        self.done = []              # what was asked for, call by call: what is done, and of which file

    def load(self, name):
        self.done.append(('load', name))
        self.calls.call()
        data = self.held.get(name)
        if data is None or len(data) > MOST_FILE_BYTES:
            self.calls.fails()
        return data

    def save(self, name, data):
        self.done.append(('save', name))
        self.spoilt.add(name)
        self.calls.call()
        self.spoilt.discard(name)
        self.held[name] = data

    def append(self, name, data):
        self.done.append(('append', name))
        spoilt = name in self.spoilt
        self.spoilt.add(name)
        self.calls.call()
        if spoilt:
            self.calls.fails()
        self.spoilt.discard(name)
        self.held[name] = self.held.get(name, b'') + data


class Outside:
    """Files, ports and the inbox. `fail` has the numbers of the calls that are to fail, by `files`, `inbox` or the
    port. `sent` has what went out, in order, as the lines of an answer: ('send', port, bytes) and ('told', hand,
    bytes)."""

    def __init__(self, files=(), fail=None, start=0, arrivals=()):
        fail = fail or {}
        self.files = Files(files, fail.get('files', ()))
        self.ports = {port: Calls(fail.get(port, ())) for port in PORTS}
        self.inbox = Calls(fail.get('inbox', ()))
        self.start, self.arrivals, self.sent = start, list(arrivals), []

    def attach(self, port):
        """A port is opened, and drops its bytes if it can't be."""
        self.ports[port].call()

    def send(self, port, data):
        self.sent.append(('send', port, data))
        self.ports[port].call()

    def tell(self, hand, data):
        """A picture for a hand, by the way that its keys come. It can't fail."""
        self.sent.append(('told', hand, data))

    def output_failures(self):
        return sum(calls.failures for calls in self.ports.values())

    def listen(self):
        """The moment at which hands, and perhaps a clock, are waited for."""
        self.inbox.call()
        return self.start

    def poll(self, until):
        """What comes next: ('bytes', hand, moment, bytes), ('due', moment) once the moment has come that is waited
        for, or ('end',). A due moment that nobody waits for comes to nobody."""
        self.inbox.call()
        return self.next_arrival(until)

    def next_arrival(self, until):
        while self.arrivals:
            arrival = self.arrivals.pop(0)
            if arrival[0] == 'bytes' or until is not None and arrival[1] >= until:
                return arrival
        return ('end',)
