#!/usr/bin/env python3
"""Refuses each allocation of whole runs in turn: .ci/memory.py [PROGRAM]

The runs are stored ones, over files and ports in memory. What is handed out has to be what a refusal allows. That is
worked out below from the stored sends of the run without a refusal:

- A send was refused: a beginning of the sends, and the line `no memory`.
- Anything else was refused once the session was open: a beginning that ends with a whole command, then the end of each
  note that sounds, then the line.
- Anything was refused before: the line alone.

A file is saved only after all sends. No answer at all means that orca_cases was refused memory for itself, as it read
the run or wrote the answer. Every beginning is seen, since each send is refused too. No run stops inside a command, or
without the ends of its notes, more often than the next send allocates.

PROGRAM is crates/orca_cases/out/orca_cases if it is not given; the gate builds it, and so does `rt run` in that crate.
It takes ten seconds and needs a C compiler: memory is refused by a malloc of its own, which is loaded before that of the
system.

    .ci/memory.py --try N..

does the same runs by `rt try --fail-alloc N`, which refuses the Nth allocation in a program of its own, unproved and
with checks of memory. It builds that program anew for each N, which takes two minutes.
"""
import os
import re
import shutil
import subprocess
import sys
import tempfile

HERE = os.path.dirname(os.path.abspath(__file__))
sys.path.insert(0, os.path.join(HERE, '../scripts'))
sys.dont_write_bytecode = True
import cases

CRATE = os.path.join(HERE, '../crates/orca_cases')
LINE = 'send fault ' + b'no memory\n'.hex()
# A send over ports in memory copies the bytes, and may lengthen its list.
MOST_OF_A_SEND = 2

RUNS = [
    'a_dot_of_no_frames',
    'copy_and_paste_at_the_edge',
    'arrow_after_an_escape_of_its_own',
    'piece_of_a_drum_and_a_scale',
    'piece_as_a_run',
    'piece_edited_while_it_plays',
    'run_without_a_fault',
    'events_without_a_fault',
    'replay_without_a_fault',
    'make_without_a_fault',
    'play_without_a_fault',
    'copy_and_paste_by_their_keys_while_a_note_sounds',
    'paste_a_text_is_one_edit',
    'migrate_without_a_fault',
    'smf_without_a_fault',
    'wav_without_a_fault',
    'hands_an_edit_of_another_is_not_taken_back',
]
# How many messages each command of a run gives, where the commands have nothing printed between them.
MESSAGES = {
    'piece_as_a_run': [3, 2, 2, 1, 4, 1, 3, 1],
    'piece_edited_while_it_plays': [3, 2, 2, 1, 4, 1, 4, 2, 1],
}

# Refuses the allocation of the number in REFUSE, counted from 1, and says so on the standard error.
MALLOC = r"""
#define _GNU_SOURCE
#include <dlfcn.h>
#include <stdlib.h>
#include <unistd.h>

static long seen;

static int is_refused(void) {
    return ++seen == atol(getenv("REFUSE")) && write(2, "refused\n", 8);
}

void *malloc(size_t size) {
    void *(*next)(size_t) = dlsym(RTLD_NEXT, "malloc");
    return is_refused() ? NULL : next(size);
}

void *realloc(void *old, size_t size) {
    void *(*next)(void *, size_t) = dlsym(RTLD_NEXT, "realloc");
    return is_refused() ? NULL : next(old, size);
}
"""


def expect(holds, *what):
    """Ends all, with these words, if this does not hold."""
    if not holds:
        sys.exit(' '.join(str(it) for it in ('memory:', *what)))


def stored():
    """The stored runs by their names."""
    found = {}
    for family in cases.families():
        for name, case in cases.cases_of(cases.read(cases.path_of(family))).items():
            if name in RUNS:
                found[name] = Run(name, [*cases.in_hex(case.asked), 'end'], [*cases.in_hex(case.answer)])
    return {name: found[name] for name in RUNS}


class Run:
    """A stored run: what it does without a refusal, and what was seen of it with one."""

    def __init__(self, name, case, answer):
        self.name, self.text = name, '\n'.join(['case ' + name] + case + [''])
        self.sends = [line for line in answer if line.startswith('send ')]
        self.files = [line for line in answer if line.startswith('file ')]
        held = dict(line.split(' ')[1:] for line in case if line.startswith('file '))
        self.unsaved = [f"file {it[5:]} {held.get(it[5:], 'none')}" for it in case if it.startswith('want ')]
        self.whole = self.sends + self.files + ['status 0']
        self.closed = [self.sends[:n] + self.ends_of_notes(n) for n in self.ends_of_commands()]
        self.seen = {'no answer': 0, 'unhurt': 0, 'closed': 0, 'stopped': 0}
        self.reached = {n: 0 for n in range(len(self.sends))}

    def ends_of_commands(self):
        """After how many sends a command has ended: not between two messages, unless two commands gave them."""
        if self.name in MESSAGES:
            sizes = MESSAGES[self.name]
            return [sum(sizes[:n]) for n in range(len(sizes) + 1)] + list(range(sum(sizes) + 1, len(self.sends) + 1))
        message = [line.split(' ')[1] in ('midi', 'udp', 'osc') for line in self.sends]
        inside = [n for n in range(1, len(message)) if message[n - 1] and message[n]]
        return [n for n in range(len(message) + 1) if n not in inside]

    def ends_of_notes(self, count):
        """The ends of the notes that sound after so many sends, in the order in which they started."""
        notes = []
        for line in self.sends[:count]:
            port, data = line.split(' ')[1:]
            if port == 'midi' and data[0] in '89':
                key = data[1:4]
                notes = [note for note in notes if note != key] + [key] * (data[0] == '9')
        return [f'send midi 8{note}00' for note in notes]

    def look(self, answer):
        """Takes an answer, which ends all if no refusal of one allocation leads to it."""
        if answer is None:
            self.seen['no answer'] += 1
            return
        if answer == self.whole:
            self.seen['unhurt'] += 1
            return
        sends = [line for line in answer if line.startswith('send ')]
        files = [line for line in answer if line.startswith('file ')]
        expect(answer[-1] == 'status 9' and sends[-1] == LINE, self.name, answer)
        handed = sends[:-1]
        saves = [n for n in range(len(files)) if files[n] != self.unsaved[n]]
        expect(files == self.files[:len(saves)] + self.unsaved[len(saves):], self.name, files)
        expect(not saves or handed == self.sends, self.name, answer)
        closed, begun = handed in self.closed, handed == self.sends[:len(handed)]
        expect(closed or begun, self.name, answer)
        self.seen['closed' if closed else 'stopped'] += 1
        if begun and handed != self.sends:
            self.reached[len(handed)] += 1
            expect(closed or self.reached[len(handed)] <= MOST_OF_A_SEND, self.name, answer)

    def conclude(self):
        """Says what was seen. Each send was refused: then those before it stand, and no more."""
        expect(all(self.reached.values()), self.name, self.reached)
        seen = self.seen
        print(f"{self.name}: {sum(seen.values())} refused; {seen['closed']} closed it, {seen['stopped']} stopped it at a send, "
              f"{seen['unhurt']} left it whole, {seen['no answer']} were of orca_cases itself")


def sweep(program, runs, folder):
    """Refuses each allocation of each run of the built program."""
    compiler = shutil.which('cc') or shutil.which('clang')
    if not compiler:
        print('memory: skipped, since there is no C compiler')
        sys.exit(0)
    with open(folder + '/malloc.c', 'w') as file:
        file.write(MALLOC)
    library = folder + '/malloc.so'
    subprocess.run([compiler, '-shared', '-fPIC', '-O1', '-o', library, folder + '/malloc.c', '-ldl'], check=True)
    for run in runs.values():
        number, refused = 0, True
        while refused:
            number += 1
            done = subprocess.run([program], input=run.text, capture_output=True, text=True,
                                  env={'LD_PRELOAD': library, 'REFUSE': str(number)})
            expect(done.returncode in (0, 1), run.name, number, done.returncode)
            refused = done.stderr.startswith('refused')
            if refused:
                run.look(done.stdout.splitlines()[1:] if done.returncode == 0 else None)
        run.conclude()


def try_once(number, runs, folder):
    """Refuses one allocation of each run of a program that `rt try` builds."""
    for run in runs.values():
        with open(f'{folder}/{run.name}', 'w') as file:
            file.write(run.text)
    words = ['rt', 'try', '--steps', '1', '--fail-alloc', number, '--cases', folder]
    tried = subprocess.run(words, cwd=CRATE, stdout=subprocess.PIPE, stderr=subprocess.STDOUT, text=True)
    said = re.findall(r'== (\w+)\n(.*?)case=\1 run=ended status=([01]) ', tried.stdout, re.S)
    expect({name for name, _, _ in said} == set(runs), tried.stdout)
    for name, text, status in said:
        answer = [line for line in text.splitlines() if re.match('(send|file|status) ', line)]
        runs[name].look(answer if status == '0' else None)


def main():
    runs = stored()
    with tempfile.TemporaryDirectory() as folder:
        if sys.argv[1:2] == ['--try']:
            if not shutil.which('rt'):
                sys.exit("memory.py: the toolchain's command rt isn't on the path")
            for number in sys.argv[2:]:
                try_once(number, runs, folder)
            print('all is as it may be')
        else:
            program = sys.argv[1] if len(sys.argv) > 1 else os.path.join(CRATE, 'out/orca_cases')
            if not os.access(program, os.X_OK):
                sys.exit(f"memory.py: {program} isn't built")
            sweep(program, runs, folder)


if __name__ == '__main__':
    main()
