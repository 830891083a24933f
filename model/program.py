"""The program: what its words ask for is done, and it ends by a status."""
from . import batch, performance, sync, words
from .runs import DONE, FILE_FAULT, OUTPUT_FAULT, Ended, Run, Status

WORKS = {'run': batch.play_grid, 'events': batch.list_events, 'replay': batch.replay, 'make': batch.make,
         'migrate': batch.migrate, 'smf': batch.save_song, 'wav': batch.save_wave, 'take': batch.save_take,
         'play': performance.play, 'jam': performance.jam, 'follow': sync.follow, 'lead': sync.lead}


class Unanswered(Exception):
    """A run that this model does not have."""


def status_of(arguments, outside):
    """Does a run, and gives the number of its status. That a save or an output failed is told where all else was
    done."""
    run = Run(outside, {})
    try:
        word, run.values = words.read_words(arguments)
        if word not in WORKS or run.values.get('room') is not None:
            raise Unanswered
        status = WORKS[word](run)
    except words.Faulty:
        status = Status(1, words.USAGE)
    except Ended as ended:
        status = ended.status
    if status == DONE and run.save_failed:
        status = FILE_FAULT
    if status == DONE and outside.output_failures():
        status = OUTPUT_FAULT
    if status != DONE:
        run.fault(status.line)
    return status.number
