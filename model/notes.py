"""Notes that sound. They stand in the order in which they began: by channel and key the tick at which each ends."""
from .messages import Note, Off, On


def ends_of(notes):
    return [Off(channel, key) for channel, key in notes]


def cut_off(notes, event):
    """The notes that a note ends: the one of its channel and key, and if it is of `%` all of its channel."""
    if event.mono:
        return [voice for voice in notes if voice[0] == event.channel]
    return [(event.channel, event.key)] if (event.channel, event.key) in notes else []


def sound(notes, tick, events):
    """The notes after the events of a frame, and its messages. First the notes end that are due; then each event is
    done. Those that are no notes are sent as they are."""
    notes, messages = dict(notes), []

    def end(voices):
        messages.extend(ends_of(voices))
        for voice in voices:
            del notes[voice]

    end([voice for voice, due in notes.items() if due <= tick])
    for event in events:
        if not isinstance(event, Note):
            messages.append(event)
            continue
        end(cut_off(notes, event))
        notes[event.channel, event.key] = tick + event.length
        messages.append(On(event.channel, event.key, event.velocity))
    return notes, messages
