"""The rules of orca once more, in Python: a second definition, to compare the program with.

It was written from the rules and not from the program, and is slow and plain. `cases.answer_of` does a case as the
program's case runner does it. From bottom to top:

    glyphs, chance         what glyphs count as; the random words
    grids                  grids, and their text
    operators, scan        what each operator does; a frame of the grid
    messages, notes        what is sent, as bytes and in words; notes that sound
    edits, session         entries of a history; commands, undo, redo and their like
    bills                  what a command may cost at most
    script                 the lines of a script, in both formats
    keys, editor           the keys that bytes are; what a key makes of cursor and selection, and asks for
    picture                what a player sees, and the bytes that paint it
    hands                  whose each entry is, and what a hand may not ask for
    pacing                 when a frame is due; MIDI clocks that are heard or given
    songs, waves           Standard MIDI Files, and sound files
    words, outside         the words of the command line; files, ports and inbox in memory
    runs                   what all words share
    batch, performance, sync
                           what each word does
    program                a run from its words to its status
    cases                  cases as text, and their answers
    draw_texts, draw_keys, draw
                           new cases by chance

It leaves out rooms and `recover`, the end of memory, runs that never end, and what the real outside does: files,
sockets, terminals.
"""
