# shellcheck shell=bash
# For .ci/peers, which sources this: what ./perform refuses.

# refuses LINE WORD..: ./perform with these words says this line, and ends with 125
refuses() {
    local line="perform: $1"
    shift
    got=0
    ${as_nobody:-} "$top/perform" "$@" </dev/null >text 2>fault || got=$?
    [ "$got" = 125 ] && [ "$(cat fault)" = "$line" ] || fails "./perform $* ends with $got and says: $(cat fault)"
}

# ends_with STATUS LINE WORD..: ./perform with these words, in a terminal, ends with this status, and one of its lines is this
ends_with() {
    local status=$1 line="perform: $2"
    shift 2
    stage=$folder on_stage "$@"
    await_stage "$status"
    tr -d '\r' <seen | grep -aqF -- "$line" || fails "./perform $* ends with $status and says: $(tail -c 500 seen)"
}

# What the words alone forbid, also two names of one file.
try_refused_words() {
    local usage='usage: perform [--lead] PIECE [options], perform --recover PIECE [--number N] [--save NAME],' task
    usage+=' perform --discard PIECE [--number N], perform --join HOST:PORT, or perform --ports'
    refuses "$usage"
    refuses "$usage" song other
    refuses "nobody is waited for at 127.0.0.1:1, or all have joined: the first player types $top/perform PIECE --hands 2" --join 127.0.0.1:1
    refuses "nobody is waited for at [::1]:1, or all have joined: the first player types $top/perform PIECE --hands 2" --join '[::1]:1'
    refuses "--join here: an address is HOST:PORT, as in 127.0.0.1:9000" --join here
    refuses "--join 127.0.0.1:99999: an address is HOST:PORT, as in 127.0.0.1:9000" --join 127.0.0.1:99999
    refuses "--join has no option --bpm" --join 127.0.0.1:1 --bpm 3
    refuses "--ports has no option --bpm" --ports --bpm 3
    refuses "--discard has no option --save" --discard song --save x
    for task in recover discard; do refuses "--$task has no option --midi" --$task song --midi take; done
    refuses "--hands: nobody edits a piece that leads or follows" --lead song --hands 2
    refuses "--at: nobody edits a piece that leads or follows" --follow clock song --at here
    refuses "the option --bpm is given twice" song --bpm 9 --bpm=9
    refuses "--hands 9: a number from 1 to 8 is wanted" song --hands 9
    refuses "--number 0: a number from 1 to 4294967295 is wanted" --recover song --number 0
    refuses "--journal: a performance keeps what is typed by itself, in a room" song --journal take
    refuses "--midi: its value is missing" song --midi=
    refuses "--script and the piece both name ./song" song --script ./song
    refuses "--save and --script both name ../refused/new" song --script new --save ../refused/new
    refuses "--save and the room both name .song.orca-room" song --save .song.orca-room
    refuses "--script and the piece both name ./new" new --script ./new
    refuses $'a?[31m: there is nothing to recover' --recover $'a\e[31m'
    (ulimit -S -n 12 && refuses "only 12 files are allowed at once: at least 16 are wanted (ulimit)" song)
}

# What nobody can mean is refused before the terminal is taken, and what the program refuses is told after it.
try_refusals() {
    local folder name
    rm -rf refused
    mkdir refused
    cd refused
    folder=$PWD
    cp "$top/pieces/first.orca" song
    mkdir folder
    printf x >full
    printf 'x\x01' >full2
    refuses "--midi song: this file has something in it, and would be emptied" song --midi song
    refuses "--midi full: this file has something in it, and would be emptied" song --midi=full
    refuses "--midi a b: there is no such name; perform --ports shows devices, mkfifo makes a pipe, and touch a file" \
        song --midi 'a b'
    mkfifo fifo
    refuses "fifo: this is no file, and a piece is one" fifo
    refuses "folder: this is no file, and a piece is one" folder
    refuses "--save: its value is missing" song --save
    try_refused_words
    cd ..
    has "what the program refuses" script stty || return 0
    ends_with 1 "song: --bpm 0: a number from 1 to 999 is wanted" song --bpm 0
    ends_with 1 "song: lead: there is no option --rows" --lead song --rows 3
    ends_with 4 "no/song: --save no/song: there is no folder $folder/no" no/song
    ends_with 4 "no: GRID no: there is no such file" --lead no
    ends_with 2 "full2: grid refused: bad byte at 1" full2
    [ -z "$(find refused -name '*.orca-room')" ] || fails "what is refused leaves a room"
    cd refused
    try_forbidden
    cd ..
    echo "peers: ./perform refuses what nobody can mean, and tells what the program refuses"
}

# What the rights of files forbid. The administrator may do all, so then somebody else tries.
try_forbidden() {
    local as_nobody=
    mkdir locked
    chmod 555 locked
    if [ "$(id -u)" = 0 ]; then
        as_nobody='setpriv --reuid=65534 --regid=65534 --clear-groups'
        chmod 711 "$work"
        if ! $as_nobody test -x "$top/perform" 2>/dev/null; then
            echo "peers: what rights forbid skipped, since nobody else may read $top"
            return
        fi
    fi
    chmod 666 song
    chmod 777 .
    try_locked_folder
}

# The program itself, in a folder that takes no new file: a save fails, and an old file stays, though it may be written.
try_locked_folder() {
    local name as_somebody=$as_nobody
    chmod 755 locked
    echo old >locked/old
    chmod 666 locked/old
    chmod 555 locked
    for name in old new; do
        join song --bpm 1 --save locked/$name
        leave
        [ "$got" = 4 ] && [ "$(ls -A locked)" = old ] && [ "$(cat locked/old)" = old ] ||
            fails "a save in a folder that takes no file ends with $got, and leaves: $(ls -A locked)"
    done
    chmod 755 locked
}
