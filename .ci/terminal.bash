# shellcheck shell=bash
# For .ci/peers, which sources this: ./perform in a terminal. It stands still or is closed, a disk is full, the script is
# killed, and the lines of the pages are typed.

# await_text FILE TEXT: the text comes to stand in the file
await_text() {
    within 60 grep -aqF -- "$2" "$1" || fails "there is no '$2' in $1: $(tail -c 200 "$1" 2>/dev/null)"
}

# seen_since BYTES PATTERN: the file seen has this after so many bytes
seen_since() {
    tail -c "+$1" seen | grep -aqE -- "$2"
}

# type_glyph GLYPH: types it, and waits until the picture shows it at the cursor. Then all keys before it were taken.
type_glyph() {
    printf %s "$1" >&"$typed"
    await_text seen "$(cursor_on "$1")"
}

# lines_of PAGE SECTION NUMBER: the lines of this block of a page's section, which is the first without a language, or the
# second, and so on
lines_of() {
    awk -v section="## $2" -v number="$3" '
        /^## / { is_here = $0 == section }
        is_here && /^```/ { is_inside = !is_inside; count += is_inside; next }
        is_here && is_inside && count == number' "$top/$1"
}

# quoted WORD..: as a shell reads them
quoted() {
    printf '%q ' "$@"
}

# on_stage WORD..: ./perform with these words, in a terminal, after the command $prelude and in the folder $stage. Then
# $typed is its keyboard, and what it shows and says stands in the file seen of the folder where this is.
on_stage() {
    rm -f seen status ended keyboard terminal_before terminal_after
    printf '%s\n' "${prelude:-:}" 'set -m; stty -g >terminal_before' "cd ${stage:-.}" \
        "sh -c 'echo \$\$ >$PWD/pid; exec \"\$@\"' sh $(quoted "$top/perform" "$@")" "echo \$? >$PWD/status" \
        "date +%s%3N >$PWD/ended" 'sleep 1' "stty -g >$PWD/terminal_after" >session
    mkfifo keyboard
    timeout 300 script -qfec 'bash session' seen <keyboard >/dev/null &
    peer=$!
    exec {typed}>keyboard
}

# end_stage STATUS: the key Quit ends ./perform within two seconds, with this status, and the terminal is as it was
end_stage() {
    local begin
    begin=$(now)
    printf '\x11' >&"$typed"
    await_stage "$1"
    [ $(($(cat ended) - begin)) -le 2000 ] || fails "./perform ends $(($(cat ended) - begin)) milliseconds after the key Quit"
}

# await_stage STATUS: ./perform ends with this status, or one of this pattern, and leaves the terminal as it was
await_stage() {
    local mode
    wait "$peer" || true
    peer=
    exec {typed}>&-
    # shellcheck disable=SC2053
    [[ $(cat status) == $1 ]] || fails "./perform ends with $(cat status): $(tail -c 300 seen)"
    cmp terminal_before terminal_after || fails "./perform leaves the terminal in another state"
    [ "$(grep -ao $'\e\[?25[hl]' seen | tail -n 1)" != $'\e[?25l' ] || fails "./perform leaves the cursor hidden"
    [[ $(grep -aoE $'\e\\[([0-9]+;1H|\\?1049l)' seen | tail -n 1) != *H ]] || fails "./perform paints after its end"
    for mode in 1002 1006 2004; do
        [[ $(grep -ao $'\e\[?'"${mode}[hl]" seen | tail -n 1) != *h ]] || fails "./perform leaves the mode $mode to the terminal"
    done
}

# keeper_of SCRIPT: the keeper of this ./perform, which it began last
keeper_of() { pgrep -nP "$1"; }

# program_of SCRIPT: the program of this ./perform, which its keeper waits for
program_of() {
    pgrep -P "$(pgrep -d , -P "$(keeper_of "$1")")" -f "^$(readlink -f "$built") "
}

# has_room NAME: a performance of this piece of the folder has left a room
has_room() { [ -e "./.$1.orca-room" ]; }

# say_by_perform STATUS LINE WORD..: ./perform with these words says this as its first line, and ends with this status
say_by_perform() {
    local status=$1 line="perform: $2" got=0
    shift 2
    "$top/perform" "$@" </dev/null >text 2>fault || got=$?
    [ "$got" = "$status" ] && [ "$(head -n 1 fault)" = "$line" ] || fails "./perform $* ends with $got and says: $(cat fault)"
}

# A terminal stands still for 5 seconds. The piece plays on, and the terminal shows it again. The MIDI bytes tell how
# far the piece is: a frame has 24.
try_frozen_terminal() {
    local before held after
    rm -f saved script midi
    touch midi
    { crowd 1 && clocks 10; } >crowded
    on_stage crowded --bpm 999 --rows 24 --cols 80 --midi midi --save saved --script script
    await_text seen ' play '
    kill -STOP "$(pgrep -P "$peer" script)"
    before=$(stat -c %s midi)
    sleep 5
    held=$(stat -c %s midi)
    kill -CONT "$(pgrep -P "$peer" script)"
    within 60 has_played seen $((held / 24)) || fails "a terminal that came back shows the tick $(tick_in seen)"
    after=$(stat -c %s midi)
    sleep 2
    # In the five seconds it has played more than in two.
    held=$((held - before)) after=$(($(stat -c %s midi) - after))
    [ "$held" -gt "$after" ] || fails "the piece stood still with its terminal: $held bytes in 5 seconds, and $after in 2"
    type_glyph 7
    end_stage 3
    [ "$(head -c 1 saved)" = 7 ] || fails "a terminal that came back types no key"
    await_text seen 'perform: crowded: a port failed, or the terminal did not take the whole picture'
    echo "peers: a terminal stands still for 5 seconds, and the piece plays on to its frame $(frames_of script)"
}

# The grid is to be saved to a pipe that nobody reads, and refused commands stand in the script. At the end all of it is
# kept, and nobody is waited for.
try_unread_save() {
    rm -f fifo
    mkfifo fifo
    crowd 1 >crowded
    on_stage crowded --bpm 1 --limit 3 --save fifo
    await_text seen ' play '
    printf '\x16' >&"$typed"
    await_text seen EmptyClip
    type_glyph 7
    end_stage 4
    await_text seen 'perform: crowded: a file could not be read or written'
    await_text seen "perform: edits of crowded may not be saved; what could be kept is in $PWD/.crowded.orca-room"
    "$top/perform" --recover crowded || fails "--recover ends with $?"
    sed '1s/./7/' crowded | cmp - crowded.recovered.orca || fails "a pipe that nobody reads loses the grid"
    ! has_room crowded || fails "what was recovered stays"
    rm crowded.recovered.*
    echo "peers: a grid that is to go to a pipe that nobody reads is kept"
}

# A reader goes, another one comes, and goes for good. At the end ./perform says that a port may have failed. The script goes to the file that a link
# leads to, which keeps its rights.
try_told() {
    local begin
    rm -f synth saved script take
    mkfifo synth
    crowd 1 >crowded
    touch take
    chmod 640 take
    ln -s take script
    on_stage crowded --bpm 999 --midi synth --save saved --script script
    timeout 300 cat synth >/dev/null &
    await_text seen ' play '
    kill $!
    type_glyph 7
    await_text seen 'no midi'
    plays_on seen 10 "a synthesizer has gone"
    begin=$(stat -c %s seen)
    timeout 300 cat synth >/dev/null &
    within 60 seen_since "$begin" 'play 999 [.*] ok' || fails "a synthesizer that has come back is told as lost"
    kill $!
    end_stage 3
    await_text seen 'perform: crowded: a port failed, or the terminal did not take the whole picture'
    [ "$(head -c 1 saved)" = 7 ] && grep -q '^write 0 0 7$' script || fails "what a reader that goes leaves is not saved"
    [ -L script ] && [ "$(stat -c '%a' take saved | tr '\n' ' ')" = '640 644 ' ] || fails "what is saved has other rights"
    "$built" replay crowded script | sed '/ /d' | cmp - saved || fails "the take is not played again"
    ! has_room crowded || fails "a port that failed leaves a room"
    rm script
    echo "peers: ./perform says that a port failed, and all is saved"
}

# notes_end FILE: as many notes are ended in it as are started, and all messages are whole
notes_end() {
    is_whole "$1" && [ "$(od -An -v -t x1 -w3 "$1" | grep -c '^ 9')" = "$(od -An -v -t x1 -w3 "$1" | grep -c '^ 8')" ]
}

# on_signal SIGNAL TARGET STATE: this signal meets the script, the program, the keeper or all of them, while the piece plays
# or is paused. The notes end, and what was typed is saved.
on_signal() {
    local script status=$((128 + $(kill -l "$1")))
    rm -f saved script midi
    touch midi
    on_stage crowded --bpm 999 --midi midi --save saved --script script
    await_text seen ' play '
    type_glyph 7
    [ "$3" = play ] || { printf ' ' >&"$typed" && await_text seen ' pause '; }
    script=$(cat pid)
    case $2 in
        script) kill "-$1" "$script" ;;
        program) kill "-$1" "$(program_of "$script")" ;;
        keeper) kill "-$1" "$(keeper_of "$script")" ;;
        group) kill "-$1" -- "-$script" ;;
        window)
            {
                pkill -KILL -P "$peer" script
                wait "$peer" || true
            } 2>/dev/null
            ;;
    esac
    # These ignore what asks them to end, and the key Quit ends them.
    case $2 in
        window) peer= && exec {typed}>&- ;;
        program | keeper) end_stage 0 ;;
        *) await_stage "$status" ;;
    esac
    within 60 test -e script || fails "a performance that meets $1 ($2, $3) saves no script"
    [ "$(head -c 1 saved)" = 7 ] && grep -q '^write 0 0 7$' script || fails "a performance that meets $1 ($2, $3) loses what was typed"
    notes_end midi || fails "a performance that meets $1 ($2, $3) leaves notes on"
    within 60 eval '! has_room crowded' || fails "a performance that meets $1 ($2, $3) leaves a room"
}

# Whatever asks the parts of a performance to end: its notes end, and what was typed is saved.
try_signals() {
    local signal target state
    crowd 1 >crowded
    for state in play pause; do
        for signal in TERM INT HUP QUIT; do
            for target in script program keeper group; do
                on_signal "$signal" "$target" "$state"
            done
        done
        on_signal KILL script "$state"
        on_signal KILL window "$state"
    done
    echo "peers: no signal to ./perform or a part of it leaves a note on, or loses what was typed"
}

# are_off FILE: each note that was started there has ended since then, by its own end or by All Notes Off
are_off() {
    od -An -v -t x1 -w3 "$1" | awk '
        { channel = substr($1, 2, 1) }
        /^ 9/ { sounds[channel, $2] = channel }
        /^ 8/ { delete sounds[channel, $2] }
        /^ b. 7b/ { for (note in sounds) if (sounds[note] == channel) delete sounds[note] }
        END { for (note in sounds) exit 1 }'
}

# has_synth: a pipe `synth`, which is held open, and whose reader writes the file midi
has_synth() {
    rm -f synth midi
    mkfifo synth
    exec {held}<>synth
    cat synth >midi {held}>&- &
    reader=$!
}

# ends_synth: the pipe has no writer any more, so its reader has all
ends_synth() {
    exec {held}>&-
    wait "$reader" || true
}

# on_kill TARGET STATE: the program, the keeper, or all processes are killed, or the program crashes, while the piece plays or
# is paused. The notes end, with --recover at the latest, and that gives what was typed.
on_kill() {
    local script held reader
    rm -f crowded.recovered.*
    has_synth
    on_stage crowded --bpm 999 --midi synth
    await_text seen ' play '
    type_glyph 7
    [ "$2" = play ] || { printf ' ' >&"$typed" && await_text seen ' pause '; }
    script=$(cat pid)
    case $1 in
        program) kill -KILL "$(program_of "$script")" ;;
        crash) kill -USR1 "$(program_of "$script")" ;;
        keeper) kill -KILL "$(keeper_of "$script")" ;;
        group) kill -KILL -- "-$script" ;;
    esac
    wait "$peer" || true
    peer=
    exec {typed}>&-
    [ "$1" = group ] || await_text seen 'perform: edits of crowded may not be saved; they are in '
    within 60 recovers || fails "a performance whose $1 was killed ($2) is not recovered: $(cat fault)"
    grep -q '^write 0 0 7$' crowded.recovered.script && "$built" replay crowded crowded.recovered.script |
        sed '/ /d' | cmp - crowded.recovered.orca || fails "a performance whose $1 was killed ($2) loses what was typed"
    ends_synth
    are_off midi || fails "a performance whose $1 was killed ($2) leaves notes on"
    ! has_room crowded || fails "a performance whose $1 was killed ($2) leaves a room"
}

# What was played is recovered, as soon as no process of it lives.
recovers() {
    "$top/perform" --recover crowded 2>fault
}

discards() {
    "$top/perform" --discard crowded 2>fault
}

# leave_notes_on [GLYPH]: all of a performance is killed while it plays, after this was typed
leave_notes_on() {
    has_synth
    on_stage crowded --bpm 999 --midi synth
    await_text seen ' play '
    [ $# = 0 ] || type_glyph "$1"
    within 60 has_bytes midi 100
    kill -KILL -- "-$(cat pid)"
    wait "$peer" || true
    peer=
    exec {typed}>&-
}

# Whatever is killed of a performance, what was typed stays.
try_kills() {
    local target state held reader
    crowd 1 >crowded
    for state in play pause; do
        for target in program crash keeper group; do
            on_kill "$target" "$state"
        done
    done
    rm crowded.recovered.*
    leave_notes_on 7
    within 60 discards || fails "a performance that was killed is not discarded: $(cat fault)"
    grep -qE '^perform: the edits of crowded of [-0-9]{10} at [0-9:]{5} are dropped$' fault || fails "--discard says: $(cat fault)"
    ends_synth
    are_off midi || fails "a performance that is discarded leaves notes on"
    echo "peers: whatever is killed of ./perform, what was typed is recovered"
}

# try_dead_keeper: a signal that nothing handles ends the keeper. The terminal is as it was, and the room is told.
try_dead_keeper() {
    local signal
    crowd 1 >crowded
    for signal in SEGV USR1 ALRM KILL; do
        on_stage crowded --bpm 1
        await_text seen ' play '
        type_glyph 7
        kill "-$signal" "$(keeper_of "$(cat pid)")"
        await_stage "$((128 + $(kill -l "$signal")))"
        await_text seen "perform: edits of crowded may not be saved; they are in $PWD/.crowded.orca-room"
        "$top/perform" --discard crowded 2>fault || fails "a performance whose keeper met $signal leaves: $(cat fault)"
    done
    echo "peers: whatever ends the keeper, the terminal is as it was"
}

# The program of a piece that leads is killed: its notes end, and so does the clock that it gave.
try_dead_leader() {
    local held reader
    printf 'D....\n.:03Cfz\n' >long
    has_synth
    on_stage long --lead --bpm 999 --midi synth
    within 60 has_bytes midi 100 || fails "the port gets too little"
    kill -KILL "$(program_of "$(cat pid)")"
    await_stage 137
    ends_synth
    { for part in {0..15}; do printf "\\xb$(printf %x "$part")\x7b\x00"; done && printf '\xfc'; } |
        cmp - <(tail -c 49 midi) || fails "the notes and the clock of a leader that was killed go on"
    echo "peers: the notes and the clock of a leader that is killed end"
}

# Where a file has no lock or no second name, the room is elsewhere, and what is typed is kept; where it can't be kept, that is
# said. Of the tools that try it, one here fails in the folder `stick`; or else the system refuses the calls.
try_no_links() {
    local call room
    rm -rf stick tools temporary && mkdir stick tools temporary
    crowd 1 >stick/piece
    printf '%s\n' '#!/bin/sh' 'case "$*" in *stick/.*) echo "ln: failed: Operation not permitted" >&2; exit 1 ;; esac' \
        "exec $(command -v ln) \"\$@\"" >tools/ln
    chmod +x tools/ln
    PATH=$PWD/tools:$PATH TMPDIR=$PWD/temporary play_and_leave stick/piece --bpm 1
    room=$(ls -A "temporary/orca-rooms-$UID")
    [[ $room == .piece.*.orca-room ]] && [ -z "$(find stick -name '*.orca-room*')" ] || fails "the room is not elsewhere: $room"
    TMPDIR=$PWD/temporary "$top/perform" --recover stick/piece 2>fault || fails "a room elsewhere is not recovered: $(cat fault)"
    sed '1s/./7/' stick/piece | cmp - stick/piece.recovered.orca || fails "a room elsewhere gives another grid"
    has "files without links and locks" strace || return 0
    for call in link,linkat:error=EPERM flock:error=ENOLCK; do
        got=0
        TMPDIR=$PWD/temporary strace -f -o trace -e "trace=${call%%:*}" -e "inject=$call" "$top/perform" stick/piece \
            </dev/null >text 2>fault || got=$?
        [ "$got" = 125 ] && grep -q "^perform: what is typed can't be kept in $PWD/temporary/orca-rooms-$UID: " fault ||
            fails "without ${call%%:*} ./perform ends with $got and says: $(cat fault)"
    done
    echo "peers: where files have no links or locks, the room is elsewhere, or that is said"
}

# A piece whose name is as long as a name may be is played, and its room is elsewhere.
try_long_name() {
    local name
    name=$(printf 'n%.0s' {1..250})
    rm -rf temporary && mkdir temporary
    crowd 1 >"$name"
    TMPDIR=$PWD/temporary play_and_leave "$name" --bpm 1
    TMPDIR=$PWD/temporary "$top/perform" --recover --save found "$name" 2>fault || fails "a long name is not recovered: $(cat fault)"
    sed '1s/./7/' "$name" | cmp - found || fails "a long name gives another grid"
    rm "$name" "$name~" found found.script
    echo "peers: a piece with the longest name is played, and recovered"
}

# A device that is lost and comes back, again and again. Each time it gets notes.
try_device_again() {
    local turn
    crowd 1 >crowded
    rm -f usb got
    socat -u PTY,link=usb,raw,echo=0 OPEN:got,creat,append 2>/dev/null &
    reader=$!
    within 60 test -c usb || fails "there is no device"
    on_stage crowded --bpm 999 --midi usb --save saved
    for ((turn = 0; turn < 20; turn++)); do
        : >got
        within 60 has_bytes got 30 || fails "a device that came back $turn times gets nothing"
        kill "$reader"
        wait "$reader" 2>/dev/null || true
        socat -u PTY,link=usb,raw,echo=0 OPEN:got,creat,append 2>/dev/null &
        reader=$!
    done
    within 60 has_bytes got 30 || fails "a device that came back gets nothing"
    end_stage "[03]"
    kill "$reader" 2>/dev/null || true
    wait "$reader" 2>/dev/null || true
    echo "peers: a device comes back 20 times, and is sent to again"
}

# A kill in the middle of an append may cut its text anywhere: what stands before in whole lines is recovered. The file is
# never there without its start.
try_cut_room() {
    local cut start held reader room=.crowded.orca-room
    crowd 1 >crowded
    leave_notes_on 7
    ends_synth
    cp "$room" whole
    start=$(($(sed '/^!/q' whole | wc -c)))
    for cut in {0..100}; do
        (umask 077 && head -c "$((start + ($(stat -c %s whole) - start) * cut / 100))" whole >"$room")
        head -n "$(wc -l <"$room")" "$room" | sed '1,/^$/d; /^#/d' >lines
        recovers || fails "a room of $cut of 100 parts is not recovered: $(cat fault)"
        "$built" replay crowded lines | sed '/ /d' | cmp - crowded.recovered.orca ||
            fails "a room that was cut after $cut of 100 parts gives something else"
        grep -v '^frame' lines | cmp - <(grep -v '^frame' crowded.recovered.script) || fails "its script has other commands"
        rm crowded.recovered.*
    done
    rm whole
    echo "peers: a room that was cut off is recovered up to its last whole line"
}

# Somebody else can neither look into the room nor take its place, and nobody else can type.
try_other_user() {
    local nobody='setpriv --reuid=65534 --regid=65534 --clear-groups'
    crowd 1 >crowded
    on_stage crowded --bpm 1 --save saved --script script
    await_text seen ' play '
    [ "$(stat -c %a .crowded.orca-room)" = 600 ] || fails "a room is open to others"
    if [ "$(id -u)" = 0 ] && $nobody true 2>/dev/null; then
        chmod 711 "$work"
        ! $nobody cat .crowded.orca-room 2>/dev/null || fails "somebody else reads a room"
    fi
    ! grep -q "$(printf ' 0A .* ')" <(for player in $(pgrep -f "play .*crowded"); do
        readlink "/proc/$player/fd/"* | sed -n 's/socket:\[\(.*\)\]/\1/p'; done | grep -f - /proc/net/tcp /proc/net/tcp6) ||
        fails "the program listens to somebody"
    type_glyph 7
    end_stage 0
    printf '!orca 2 seed 1\nwrite 0 0 7\n' | cmp - <(grep -v '^frame' script) || fails "another one has typed: $(cat script)"
    echo "peers: nobody else can type"
}

# Keys that are typed while a pipe waits for its reader are not for the piece.
try_early_keys() {
    rm -f synth saved script
    mkfifo synth
    crowd 1 >crowded
    on_stage crowded --bpm 1 --midi synth --save saved --script script
    await_text seen 'the pipe of --midi, synth, waits for its reader'
    printf '123\r456' >&"$typed"
    # The terminal shows them itself, for as long as it is not the piece's.
    await_text seen 456
    timeout 300 cat synth >/dev/null &
    await_text seen ' play '
    type_glyph 7
    end_stage 0
    printf '!orca 2 seed 1\nwrite 0 0 7\n' | cmp - script || fails "keys that were typed early are taken: $(cat script)"
    echo "peers: keys that are typed while a pipe waits are not for the piece"
}

# new_piece ROWS COLUMNS: a name that is no file begins an empty piece of this size, which is saved at the end
new_piece() {
    rm -f new
    on_stage new --bpm 08
    await_text seen ' play '
    type_glyph 7
    end_stage 0
    yes "$(printf "%$2s" '' | tr ' ' .)" | head -n "$1" | sed '1s/./7/' | cmp - new || fails "a new piece is saved as another grid"
}

# It has the size of the terminal, as far as a picture may have it. One whose size is not known has 24 rows of 80 columns.
try_new_piece() {
    new_piece 23 80
    prelude='stty rows 10 cols 300' new_piece 9 256
    echo "peers: a new piece begins empty, and is saved"
}

# play_and_leave WORD..: a glyph is typed, and then comes the key Quit
play_and_leave() {
    on_stage "$@"
    await_text seen ' play '
    type_glyph 7
    end_stage "${status:-0}"
}

# What was typed and not saved stays in a room until it is recovered or discarded. The next performance puts it aside.
try_room() {
    local name='-a room' number
    crowd 1 >"$name"
    play_and_leave --bpm 1 -- "$name"
    await_text seen "perform: edits of $name are not saved, and stay in $PWD/.$name.orca-room: perform --recover -- -a\ room saves"
    has_room "$name" || fails "what was typed and not saved is gone"
    for number in 1 2; do
        cp ".$name.orca-room" "kept$number"
        on_stage --bpm 1 -- "$name"
        await_text seen ' play '
        grep -aqE "perform: edits of -a room of [-0-9]{10} at [0-9:]{5} may not have been saved, and are in $PWD/.-a room.$number.orca" \
            seen || fails "./perform says: $(cat seen)"
        printf %s "$number" >&"$typed"
        await_text seen "$(cursor_on "$number")"
        end_stage 0
        await_text seen "perform --recover --number $number -- -a\ room saves them beside it"
        cmp ".$name.$number.orca-room" "kept$number" || fails "a room that is put aside is changed"
    done
    "$top/perform" --recover -- "$name" 2>fault || fails "--recover ends with $?: $(cat fault)"
    "$top/perform" --recover --number 1 -- "$name" 2>fault || fails "--recover ends with $?: $(cat fault)"
    "$top/perform" --recover --number 2 --save other -- "$name" 2>fault || fails "--recover ends with $?: $(cat fault)"
    sed '1s/./2/' "./$name" | cmp - "./$name.recovered.orca" && grep -q '^write 0 0 2$' "./$name.recovered.script" &&
        sed '1s/./7/' "./$name" | cmp - "./$name.recovered.2.orca" && grep -q '^write 0 0 7$' "./$name.recovered.2.script" &&
        sed '1s/./1/' "./$name" | cmp - other && grep -q '^write 0 0 1$' other.script || fails "--recover gives something else"
    [ -z "$(find . -maxdepth 1 -name '*.orca-room')" ] || fails "rooms stay"
    play_and_leave --bpm 1 -- "$name"
    say_by_perform 125 'other: this file, or other.script, is there already: give another name' --recover --save other -- "$name"
    rm "./$name.recovered.orca" && ln -s nowhere "./$name.recovered.orca" && chmod 600 "./$name"
    "$top/perform" --recover -- "$name" 2>fault || fails "--recover ends with $?: $(cat fault)"
    [ "$(stat -c %a "./$name.recovered.3.orca" "./$name.recovered.3.script")" = $'600\n600' ] && [ ! -e nowhere ] ||
        fails "what is recovered is open to others, or goes to the end of a link"
    crowd 1 >crowded
    say_by_perform 125 'crowded: there is nothing to recover' --recover crowded
    say_by_perform 125 'crowded: there is nothing to discard' --discard crowded
    on_stage crowded --bpm 1
    await_text seen ' play '
    say_by_perform 14 'crowded is being performed now' --recover crowded
    say_by_perform 14 'crowded is being performed now' --discard crowded
    end_stage 0
    ! has_room crowded || fails "a performance without an edit leaves a room"
    rm -f other* ./-a*
    echo "peers: what was typed and not saved is recovered or discarded"
}

# kills_after KEYS: all of a performance is killed after these keys, and the status line that they lead to
kills_after() {
    local held reader
    has_synth
    on_stage crowded --bpm 999 --midi synth
    within 60 has_bytes midi 100 || fails "the port gets too little"
    printf %b "$1" >&"$typed"
    await_text seen "$2"
    kill -KILL -- "-$(cat pid)"
    wait "$peer" || true
    peer=
    exec {typed}>&-
    has_room crowded || fails "a performance that was killed leaves no room"
    "${@:3}"
    ends_synth
    are_off midi || fails "a performance that was killed leaves notes on"
}

# begins_again: the piece is performed, and nothing is said of a room
begins_again() {
    on_stage crowded --bpm 1
    await_text seen ' play '
    end_stage 0
    ! grep -aqE 'saved|orca-room' seen && [ -z "$(find . -name '.crowded*')" ] || fails "a room that holds nothing is told: $(cat seen)"
}

# A room that holds nothing goes without a word: where nothing was typed, and where all was saved. Its notes end.
try_empty_rooms() {
    crowd 1 >crowded
    kills_after '\x06' ' play ' begins_again
    kills_after ' 7\x13' ' saved' begins_again
    [ "$(head -c 1 crowded)" = 7 ] || fails "Ctrl-S saves nothing"
    # What was typed and taken back is nothing.
    on_stage crowded --bpm 1
    await_text seen ' play '
    printf ' 8\x1a' >&"$typed"
    await_text seen ' pause '
    end_stage 0
    ! has_room crowded && ! grep -aq 'orca-room' seen || fails "an edit that was taken back leaves a room"
    echo "peers: a room that holds nothing goes without a word"
}

# A wrong line in a room ends what is recovered, and is said by its number in the room, which stays.
try_wrong_line() {
    local room=.crowded.orca-room got=0
    crowd 1 >crowded
    (umask 077 && { cat crowded && printf '\n!orca 2 seed 1\nwrite 0 0 7\nxyz\nwrite 0 0 8\n'; } >"$room")
    "$top/perform" --recover crowded 2>fault || got=$?
    [ "$got" = 5 ] || fails "a room with a wrong line is recovered with $got: $(cat fault)"
    grep -q "script refused: line $(($(wc -l <crowded) + 4)) column 1" fault || fails "a wrong line is not said: $(cat fault)"
    sed '1s/./7/' crowded | cmp - crowded.recovered.orca || fails "what stands before a wrong line is not recovered"
    printf '!orca 2 seed 1\nwrite 0 0 7\n' | cmp - crowded.recovered.script || fails "a wrong line gives another script"
    [ -e "$room" ] || fails "a room that was not understood to its end is gone"
    rm "$room" crowded.recovered.*
    echo "peers: a room with a wrong line is recovered up to it"
}

# The piece that a performance saves over stays beside it.
try_older() {
    crowd 1 >crowded
    crowd 2 >crowded~
    cp crowded opened
    on_stage crowded --bpm 1
    await_text seen ' play '
    printf '7\x13' >&"$typed"
    await_text seen ' saved'
    end_stage 0
    [ "$(head -c 1 crowded)" = 7 ] && cmp crowded~ opened || fails "the piece is not kept as it was"
    rm crowded~
    echo "peers: the piece that is saved over stays beside it"
}

# What is no room, or that of another piece: it stays as it is, and the piece is not played.
try_other_rooms() {
    local kind room=.crowded.orca-room
    crowd 1 >crowded
    for kind in 'ln -s nowhere' 'ln -s crowded' mkfifo mkdir 'cp crowded'; do
        $kind "$room"
        on_stage crowded --bpm 1
        await_stage 125
        await_text seen "$PWD/$room: this is no room of yours: move it away"
        say_by_perform 125 "$PWD/$room: this is no room of yours: move it away" --recover crowded
        say_by_perform 125 "$PWD/$room: this is no room of yours: move it away" --discard crowded
        [ -e "$room" ] || [ -L "$room" ] || fails "$kind: what is no room is gone"
        rm -rf "$room"
    done
    # That of another piece has all of that one, and what is recovered is that.
    crowd 2 >other
    play_and_leave other --bpm 1
    mv .other.orca-room "$room"
    "$top/perform" --recover crowded 2>fault || fails "another room is not recovered: $(cat fault)"
    sed '1s/./7/' other | cmp - crowded.recovered.orca || fails "another room is recovered as another grid"
    rm crowded.recovered.*
    # A file without a grid is no room either, and stays.
    (umask 077 && echo nothing >"$room")
    ! "$top/perform" --recover crowded 2>fault || fails "a file without a grid is recovered"
    [ "$(cat "$room")" = nothing ] || fails "a recovery that failed takes the room away"
    rm -f "$room" crowded.recovered.*
    try_planted_room
    echo "peers: what is no room of the piece stays, and is told"
}

# A room names a file as its port: that gets nothing. Nor can somebody else have a room put there, or one be taken for it.
try_planted_room() {
    local nobody='setpriv --reuid=65534 --regid=65534 --clear-groups' task
    for task in --recover --discard; do
        echo precious >victim
        (umask 077 && printf '....\n\n!orca 2 seed 1\n# midi %s\nwrite 0 0 7\n' "$PWD/victim" >.crowded.orca-room)
        "$top/perform" $task crowded 2>fault || fails "$task ends with $?: $(cat fault)"
        [ "$(cat victim)" = precious ] || fails "$task writes into a file that a room names"
    done
    rm -f crowded.recovered.*
    if [ "$(id -u)" != 0 ] || ! $nobody true 2>/dev/null; then
        echo "peers: the room of another user skipped, since nobody else can be here"
        return
    fi
    chmod 711 "$work"
    mkdir -m 777 theirs
    crowd 1 >theirs/other
    $nobody sh -c 'umask 077; : >theirs/.other.orca-room'
    for task in --recover --discard; do
        say_by_perform 125 "theirs/other may be performed by $(id -un 65534) now: ask him" $task theirs/other
    done
    on_stage theirs/other
    await_stage 125
    await_text seen "theirs/other may be performed by $(id -un 65534) now: ask him"
    [ -e theirs/.other.orca-room ] || fails "somebody else's room is gone"
    # In a folder where anybody may put a file, and nobody can take another one's away, a room is elsewhere.
    chmod 1777 theirs
    chown 65533 theirs
    on_stage theirs/other --bpm 1
    await_text seen ' play '
    type_glyph 7
    end_stage 0
    await_text seen "/orca-rooms-$UID/.other."
    "$top/perform" --discard theirs/other 2>fault || fails "a room elsewhere is not found: $(cat fault)"
    [ -e theirs/.other.orca-room ] || fails "somebody else's file is gone"
    rm -r theirs
}

# A piece in a folder that can't be written has its room in the temporary folder, where nobody else can enter.
try_room_elsewhere() {
    local TMPDIR=$PWD/temporary as_root='' room
    rm -rf temporary locked_away && mkdir temporary locked_away
    export TMPDIR
    crowd 1 >locked_away/piece
    chmod 777 temporary
    chmod 755 locked_away
    if [ "$(id -u)" = 0 ]; then
        as_root=yes
        mount --bind locked_away locked_away 2>/dev/null && mount -o remount,bind,ro locked_away ||
            { echo "peers: a room elsewhere skipped, since nothing may be mounted here" && return; }
    else
        chmod 555 locked_away
    fi
    play_and_leave locked_away/piece --bpm 1
    [ "$(stat -c %a "temporary/orca-rooms-$UID")" = 700 ] || fails "somebody else may enter the folder of rooms"
    room=$(ls -A "temporary/orca-rooms-$UID")
    [[ $room == .piece.*.orca-room ]] || fails "a room elsewhere is called $room"
    await_text seen "perform --recover --save NAME locked_away/piece saves them, and "
    ! "$top/perform" --recover locked_away/piece 2>fault || fails "a folder that can't be written gets a file"
    grep -qxF "perform: what is left is in $TMPDIR/orca-rooms-$UID/$room; --save NAME saves it elsewhere than in $(
        )locked_away/piece.recovered.orca" fault || fails "--recover says: $(cat fault)"
    "$top/perform" --recover --save found locked_away/piece 2>fault || fails "a room elsewhere is not recovered: $(cat fault)"
    sed '1s/./7/' locked_away/piece | cmp - found && grep -q '^write 0 0 7$' found.script || fails "a room elsewhere has another grid"
    rm found found.script
    play_and_leave locked_away/piece --bpm 1
    if [ -n "$as_root" ]; then mount -o remount,bind,rw locked_away; else chmod 755 locked_away; fi
    # It is found once the folder can be written.
    on_stage locked_away/piece --bpm 1
    await_text seen ' play '
    end_stage 0
    await_text seen '--number 1 '
    "$top/perform" --discard locked_away/piece 2>fault || fails "a room elsewhere is not discarded"
    [ -z "$(ls -A "temporary/orca-rooms-$UID")" ] || fails "a room elsewhere stays"
    if [ -n "$as_root" ]; then mount -o remount,bind,ro locked_away; else chmod 555 locked_away; fi
    chmod 755 "temporary/orca-rooms-$UID"
    say_by_perform 125 "$TMPDIR/orca-rooms-$UID: this has to be a folder that nobody else can enter" locked_away/piece
    if [ -n "$as_root" ]; then umount locked_away; else chmod 755 locked_away; fi
    echo "peers: where a folder can't be written, the room is elsewhere"
}

# recovers_glyph PIECE GLYPH: --recover gives the piece with this glyph at its first place; then all is as before
recovers_glyph() {
    "$top/perform" --recover "$1" 2>fault || fails "$1 is not recovered: $(cat fault)"
    sed "1s/./$2/" "$1" | cmp - "$1.recovered.orca" || fails "what is recovered of $1 is another grid"
    ! has_room "$1" || fails "a room of $1 stays"
    rm "$1".recovered.*
}

# A journal that finds no room is no wish to save: without Ctrl-S and --save the piece is as it was.
try_unasked_save() {
    crowd 1 >crowded
    cp crowded opened
    prelude='ulimit -S -f 4' on_stage crowded --bpm 1
    await_text seen ' play '
    type_glyph 7
    printf '\x06%.0s' {1..1000} >&"$typed"
    type_glyph 8
    await_text seen 'no journal'
    end_stage 4
    await_text seen "perform: edits of crowded may not be saved; what could be kept is in $PWD/.crowded.orca-room"
    cmp crowded opened || fails "a journal that fails makes ./perform save"
    "$top/perform" --discard crowded
    echo "peers: where nobody has asked for a save, nothing is saved"
}

# Pieces that are called like the standard input.
try_dash() {
    crowd 1 >./-
    play_and_leave --bpm 1 --save - -
    [ "$(head -c 1 ./-)" = 7 ] && ! has_room - || fails "a piece that is called - is not saved"
    rm ./-
    echo "peers: a piece may be called -"
}

# begin_both SECONDS: two performances of one piece begin, so far apart
begin_both() {
    crowd 1 >"$work/both"
    turn_to first
    on_stage "$work/both" --bpm 1
    turn_to second
    sleep "$1"
    on_stage "$work/both" --bpm 1
    turn_to .
}

# one_plays: one of them plays, and the other one has been refused; then $plays and $refused are their folders
one_plays() {
    local pair
    for pair in first/second second/first; do
        plays=${pair%/*} refused=${pair#*/}
        [ ! -s "$work/$refused/status" ] || ! grep -aqF ' play ' "$work/$plays/seen" || return 0
    done
    return 1
}

# Of two performances that begin at once one plays and the other one is refused, and what is typed is kept.
try_both() {
    local gap plays refused
    for gap in 0 0 0.05 0.1 0.15 0.2; do
        begin_both "$gap"
        within 60 one_plays || fails "of two performances $gap seconds apart not one plays"
        turn_to "$refused"
        await_stage 14
        await_text seen 'is being performed now'
        turn_to "$plays"
        type_glyph 7
        end_stage 0
        turn_to .
        recovers_glyph both 7
    done
    echo "peers: of two performances that begin at once one is refused, and nothing is lost"
}

# lowest_is ROW: this is the lowest row among those that were painted last
lowest_is() {
    [ "$(tail -c 1000 seen | grep -ao $'\e\[[0-9]*;1H' | tr -dc '0-9;\n' | sort -n | tail -n 1)" = "$1;1" ]
}

# The window becomes larger and smaller while a piece plays: the status line is its last row, and keys are taken.
try_window() {
    local screen
    crowd 1 >crowded
    prelude='stty rows 10 cols 60' on_stage crowded --bpm 999
    await_text seen ' play 999'
    screen=$(readlink "/proc/$(cat pid)/fd/1")
    for rows in 30 5 12; do
        stty rows "$rows" cols "$((100 - rows))" <"$screen"
        within 60 lowest_is "$rows" || fails "a window of $rows rows has a picture of others: $(tail -c 300 seen)"
    done
    type_glyph 7
    printf '\x13' >&"$typed"
    plays_on seen 5 "a window changed"
    end_stage 0
    echo "peers: the picture follows its window"
}

# A performance goes on after a stop, in which a shell gave the terminal its own modes: it is raw again, and all of the picture
# is painted.
try_continued() {
    local screen before
    crowd 1 >crowded
    on_stage crowded --bpm 999
    await_text seen ' play 999'
    screen=$(readlink "/proc/$(cat pid)/fd/1")
    stty sane <"$screen"
    before=$(stat -c %s seen)
    kill -CONT -- "-$(cat pid)"
    within 60 eval 'stty -a <"$screen" | grep -q -- -icanon' || fails "a terminal that goes on is not raw"
    within 60 eval 'tail -c "+$((before + 1))" seen | grep -aqF $'\''\e[10;1H'\''' || fails "a picture that goes on is not painted"
    type_glyph 7
    printf '\x13' >&"$typed"
    plays_on seen 5 "a performance goes on"
    end_stage 0
    echo "peers: a performance that was stopped goes on"
}

# A click puts the cursor there, and a drag selects, as the terminal tells of the mouse when it was asked to.
try_mouse() {
    rm -f saved script
    printf '........\n%.0s' 1 2 3 4 5 >clicked
    on_stage clicked --bpm 1 --rows 6 --cols 60 --save saved --script script
    await_text seen ' play '
    await_text seen $'\e[?1002h\e[?1006h'
    printf '\e[<0;3;2M\e[<0;3;2m' >&"$typed"
    type_glyph 7
    printf '\e[<0;5;3M\e[<32;2;1M\e[<0;2;1m' >&"$typed"
    type_glyph 8
    printf '\x0b' >&"$typed"
    end_stage 0
    printf '%s\n' '!orca 2 seed 1' 'write 1 2 7' 'write 0 1 8' 'fill 0 1 3 4 8' | cmp - <(grep -v '^frame' script) ||
        fails "a click and a drag give: $(cat script)"
    on_stage clicked --bpm 1 --keys plain
    await_text seen ' play '
    end_stage 0
    ! grep -aqE $'\e\\[\\?(1002|2004)' seen || fails "plain keys ask for the mouse, or for texts in brackets"
    echo "peers: a click and a drag are keys"
}

# A text that is pasted is one block and one undo. Frames come while it is read, and inside each of its brackets.
try_paste() {
    rm -f saved script
    printf '99999999\n%.0s' 1 2 3 >pasted
    printf '%s\n' 99999999 9912.399 9945..99 >wanted
    on_stage pasted --bpm 999 --rows 6 --cols 60 --save saved --script script
    await_text seen ' play '
    await_text seen $'\e[?1006h\e[?2004h'
    for part in '\e[B\e[C\e[C\e[20' '0~12 3\r\n4' '5\x11\e' '[20'; do
        printf %b "$part" >&"$typed"
        plays_on seen 3 "a part of a text has come"
    done
    await_text seen ' paste ok'
    printf '1~\x13' >&"$typed"
    within 60 cmp -s saved wanted || fails "a text in brackets gives: $(cat saved)"
    printf '\x1a\x13' >&"$typed"
    within 60 cmp -s saved pasted || fails "one undo does not take a text back: $(cat saved)"
    # The text is the clip, and comes again.
    printf '\x16' >&"$typed"
    end_stage 0
    cmp saved wanted || fails "a text comes again as: $(cat saved)"
    printf '%s\n' '!orca 2 seed 1' 'clip 0 0 1' 'clip 0 1 2' 'clip 0 2 .' 'clip 0 3 3' 'clip 1 0 4' 'clip 1 1 5' 'paste 1 2' undo 'paste 1 2' |
        cmp - <(grep -v '^frame' script) || fails "a text in brackets gives: $(cat script)"
    grep -aqF $'\e[?2004l\e[?1002l' seen || fails "the terminal is not told that texts need no brackets any more"
    echo "peers: a pasted text is one block and one undo"
}

# A megabyte is pasted at 999 beats, and the piece plays on.
try_long_paste() {
    rm -f saved
    crowd 2 >pasted
    sed '1s/^.*$/7333333333333333333333333333333333/; 2,4s/.*/3333333333333333333333333333333333/' pasted >wanted
    on_stage pasted --bpm 999 --save saved
    await_text seen ' play '
    { printf '\e[200~7' && yes 3333333333333333333333333333333333 | head -c 500000; } >&"$typed"
    await_text seen ' paste ok'
    plays_on seen 3 "half a megabyte has come"
    { yes 3333333333333333333333333333333333 | head -c 500000 && printf '\e[201~\x13'; } >&"$typed"
    within 60 cmp -s saved wanted || fails "a megabyte gives: $(cat saved)"
    plays_on seen 3 "a megabyte is pasted"
    end_stage 0
    echo "peers: a megabyte is pasted while the piece plays"
}

# A piece that follows the clock of another one ends with its grid and at its tick. ./perform has the leader, which is paused
# meanwhile, in a terminal.
try_clock() {
    local follower held
    rm -f wire
    mkfifo wire
    crowd 2 >crowded
    timeout 120 "$built" follow crowded ./wire >followed 2>fault &
    follower=$!
    exec {held}>wire
    on_stage crowded --lead --bpm 999 --midi wire
    await_text seen 'crowded leads at 999 beats a minute'
    sleep 2
    printf '  ' >&"$typed"
    sleep 1
    end_stage 0
    exec {held}>&-
    wait "$follower" || fails "a follower ends with $?: $(cat fault)"
    tr -d '\r' <seen | sed '/ /d; /^$/d' | cmp - <(sed '/ /d' followed) ||
        fails "a follower ends with another grid than its leader: $(cat followed)"
    [ "$(grep -ao 'tick [0-9]*' seen)" = "$(grep -o 'tick [0-9]*' followed)" ] || fails "a follower ends at $(tail -n 1 followed)"
    echo "peers: a piece follows another one, to $(tail -n 1 followed)"
}

# A recorded clock, with other messages between its bytes and around them, comes in pieces, by ./perform.
try_recorded_clock() {
    local at held
    rm -f wire
    mkfifo wire
    crowd 2 >crowded
    { printf '\xf8\xfa' && printf '\x90\xf8\x24\x77\xf0\x05\xf8\x06\xf7%.0s' {1..30}; } >bytes
    on_stage crowded --follow wire
    await_text seen 'crowded waits for the clock of wire'
    exec {held}>wire
    for ((at = 0; at < $(stat -c %s bytes); at += 11)); do
        tail -c "+$((at + 1))" bytes | head -c 11 >&"$held"
        sleep 0.02
    done
    exec {held}>&-
    await_stage 0
    tr -d '\r' <seen | sed '/ /d; /^$/d' | cmp - <("$built" run crowded 10) || fails "a recorded clock plays something else"
    grep -aq '^tick 10 moments 11 ' seen || fails "60 clocks lead to $(grep -a '^tick' seen)"
    echo "peers: a recorded clock plays as many frames as it has beats for"
}

# What Ctrl-S has saved leaves no room, also when frames come after it; an edit after it does.
try_saved() {
    crowd 1 >crowded
    on_stage crowded --bpm 999
    await_text seen ' play '
    printf '7\x13' >&"$typed"
    plays_on seen 5 "a piece is saved"
    end_stage 0
    ! has_room crowded || fails "a piece that was saved leaves a room"
    on_stage crowded --bpm 1
    await_text seen ' play '
    printf '\x13' >&"$typed"
    type_glyph 8
    end_stage 0
    recovers_glyph crowded 8
    echo "peers: what was saved leaves no room"
}

# Files may have so few bytes here that neither the port nor the grid can be written. The piece plays on, and all is kept.
try_limit() {
    crowd 10 >crowded
    rm -f midi && touch midi
    prelude='ulimit -S -f 4' on_stage crowded --bpm 999 --midi midi --save saved
    await_text seen ' play '
    within 60 has_bytes midi 4096 || fails "the port gets too little"
    plays_on seen 5 "a file may not grow"
    type_glyph 7
    end_stage "[34]"
    rm -f .crowded.orca-room
    echo "peers: a file that may not grow stops no piece"
}

# A folder `pages`, in which the lines of the pages can be typed.
make_pages() {
    rm -rf pages
    mkdir -p pages/bin
    ln -s "$top/orca" "$top/perform" pages
    cp -r "$top/pieces" pages
}

# type_pages CONDITION LINE..: the lines are typed in the folder `pages`, in a terminal; and, while the condition holds,
# the key Quit
type_pages() {
    local may_quit=$1
    shift
    printf '%s\n' 'PATH=$PWD/bin:$PATH' "$@" >pages/session
    rm -f keyboard seen
    mkfifo keyboard
    (cd pages && exec timeout 600 script -qfec 'bash session' ../seen <../keyboard >/dev/null) &
    peer=$!
    exec {typed}>keyboard
    while kill -0 "$peer" 2>/dev/null; do
        sleep 0.7
        # Nobody reads this once the session has ended.
        ! $may_quit || (printf '\x11' >&"$typed") || true
    done 2>/dev/null
    wait "$peer" || fails "the lines of a page end with $?: $(tail -c 300 seen)"
    peer=
    exec {typed}>&-
}

# The recipe of the page on sound, line by line. There may be no sound card here, so what is heard goes into a file. The
# piece whose take is wanted plays until it is heard.
try_recipe() {
    local font=/usr/share/sounds/sf2/TimGM6mb.sf2
    [ -e "$font" ] || { echo "peers: the recipe of FluidSynth skipped, since there is no $font"; return; }
    make_pages
    printf '%s\n' '#!/bin/sh' "exec $(command -v fluidsynth) -a file -o audio.file.type=raw -o audio.file.name=/dev/null \"\$@\"" >pages/bin/fluidsynth
    chmod +x pages/bin/fluidsynth
    type_pages true "$(lines_of docs/SOUND.md FluidSynth 1)" "$(lines_of docs/SOUND.md FluidSynth 2)"
    is_clean
    type_pages 'is_loud pages/take.raw' "$(lines_of docs/SOUND.md FluidSynth 3)"
    is_clean
    [ "$(sox --i -s pages/take.wav)" -gt 1000 ] || fails "the take of the recipe has no length"
    echo "peers: the recipe of FluidSynth plays, cleans up, and gives a take of $(sox --i -d pages/take.wav)"
}

# The recipe has cleaned up, and kept FluidSynth's words out of the picture.
is_clean() {
    [ ! -e pages/synth ] && [ ! -e pages/synth.log ] || fails "the recipe of FluidSynth does not clean up"
    ! grep -aqi 'fluidsynth\|copyright' seen || fails "FluidSynth's words are in the picture"
}

# The examples of the README and of the page on commands, one after another as they stand. The pipe of some of them has a
# reader.
try_readme() {
    local line lines=()
    make_pages
    while read -r line; do
        case $line in
            *PIECE* | *'orca play '* | *--join* | *--prove*) ;;
            *) lines+=("$line; echo \"\$? $line\" >>statuses") ;;
        esac
    done < <(awk '/^```/ { is_inside = !is_inside }
        is_inside && /^\.\/(orca|perform) / { print; next }
        { while (match($0, /`\.\/(orca|perform) [^`]*`/)) { print substr($0, RSTART + 1, RLENGTH - 2); $0 = substr($0, RSTART + RLENGTH) } }' "$top/README.md" "$top/docs/COMMANDS.md")
    type_pages true 'mkfifo synth; exec 9<>synth; cat synth >/dev/null & reader=$!' "${lines[@]}" 'kill $reader'
    [ "$(wc -l <pages/statuses)" = "${#lines[@]}" ] && ! grep -v '^0 ' pages/statuses || fails "an example of a page fails"
    echo "peers: the ${#lines[@]} examples of the README and of docs/COMMANDS.md run in their order"
}

# small_disk: a folder `small` on a file system of 64 kilobytes, or else, for somebody who may not mount one, a folder whose
# rights can be taken. Then $disk says which.
small_disk() {
    mkdir -p small
    if mount -t tmpfs -o size=64k orca-small small 2>/dev/null; then
        disk='a full disk'
    else
        disk='a forbidden folder'
        [ "$(id -u)" != 0 ]
    fi
}

# The folder takes nothing more.
close_disk() {
    case $disk in
        'a full disk') head -c 200000 /dev/zero >small/filler 2>/dev/null || true ;;
        *) chmod 555 small ;;
    esac
}

# The folder takes files again.
open_disk() {
    rm -f small/filler
    chmod 755 small
}

# end_at_full_disk STATUS GLYPH WORD..: the glyph is typed, and the end, with this status, cannot save the piece. All of it is
# kept, and recovered once there is room.
end_at_full_disk() {
    local status=$1 glyph=$2
    shift 2
    on_stage small/piece --bpm 1 "$@"
    await_text seen ' play '
    close_disk
    type_glyph "$glyph"
    end_stage "$status"
    cmp small/piece opened || fails "$disk changes the piece at the end"
    open_disk
    "$top/perform" --recover small/piece || fails "$disk: --recover ends with $?"
    sed "1s/./$glyph/" opened | cmp - small/piece.recovered.orca || fails "$disk loses the grid"
    printf '!orca 2 seed 1\nwrite 0 0 %s\n' "$glyph" | cmp - small/piece.recovered.script || fails "$disk loses the script"
    rm small/piece.recovered.*
}

# The disk fills under the room, and is freed: a line that was lost is told from then on, and Ctrl-S saves again.
fill_under_room() {
    on_stage small/piece --bpm 1
    await_text seen ' play '
    close_disk
    printf '\x06%.0s' {1..2000} >&"$typed"
    await_text seen $'no journal\e[0m ok'
    open_disk
    printf '5\x13' >&"$typed"
    await_text seen $'no journal\e[0m saved'
    end_stage 4
    [ "$(head -c 1 small/piece)" = 5 ] || fails "Ctrl-S saves nothing once the disk is freed"
    "$top/perform" --discard small/piece
    cp opened small/piece
}

# Nothing can be written at Ctrl-S, and then it can, and at the end; then it cannot at the end either.
try_full_disk() {
    if ! small_disk; then
        echo "peers: a full disk skipped, since no file system may be mounted here"
        return
    fi
    crowd 10 >small/piece
    cp small/piece opened
    on_stage small/piece --bpm 1
    await_text seen ' play '
    close_disk
    printf '7\x13' >&"$typed"
    await_text seen unsaved
    type_glyph 8
    cmp small/piece opened || fails "a save to $disk changes the piece"
    [ "$(find small -mindepth 1 -maxdepth 1 ! -name filler -printf '%f\n' | sort | tr '\n' ' ')" = '.piece.orca-room piece piece~ ' ] ||
        fails "a save to $disk leaves something: $(ls -A small)"
    open_disk
    printf '\x13' >&"$typed"
    await_text seen ' saved'
    sed '1s/./8/' opened | cmp - small/piece || fails "$disk: Ctrl-S saves nothing once there is room"
    cp small/piece opened
    type_glyph 6
    end_stage 4
    await_text seen "perform: edits of small/piece may not be saved; what could be kept is in $PWD/small/.piece.orca-room"
    cmp small/piece opened || fails "the end saves what was not to be saved"
    "$top/perform" --recover small/piece || fails "$disk: --recover ends with $?"
    sed '1s/./6/' opened | cmp - small/piece.recovered.orca || fails "what came after Ctrl-S is lost"
    rm small/piece.recovered.*
    [ "$disk" != 'a full disk' ] || fill_under_room
    end_at_full_disk 4 9 --save small/piece --script small/script
    end_at_full_disk 0 5
    umount small 2>/dev/null || true
    echo "peers: at $disk the piece stays, and what was typed is saved or kept"
}
