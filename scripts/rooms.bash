# shellcheck shell=bash
# For ./perform, which sources this: rooms, in which the program keeps what is typed. That of a piece is
# beside it, or if that folder takes none, in one that nobody else can enter. An old one is put aside.

# Then $stems are how the names of the rooms of the piece begin, in both folders.
name_rooms() {
    local sum name
    full_name "$piece"
    sum=$(printf %s "$full" | cksum) name=${full##*/}
    ((${#name} <= 50)) || name=piece
    stems=("${full%/*}/.${full##*/}" "${TMPDIR:-/tmp}/orca-rooms-$UID/.$name.${sum%% *}")
}

# takes_rooms STEM: rooms can be there, which begin with a second name and a lock; if not, $why is the reason
takes_rooms() {
    local probe=$1.orca-room.$$
    why='others may write there'
    [ ! -k "${1%/*}" ] || [ -O "${1%/*}" ] || return
    why=$({ set -C && : >"$probe" && flock -n "$probe" ln -T -- "$probe" "$probe.2"; } 2>&1) && why=
    rm -f -- "$probe" "$probe.2"
    why=${why##*: }
    [ -z "$why" ]
}

choose_room() {
    local private
    name_rooms
    private=${stems[1]%/*} room=${stems[0]}.orca-room
    [ -d "${room%/*}/" ] && ! takes_rooms "${stems[0]}" || return 0
    mkdir -m 700 -- "$private" 2>/dev/null || [[ $(stat -c '%f %u' -- "$private" 2>&1) == "41c0 $EUID" ]] ||
        fails "$private: this has to be a folder that nobody else can enter"
    takes_rooms "${stems[1]}" ||
        fails "what is typed can't be kept in $private: $why. TMPDIR may name another folder"
    room=${stems[1]}.orca-room
}

# is_there NAME: also a link that leads nowhere
is_there() { [ -e "$1" ] || [ -L "$1" ]; }

# find_rooms PATTERN: then $found are the rooms of the piece with such a number, the newest first. Where
# anybody may put a file, somebody else's is no room.
find_rooms() {
    local at
    found=()
    for at in "${stems[0]}"$1.orca-room "${stems[1]}"$1.orca-room; do
        is_there "$at" && { [ ! -k "${at%/*}" ] || [ -O "$at" ]; } || continue
        if [ "$at" -nt "${found-}" ]; then found=("$at" "${found[@]}"); else found+=("$at"); fi
    done
}

# hold ROOM: this holds it from here on, unless it is somebody else's, none, or in use
hold() {
    local mode owner user got=0
    read -r mode owner user < <(stat -c '%f %u %U' -- "$1")
    [ "$owner" = "$EUID" ] || fails "$piece may be performed by $user now: ask him"
    [ "$mode" = 8180 ] || fails "$1: this is no room of yours: move it away"
    exec {lock}<"$1"
    # A file system without locks has no room that a program holds.
    flock -n "$lock" || got=$?
    [ "$got" != 1 ] && [ "$1" -ef "/dev/fd/$lock" ] || { say "$piece is being performed now" && exit 14; }
}

# holds_nothing ROOM: no command of it changes the grid, or all of them lead to the grid that the piece has
holds_nothing() {
    local folder got=0 edits
    edits=$(sed '1,/^$/d' "$1" | grep -vxE '#.*|frame|reset|(copy|clip) .*' | head -n 2)
    [[ $edits != '!orca 2 seed '+([0-9]) ]] || return 0
    folder=$(mktemp -d) || return
    "$program" recover "$1" "$folder/grid" && cmp -s "$folder/grid" "${given[--save]-$piece}" || got=1
    rm -rf -- "$folder"
    return "$got"
} </dev/null &>/dev/null

# end_notes PORT [BYTES]: a program that was killed has ended no note, so a pipe or a device gets All Notes
# Off on each channel, and these bytes. One that does not take them at once is left alone.
end_notes() {
    local notes
    [ -p "$1" ] || [ -c "$1" ] || return 0
    printf -v notes '\\xB%s\\x7B\\x00' {0..9} {A..F}
    printf %b "$notes${2-}" | timeout 0.5 bash -c 'cat >>"$1"' bash "$1" 2>/dev/null || true
}

# end_its_notes ROOM: at the port that it names
end_its_notes() { end_notes "$(sed -n '/^$/,$ s/^# midi //p' "$1" | head -n 1)"; }

# tell_room ROOM WORDS: what it has, and how that is saved or dropped
tell_room() {
    local name number='' where=' beside it' save=''
    printf -v name %q "$piece"
    [[ $name != -* ]] || name="-- $name"
    [ "$1" = "$room" ] || number=${1%.orca-room} number=" --number ${number##*.}"
    [ -w "${stems[0]%/*}/" ] || where='' save=' --save NAME'
    say "edits of $piece $2 $1: $called --recover$number$save $name saves them$where," \
        "and $called --discard$number $name drops them"
}

# An old room holds up no performance. One that holds nothing goes, and any other is put aside; then $aside is
# the last of these, and $since when it was left.
clear_way() {
    local old number
    find_rooms ''
    for old in "${found[@]}"; do
        hold "$old"
        end_its_notes "$old"
        if holds_nothing "$old"; then
            rm -f -- "$old"
        else
            number=0
            until aside=${old%.orca-room}.$((number += 1)).orca-room && ! is_there "$aside"; do :; done
            mv -nT -- "$old" "$aside"
            since=$(date -r "$aside" '+%F at %R')
            tell_room "$aside" "of $since may not have been saved, and are in"
        fi
        exec {lock}<&-
    done
}

# Then $grid and $script are where what is recovered goes, never over another file.
name_recovered() {
    local base=${piece%.recovered?(.+([0-9])).orca} number=0
    grid=${given[--save]-} script=$grid.script
    until [ -n "$grid" ] && ! is_there "$grid" && ! is_there "$script"; do
        [ -z "${given[--save]-}" ] ||
            fails "$grid: this file, or $script, is there already: give another name"
        grid=$base.recovered.$((number += 1)) grid=${grid%.1}.orca script=${grid%.orca}.script
    done
}

# For --recover and --discard. What is recovered is as open to others as the piece is.
settle() {
    local got=0 numbers='?(.+([0-9]))' since grid script
    [ -z "${given[--number]-}" ] || numbers=.$((10#${given[--number]}))
    name_rooms
    find_rooms "$numbers"
    [ -n "${found-}" ] || fails "$piece: there is nothing to $task"
    hold "$found"
    since=$(date -r "$found" '+%F at %R')
    if [ "$task" = recover ]; then
        name_recovered
        (umask 077 && exec "$top/orca" recover ${given[--limit]+"--limit=${given[--limit]}"} \
            --script="$script" -- "$found" "$grid") || got=$?
        [ -e "$grid" ] && [ -e "$script" ] ||
            fails "what is left is in $found; --save NAME saves it elsewhere than in $grid"
        chmod --reference="$piece" -- "$grid" "$script" 2>/dev/null || true
        say "the grid is in $grid, and the script in $script"
        [ "$got" = 0 ] || { say "they have the beginning alone, and $found has all" && exit "$got"; }
    else
        say "the edits of $piece of $since are dropped"
    fi
    # The notes of one with a number have ended where it was put aside.
    [[ " ${stems[*]/%/.orca-room} " != *" $found "* ]] || end_its_notes "$found"
    rm -- "$found"
}
