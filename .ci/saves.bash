# shellcheck shell=bash
# For .ci/outputs, which sources this: a journal spoils no file, and a save is on the disk before the run ends.

# keep STATUS NAME [WORD..]: the keys of the file ./keyed are typed into ./piece, with a journal of this name
keep() {
    local status=$1 name=$2 got=0 fault=
    shift 2
    [ "$status" = 0 ] || fault='file fault'
    timeout 60 "$program" play piece ./keyed --bpm 1 --journal "$name" "$@" >view 2>fault </dev/null || got=$?
    [ "$got" = "$status" ] && [ "$(cat fault)" = "$fault" ] ||
        { echo "a journal named $name ends with $got and says: $(cat fault)" && exit 1; }
}

# A journal begins only a file that isn't there, is empty, or is an older journal; every other stays, whatever it is called.
try_journals() {
    local name text
    printf '12..\n' >piece
    printf '7\x11' >keyed
    ln -s piece to_piece
    ln piece same_piece
    mkdir folder
    mkfifo unread
    for name in ./piece "$PWD/piece" to_piece same_piece folder unread /dev/null no/such/folder; do
        keep 4 "$name"
        printf '12..\n' | cmp - piece
    done
    [ -L to_piece ] && [ piece -ef same_piece ] && [ -d folder ] && [ -p unread ] && [ -c /dev/null ] ||
        { echo "a journal takes the place of what is no file" && exit 1; }
    for text in '!orca' '!orca2' '.!orca '; do
        printf %s "$text" >near
        keep 4 near
        printf %s "$text" | cmp - near
    done
    printf '' >empty
    printf '!orca 2 seed 5\nframe\n' >older
    ln -s made_by_link through
    for name in not_there empty older through; do
        keep 0 "$name"
        printf '!orca 2 seed 1\nwrite 0 0 7\n' | cmp - "$name"
    done
    [ -L through ] || { echo "a journal takes the place of a link" && exit 1; }
}

# Who may not read or write a file keeps no journal there.
try_rights() {
    local -a nobody=(setpriv --reuid=65534 --regid=65534 --clear-groups)
    [ "$(id -u)" = 0 ] && command -v setpriv >/dev/null || { echo "outputs: a journal without rights is not tried" && return; }
    mkdir -m 777 shared
    cp "$program" shared/orca
    printf '12..\n' >shared/piece
    for name in secret held; do printf '!orca 2 seed 5\n' >"shared/$name"; done
    chmod 600 shared/secret
    chmod 644 shared/held shared/piece
    cp keyed shared
    chmod 755 "$work" shared/orca
    for name in secret held; do
        (cd shared && "${nobody[@]}" timeout 60 ./orca play piece ./keyed --bpm 1 --journal "$name" >/dev/null 2>fault </dev/null) &&
            { echo "somebody else's file is a journal" && exit 1; }
        printf '!orca 2 seed 5\n' | cmp - "shared/$name"
    done
}

# A save that takes the name of the journal is a whole grid: what is added goes to the file that was begun.
try_journal_saved_over() {
    printf '7\x11' >keyed
    keep 0 grid --save ./grid
    printf '72..\n' | cmp - grid
    printf '7\x13%64s8\x11' '' >keyed
    keep 4 again --save ./again
    printf '82..\n' | cmp - again
}

# synced WORD..: the calls on the disk that the program makes with these words, each with the name of its file alone, and
# N for the number of a new file
synced() {
    strace -qq -y -e trace=fsync,rename -o calls "$program" "$@" >/dev/null 2>&1 </dev/null
    sed -nE 's,^(fsync)\([0-9]+<.*/([^/]*)>\).*,\1 \2,p; s,^rename\(.*[/"]([^"/]+)"\).*,rename \1,p' calls |
        sed 's,\.orca-save-[0-9]*,.orca-save-N,'
}

# A save at the end is on the disk before the run ends: the file, then its name, then its folder. One by key waits for
# nothing while it plays.
try_syncs() {
    local folder=${work##*/}
    strace -qq true 2>/dev/null || { echo "outputs: calls on the disk are not looked at, since strace does not run here" && return; }
    synced migrate old moved | cmp - <(printf '%s\n' 'fsync .orca-save-N' 'rename moved' "fsync $folder")
    printf '7\x11' >keyed
    synced play piece ./keyed --bpm 1 --journal kept --save saved | cmp - <(printf '%s\n' 'fsync .orca-save-N' 'rename kept' \
        "fsync $folder" 'fsync .orca-save-N' 'rename saved' "fsync $folder")
    printf '7\x13\x11' >keyed
    synced play piece ./keyed --bpm 1 | cmp - <(printf '%s\n' 'rename piece' 'fsync piece' "fsync $folder")
}

try_journals
try_rights
try_journal_saved_over
try_syncs
