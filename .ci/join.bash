# shellcheck shell=bash
# For scripts that source this: a player of the program's, at a real pipe or connection.
unset CDPATH

# within SECONDS COMMAND..: tries the command again and again, and fails if it has not succeeded within so many seconds.
# These are far more than it takes, since other work may keep the machine busy.
within() {
    local end=$((SECONDS + $1))
    shift
    until "$@" 2>/dev/null; do
        [ "$SECONDS" -lt "$end" ] || return 1
        sleep 0.05
    done
}

# choose_port PROTOCOL: then no socket of this protocol has $port. Nobody is asked, since a listener may be waiting for
# somebody else.
choose_port() {
    local hex
    while port=$((20000 + RANDOM % 10000)) && printf -v hex ':%04X ' "$port" &&
        grep -q "$hex" "/proc/net/$1" "/proc/net/${1}6" 2>/dev/null; do
        :
    done
}

# cursor_on GLYPH: how a picture shows the cursor on this glyph
cursor_on() {
    printf '\e[7m%s' "$1"
}

# connect PORT: then $typed is a connection to this port
connect() {
    exec {typed}>"/dev/tcp/127.0.0.1/$1"
}

# How many players have joined.
joined=0

# join WORD..: plays with these words and the keys of a pipe. Then $player is the program's process and $typed the pipe;
# what it shows and says stands in the files view and fault. The program runs as $as_somebody.
join() {
    # The name is never free, and the pipe of each player has one of its own: the process below that belongs to an earlier
    # player opens no other pipe, and makes no plain file.
    local own=keys_of_$((joined += 1))
    mkfifo -m 666 "$own"
    ln "$own" keys_made
    mv -fT keys_made keys
    ${as_somebody:-} timeout 120 "$program" play "$@" keys >view 2>fault </dev/null &
    player=$!
    # A program that ends before it opens its keys would leave this waiting.
    (tail --pid="$player" -f /dev/null && exec 3<>"$own") 2>/dev/null &
    exec {typed}>keys
}

# await STATUS FAULT: the program that was joined ends with this status and this standard error
await() {
    local got=0
    wait "$player" || got=$?
    player=
    [ "$got" = "$1" ] && printf %s "$2" | cmp -s - fault || { echo "play ends with $got, and prints:"; cat fault; exit 1; }
}
