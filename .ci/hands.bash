# shellcheck shell=bash
# For .ci/peers, which sources this: players who share a piece, by ./perform --hands and ./perform --join.

# The players by the folders that they have: the keyboard and the process of each. Only this one is on stage.
declare -A typists=() peers=()
folder=.

# is_heard PORT: somebody listens at this TCP port
is_heard() {
    grep -q "$(printf ':%04X 0*:0000 0A ' "$1")" /proc/net/tcp /proc/net/tcp6
}

# turn_to FOLDER: from here on the player of this folder is on stage
turn_to() {
    typists[$folder]=${typed-} peers[$folder]=$peer
    folder=$1 typed=${typists[$1]-} peer=${peers[$1]-}
    mkdir -p "$work/$1" && cd "$work/$1"
}

# send_and_reset PORT: a connection, to which the standard input goes; at the end of that it is reset
send_and_reset() {
    exec timeout 120 python3 -c 'import os, socket, struct, sys
keys = socket.create_connection(("127.0.0.1", int(sys.argv[1])))
while data := os.read(0, 64):
    keys.send(data)
# An end that lingers for no time goes without a farewell.
keys.setsockopt(socket.SOL_SOCKET, socket.SO_LINGER, struct.pack("ii", 1, 0))
keys.close()' "$1"
}

# screen_of ROWS COLUMNS: what a terminal of this size shows that was sent the file seen, row by row. It knows what the
# program paints: places, styles and printable characters; what else a terminal is asked for, it passes over.
screen_of() {
    python3 -c 'import re, sys
rows, columns = map(int, sys.argv[1:])
screen, y, x = [[" "] * columns for _ in range(rows)], 0, 0
for place, glyph in re.findall(r"\x1b\[([0-9;?]*[A-Za-z])|([ -~])", open("seen", encoding="latin-1").read()):
    if place.endswith("H"):
        y, x = (int(number) - 1 for number in (place[:-1] or "1;1").split(";"))
    elif glyph and y < rows and x < columns:
        screen[y][x] = glyph
        x += 1
print("\n".join(map("".join, screen)))' "$1" "$2" 2>/dev/null
}

# shows ROWS COLUMNS PATTERN STATUS: the first row of that terminal begins so, and its status line has this
shows() {
    local screen
    mapfile -t screen < <(screen_of "$1" "$2")
    # shellcheck disable=SC2053 # a pattern
    [[ ${screen[0]-} == $3* && ${screen[$(($1 - 1))]-} == *"$4"* ]]
}

# saves TEXT: the key Save of the first player saves a grid that begins with this text
saves() {
    printf '\x13' >&"${typists[first]}"
    sleep 0.05
    [ "$(head -c ${#1} "$work/first/saved")" = "$1" ]
}

# a grid of three rows of four dots
rows_of_dots() {
    printf '....\n%.0s' 1 2 3
}

# first_plays WORD..: the first player begins with these words and the piece that $grid prints, and waits for the others at
# $port
first_plays() {
    choose_port tcp
    turn_to first
    rm -f saved script
    ${grid:-rows_of_dots} >piece
    on_stage piece --at "127.0.0.1:$port" --bpm 999 --save saved --script script "$@"
    await_text seen "perform --join 127.0.0.1:$port"
    within 60 is_heard "$port" || fails "nobody listens at $port"
}

# second_joins: the second player joins
second_joins() {
    turn_to second
    on_stage --join "127.0.0.1:$port"
    await_text seen "waiting for the picture of 127.0.0.1:$port; Ctrl-Q leaves"
}

# Eight hands play one piece: at the first terminal, at another one by --join, over a connection that is reset in the middle,
# and over five that send nothing. A ninth is not waited for. All that was typed is saved.
try_hands() {
    local resetting third hand hands=()
    first_plays --hands 8
    await_text seen 'waiting for 7 more'
    await_text seen 'Nothing is encrypted, and anybody who reaches this address may join.'
    # What is typed before all are there is not for the piece.
    printf 6 >&"$typed"
    second_joins
    mkfifo orders
    send_and_reset "$port" <orders &
    resetting=$!
    exec {third}>orders
    for hand in 3 4 5 6 7; do
        exec {hand}>"/dev/tcp/127.0.0.1/$port"
        hands+=("$hand")
    done
    printf '\e[C8' >&"$typed"
    printf '\e[C\e[C9' >&"$third"
    turn_to first
    await_text seen ' play '
    type_glyph 7
    within 60 saves 789. || fails "three hands write: $(cat saved)"
    say_by_perform 125 "--at says where others join: how many, --hands says" --at "127.0.0.1:$port" piece
    exec {third}>&-
    wait "$resetting" || fails "there is no connection to be reset"
    printf '\e[B1' >&"$typed"
    turn_to second
    # The second of these keys is the first player's.
    printf '\e[B2 ' >&"$typed"
    within 60 saves $'789.\n12' || fails "after a reset the others write: $(cat ../first/saved)"
    end_stage 0
    await_text seen "perform: 127.0.0.1:$port: the connection has ended"
    turn_to first
    printf '\e[B' >&"$typed"
    type_glyph 3
    plays_on seen 5 "a hand left"
    end_stage 0
    await_text seen 'perform: piece: hand 1 refused LeaderOnly'
    for hand in "${hands[@]}"; do exec {hand}>&-; done
    printf '%s\n' 789. 12.. 3... | cmp - saved && "$built" replay piece script | sed '/ /d' | cmp - saved ||
        fails "eight hands save another grid: $(cat saved)"
    turn_to .
    echo "peers: eight hands play one piece, of which one is reset and one leaves"
}

# Two players see the piece in terminals of two sizes, each with its own cursor. The keys of one come in pieces. It stands
# still for ten seconds, and the other plays on; then its picture is whole again. It leaves, and the first one plays on.
try_views() {
    local before part
    prelude='stty rows 24 cols 80' first_plays --hands 2
    prelude='stty rows 6 cols 30' second_joins
    for part in '\e' '[' 'C' 8; do printf %b "$part" >&"$typed" && sleep 0.1; done
    within 60 shows 6 30 "?8.." ' 0,1 1x1 play 999' || fails "the second player sees: $(screen_of 6 30)"
    turn_to first
    within 60 shows 24 80 "?8.." ' 0,0 1x1 play 999' || fails "the first player sees: $(screen_of 24 80)"
    say_by_perform 125 "nobody is waited for at 127.0.0.1:$port, or all have joined: the first player types $top/perform PIECE --hands 2" \
        --join "127.0.0.1:$port"
    kill -STOP "$(pgrep -P "${peers[second]}" script)"
    before=$(tick_in seen)
    type_glyph 7
    sleep 10
    [ "$(tick_in seen)" -gt $((before + 300)) ] ||
        fails "a player who stands still holds the other up: from $before to $(tick_in seen)"
    kill -CONT "$(pgrep -P "${peers[second]}" script)"
    turn_to second
    within 60 shows 6 30 78.. ' 0,1 1x1 play 999' || fails "a player who stood still sees: $(screen_of 6 30)"
    printf '\e[B9' >&"$typed"
    within 60 eval 'screen_of 6 30 | sed -n 2p | grep -q "^\.9\.\."' || fails "a player who stood still types: $(screen_of 6 30)"
    end_stage 0
    turn_to first
    plays_on seen 5 "a player left"
    shows 24 80 78.. ' 0,0 1x1 play 999' || fails "the first player sees at last: $(screen_of 24 80)"
    end_stage 0
    turn_to .
    echo "peers: each player sees a picture of his own, and one who stands still holds nobody up"
}

# slow_line PORT SLOW: whoever connects to the port SLOW is joined to PORT. His keys go at once, and what comes back at 20
# kilobytes a second.
slow_line() {
    exec timeout 120 python3 -c 'import select, socket, sys, time
port, slow = map(int, sys.argv[1:])
listener = socket.create_server(("127.0.0.1", slow))
player = listener.accept()[0]
host = socket.socket()
host.setsockopt(socket.SOL_SOCKET, socket.SO_RCVBUF, 8192)
host.connect(("127.0.0.1", port))
rested = time.monotonic()
while True:
    may_read = time.monotonic() - rested >= 0.05
    for peer in select.select([player, host] if may_read else [player], [], [], 0.05)[0]:
        data = peer.recv(1000)
        if not data:
            sys.exit()
        (host if peer is player else player).sendall(data)
        if peer is host:
            rested = time.monotonic()' "$1" "$2" 2>/dev/null
}

# The second player comes by a line that is slower than what is painted for him. The first one plays on, and once it pauses,
# the second one sees the same, with Ctrl-L for what he has missed.
try_slow_line() {
    local before first slow
    grid='clocks 2' prelude='stty rows 24 cols 80' first_plays --hands 2
    first=$port
    choose_port tcp
    slow_line "$first" "$port" &
    slow=$!
    within 60 is_heard "$port" || fails "there is no slow line"
    prelude='stty rows 24 cols 80' second_joins
    turn_to first
    await_text seen ' play '
    before=$(tick_in seen)
    sleep 5
    [ "$(tick_in seen)" -gt $((${before:-0} + 150)) ] || fails "a slow line holds the first player up: from $before to $(tick_in seen)"
    printf ' ' >&"$typed"
    await_text seen ' pause '
    sleep 1
    screen_of 24 80 | head -n 4 >../wanted
    turn_to second
    printf '\x0c' >&"$typed"
    within 60 eval 'screen_of 24 80 | head -n 4 | cmp -s - ../wanted' || fails "the second player sees: $(screen_of 24 80)"
    end_stage 0
    turn_to first
    end_stage 0
    turn_to .
    kill "$slow" 2>/dev/null || true
    wait "$slow" 2>/dev/null || true
    echo "peers: a player at a slow line sees the piece in the end, and nobody waits for him"
}

# Nobody joins: Ctrl-Q ends that, and leaves nothing. An address that is taken is told. One hand waits for nobody. Signals
# end the first player and those who join. Each terminal is as it was.
try_joining() {
    local begin signal
    first_plays --hands 2
    turn_to second
    printf '....\n' >piece
    say_by_perform 125 "--at 127.0.0.1:$port: another program listens at the port $port" piece --hands 2 --at "127.0.0.1:$port"
    turn_to first
    end_stage 7
    ! has_room piece && [ ! -e saved ] || fails "a performance that nobody joined leaves something"
    on_stage piece --hands 1 --bpm 1
    await_text seen ' play '
    end_stage 0
    first_plays --hands 2
    second_joins
    turn_to first
    await_text seen ' play '
    type_glyph 7
    # A text has begun, and its end never comes.
    printf '\e[200~8' >&"$typed"
    await_text seen ' paste '
    begin=$(now)
    kill -TERM "$(cat pid)"
    await_stage 143
    [ $(($(cat ended) - begin)) -le 2000 ] && [ "$(head -c 1 saved)" = 7 ] && grep -q '^write 0 0 7$' script ||
        fails "a signal to the first player loses what was typed, or takes $(($(cat ended) - begin)) milliseconds"
    turn_to second
    await_stage 0
    first_plays --hands 8
    for signal in HUP/129 TERM/143 KILL/137; do
        second_joins
        kill "-${signal%/*}" "$(cat pid)"
        await_stage "${signal#*/}"
    done
    turn_to first
    end_stage 7
    turn_to .
    echo "peers: whoever leaves, each terminal is as it was"
}

# close_window: the terminal of the one on stage is closed
close_window() {
    {
        pkill -KILL -P "$peer" script
        wait "$peer" || true
    } 2>/dev/null
    peer='' && exec {typed}>&-
}

# leaves_nothing: no process of the first player's is there, and nobody listens
leaves_nothing() {
    ! is_heard "$port" && ! pgrep -f "^$(readlink -f "$built") jam.*piece" && ! kill -0 "$(cat "$work/first/pid")"
} >/dev/null

# The window of the first player is closed, or the script or the keeper is killed, while others are waited for or while they
# play: the performance ends for all.
try_closed_windows() {
    local turn target state
    for state in waiting playing; do
        for target in window window window window window script keeper; do
            first_plays --hands 2
            [ "$state" = waiting ] || { second_joins && turn_to first && await_text seen ' play ' && type_glyph 7; }
            case $target in
                window) close_window ;;
                script) kill -KILL "$(cat pid)" ;;
                keeper) kill -KILL "$(keeper_of "$(cat pid)")" ;;
            esac
            within 10 leaves_nothing || fails "a performance whose $target has gone ($state) goes on"
            [ -z "$peer" ] || { wait "$peer" || true; peer='' && exec {typed}>&-; }
            [ "$state" = waiting ] || { [ "$(head -c 1 saved)" = 7 ] && turn_to second && await_stage 0; }
        done
    done
    turn_to .
    echo "peers: where the first player's window is closed, the performance ends for all"
}

# The keeper or the script of one who joined is killed: none of his processes stays.
try_gone_player() {
    local target
    for target in keeper script; do
        first_plays --hands 2
        second_joins
        turn_to first
        await_text seen ' play '
        turn_to second
        pgrep -P "$(pgrep -d , -P "$(cat pid)")" >children
        case $target in
            keeper) kill -KILL "$(keeper_of "$(cat pid)")" ;;
            script) kill -KILL "$(cat pid)" ;;
        esac
        await_stage 137
        within 10 eval '! ps -o pid= -p "$(paste -sd , children)" >/dev/null' || fails "a player whose $target was killed leaves processes"
        turn_to first
        end_stage 0
    done
    turn_to .
    echo "peers: a player who is killed leaves no process"
}

# What is no player comes by HTTP, while one is waited for and while it plays: nothing is typed, and no place is taken.
try_web() {
    local state
    first_plays --hands 2
    for state in waiting playing; do
        timeout 10 curl -s -o text -d hello=world "http://127.0.0.1:$port/x" || true
        timeout 10 curl -s -o text -X OPTIONS "http://127.0.0.1:$port/x" || true
        (printf 'POST / HTTP/1.0\r\nContent-Type: text/plain\r\n\r\n\e[B\e[BPWNED\x01\x7f' >"/dev/tcp/127.0.0.1/$port") 2>/dev/null || true
        [ "$state" = playing ] || { second_joins && await_text seen ' play ' && turn_to first && type_glyph 7; }
    done
    end_stage 0
    printf '!orca 2 seed 1\nwrite 0 0 7\n' | cmp - <(grep -v '^frame' script) || fails "a browser has typed: $(cat script)"
    turn_to second
    await_stage 0
    turn_to .
    echo "peers: a browser takes no place, and types nothing"
}

# One hand has keys refused again and again: each rule is told once, with a number, and after the room.
try_refused_hand() {
    first_plays --hands 2
    exec {typed2}<>"/dev/tcp/127.0.0.1/$port"
    await_text seen ' play '
    type_glyph 7
    printf '\x13\x1a%.0s' {1..500} >&"$typed2"
    plays_on seen 5 "keys are refused"
    end_stage 0
    exec {typed2}>&-
    tr -d '\r' <seen | grep -aoE 'perform: piece: hand 1 refused .*' >refused
    printf 'perform: piece: hand 1 refused %s, 500 times\n' LeaderOnly 'NotYours 0' | cmp - refused ||
        fails "refused keys are told as: $(head -n 5 refused)"
    turn_to .
    echo "peers: refused keys are told once for each rule"
}
