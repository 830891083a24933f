# shellcheck shell=bash
# For .ci/peers, which sources this: what can go wrong around the program. A reader that dies or is slow, a save that is cut
# off, a closed output: the piece plays on, and its files are whole.

# crowd ROWS: a grid of so many rows of four instruments that play in each frame
crowd() {
    local row
    for ((row = 0; row < $1; row++)); do
        echo '.D1......D1......D1......D1.......'
        echo '..:03C82..:14E82..:25G82..:36A82..'
    done
}

# clocks ROWS: a grid of so many rows of clocks, whose picture changes everywhere in each frame
clocks() {
    local row
    for ((row = 0; row < $1; row++)); do
        printf '.C9%.0s' {1..26}
        printf '\n..\n'
    done
}

# frames_of SCRIPT: how many frames it plays; those in a row are one line
frames_of() {
    awk '$1 == "frame" { count++ } $1 == "frames" { count += $2 } END { print count + 0 }' "$1"
}

# tick_in FILE: the tick that the last whole status line shows
tick_in() {
    tail -c 50000 "$1" | grep -aoE '[0-9]+ [0-9]+ [0-9]+ [0-9]+,[0-9]+ [0-9]+x[0-9]+ (play|pause)' | tail -n 1 |
        cut -d ' ' -f 1
}

# has_played FILE TICK: the picture has come to this tick
has_played() {
    [ "$(tick_in "$1")" -ge "$2" ]
}

# plays_on FILE FRAMES WHAT: so many frames are played, one a second at least. That is little, since other work may keep
# the machine busy.
plays_on() {
    local before
    before=$(tick_in "$1")
    within "$2" has_played "$1" $((${before:-0} + $2)) ||
        fails "$3: the tick goes from $before to $(tick_in "$1") in $2 seconds"
}

# is_whole FILE: it holds whole messages of three bytes, the first of each a note that starts or ends
is_whole() {
    ! od -An -v -t x1 -w3 "$1" | grep -qv '^ [89][0-9a-f] [0-7][0-9a-f] [0-7][0-9a-f]$'
}

# has_bytes FILE COUNT: it has got so many bytes at least
has_bytes() {
    [ "$(stat -c %s "$1")" -ge "$2" ]
}

# has_lines FILE COUNT: it has got so many lines at least
has_lines() {
    [ "$(wc -l <"$1")" -ge "$2" ]
}

# now: the time in milliseconds
now() {
    date +%s%3N
}

# leave: the player types the key Quit, and the program ends within two seconds. Then $got is its status.
leave() {
    local begin
    begin=$(now)
    got=0
    printf '\x11' >&"$typed"
    exec {typed}>&-
    wait "$player" || got=$?
    player=
    [ $(($(now) - begin)) -le 2000 ] || fails "the program ends $(($(now) - begin)) milliseconds after the key Quit"
}

# fill_pipe: the pipe `synth` gets ends of notes, which are whole messages, until it has hardly any room
fill_pipe() {
    printf '\x80\x00\x00%.0s' {1..1024} >filler
    while dd if=filler of=synth bs=3072 oflag=nonblock conv=notrunc 2>/dev/null; do :; done
}

# The reader of a pipe that a shell keeps open is killed. The piece plays on, and the key Quit ends it and saves.
try_dead_reader() {
    local held
    rm -f synth saved script
    mkfifo synth
    exec {held}<>synth
    cat synth >/dev/null {held}>&- &
    peer=$!
    crowd 60 >crowded
    join crowded --bpm 999 --midi synth --save saved --script script
    plays_on view 30 "a piece begins"
    kill -KILL "$peer"
    wait "$peer" 2>/dev/null || true
    peer=
    fill_pipe
    plays_on view 120 "a synthesizer was killed"
    printf '7' >&"$typed"
    leave
    exec {held}>&-
    [ "$got" = 3 ] || fails "a performance whose synthesizer was killed ends with $got"
    [ "$(head -c 1 saved)" = 7 ] && [ -s script ] || fails "the grid was not saved after the synthesizer was killed"
    echo "peers: a synthesizer is killed, and the piece plays on to its frame $(frames_of script), and is saved"
}

# A reader goes with more to come than a pipe holds, so a send fails, and the run still comes to its end.
try_reader_that_goes() {
    rm -f synth
    mkfifo synth
    crowd 500 >crowded
    timeout 60 head -c 3 synth >got &
    peer=$!
    got=0
    timeout 120 "$program" run crowded 10 --midi synth >text 2>fault || got=$?
    wait "$peer" || fails "the reader did not end"
    peer=
    [ "$got" = 3 ] && printf 'output fault\n' | cmp -s - fault && has_bytes text 1 ||
        fails "a run whose reader goes ends with $got"
    echo "peers: a reader goes, and the run comes to its end"
}

# A reader goes, and another one comes. It gets whole messages, those that wait in the pipe and then new ones.
try_reader_that_returns() {
    local held
    rm -f synth got script
    mkfifo synth
    exec {held}<>synth
    crowd 60 >crowded
    join crowded --bpm 999 --midi synth --script script
    plays_on view 30 "a piece begins"
    fill_pipe
    plays_on view 60 "a pipe is full"
    # This takes what waits in the pipe.
    timeout 1 cat synth >/dev/null || true
    plays_on view 120 "a pipe was read away"
    cat synth >got {held}>&- &
    peer=$!
    # A pipe holds 65,536 bytes, so the others are new ones.
    within 60 has_bytes got 100000 || fails "a reader that came back gets nothing new"
    leave
    exec {held}>&-
    wait "$peer" || fails "the reader did not end"
    peer=
    is_whole got || fails "a reader that came back gets a message in part"
    echo "peers: a reader comes back, and gets $(stat -c %s got) bytes of whole messages"
}

# read_slowly PIPE FILE: reads the pipe into the file, page by page, and rests after each. It prints how often it found
# more than half of the pipe full. Once the file is there, it is ready.
read_slowly() {
    python3 -c 'import fcntl, os, select, struct, sys, termios, time
page, room, behind = 4096, 16384, 0
pipe = os.open(sys.argv[1], os.O_RDONLY | os.O_NONBLOCK)
fcntl.fcntl(pipe, 1031, room)  # F_SETPIPE_SZ
os.set_blocking(pipe, True)
with open(sys.argv[2], "wb") as file:
    select.select([pipe], [], [])
    while True:
        behind += struct.unpack("i", fcntl.ioctl(pipe, termios.FIONREAD, bytes(4)))[0] > room / 2
        data = os.read(pipe, page)
        if not data:
            break
        file.write(data)
        time.sleep(0.02)
print(behind)' "$1" "$2"
}

# A device that is slower than what comes: bursts of 2,000 notes fill the pipe again and again, and none is lost.
try_slow_reader() {
    rm -f synth slow
    mkfifo synth
    crowd 500 >crowded
    read_slowly synth slow >behind &
    peer=$!
    within 60 test -e slow || fails "there is no slow reader"
    got=0
    timeout 120 "$program" run crowded 10 --midi synth >text || got=$?
    wait "$peer" || fails "the slow reader fails"
    peer=
    [ "$got" = 0 ] || fails "a burst to a slow device ends with $got"
    [ "$(cat behind)" -ge 5 ] || fails "the slow device was fast enough"
    timeout 60 "$program" events crowded 10 >events
    # The lines of a large burst take bash long, so only the messages are counted here.
    [ "$(grep -c ' midi ' events)" = $(($(stat -c %s slow) / 3)) ] && is_whole slow || fails "a slow device loses notes"
    echo "peers: a slow device gets all of $(($(stat -c %s slow) / 3)) messages, though it was behind $(cat behind) times"
}

# stand_still FILE: a device, for which a terminal stands. It prints its name. At each line of its standard input, and at
# no other time, it reads what has come into the file, and prints a line.
stand_still() {
    exec python3 -c 'import os, select, sys, tty
master, slave = os.openpty()
tty.setraw(slave)
print(os.ttyname(slave), flush=True)
with open(sys.argv[1], "wb") as file:
    for line in sys.stdin:
        while select.select([master], [], [], 1)[0]:
            file.write(os.read(master, 65536))
        file.flush()
        print("read", flush=True)' "$1"
}

# A device gets the bytes of the MIDI messages. One that stands still holds nothing up, and has whole messages, but for
# the last one, of which it may have the first bytes.
try_device() {
    local name begin
    rm -f got word said
    mkfifo word
    (stand_still got <word >said) &
    peer=$!
    exec {typed}>word
    within 60 has_lines said 1 || fails "there is no device"
    name=$(head -n 1 said)
    timeout 60 "$program" run "$top/pieces/first.orca" 64 --midi "$name" >text
    echo >&"$typed"
    within 60 has_lines said 2 || fails "the device does not read"
    timeout 60 "$program" events "$top/pieces/first.orca" 64 | bytes_of midi >wanted
    cmp wanted got || fails "a device gets other bytes"
    crowd 500 >crowded
    got=0
    begin=$(now)
    timeout 60 "$program" run crowded 10 --midi "$name" >text 2>fault || got=$?
    [ "$got" = 3 ] && [ $(($(now) - begin)) -le 10000 ] || fails "a run to a device that stands still ends with $got"
    echo >&"$typed"
    within 60 has_lines said 3 || fails "the device does not read"
    exec {typed}>&-
    wait "$peer" || fails "the device fails"
    peer=
    tail -c +$(($(stat -c %s wanted) + 1)) got >rest
    head -c $(($(stat -c %s rest) / 3 * 3)) rest >whole
    is_whole whole && has_bytes whole 1000 || fails "a device that stands still gets a message in part"
    echo "peers: a device gets its bytes, and one that stands still has room for $(($(stat -c %s whole) / 3)) messages"
}

# A save to a pipe writes to whoever reads it. If nobody does it fails, and neither the piece nor its end waits.
try_save_to_pipe() {
    rm -f fifo script saved
    mkfifo fifo
    crowd 1 >crowded
    join crowded --bpm 999 --save fifo --script script
    plays_on view 10 "a piece begins"
    printf '7\x13' >&"$typed"
    plays_on view 60 "a grid is saved to a pipe that nobody reads"
    leave
    [ "$got" = 4 ] && grep -q '^write 0 0 7$' script || fails "a save that nobody reads ends with $got"
    cat fifo >saved &
    peer=$!
    join crowded --bpm 1 --save fifo
    printf '7' >&"$typed"
    leave
    wait "$peer"
    peer=
    [ "$got" = 0 ] && sed '1s/./7/' crowded | cmp - saved || fails "a save to a pipe ends with $got"
    echo "peers: a save to a pipe goes to its reader, and fails where there is none"
}

# What is shown, a synthesizer and a pipe for the grid all stand still. The piece plays on, and its end comes in time.
try_all_stuck() {
    local held screen
    rm -f synth fifo view script
    mkfifo synth fifo view
    exec {held}<>synth {screen}<>view
    fill_pipe
    { crowd 10 && clocks 10; } >crowded
    join crowded --bpm 999 --midi synth --save fifo --script script
    printf '7' >&"$typed"
    sleep 3
    leave
    exec {held}>&- {screen}>&-
    rm view
    [ "$got" = 4 ] && grep -q '^write 0 0 7$' script && [ "$(frames_of script)" -ge 10 ] ||
        fails "a piece around which all stands still ends with $got, after $(frames_of script) frames"
    echo "peers: all stands still, and the piece plays on to its frame $(frames_of script), and ends in time"
}

# A folder `killed` with an empty piece of the largest size, which stands in the file `blank` too.
make_blank() {
    rm -rf killed
    mkdir killed
    yes "$(head -c 256 /dev/zero | tr '\0' .)" | head -n 256 >blank
    cp blank killed/piece
}

# A program that writes more than it may is killed in the middle of a save. The piece is as it was.
try_stopped_save() {
    make_blank
    ulimit -S -c 0 -f 32
    join killed/piece --bpm 1 --rows 2 --cols 8
    ulimit -S -f unlimited
    printf '7\x13' >&"$typed"
    got=0
    wait "$player" 2>/dev/null || got=$?
    player=
    exec {typed}>&-
    [ "$got" -ge 128 ] || [ "$got" = 4 ] || fails "a save of more bytes than a file may have ends with $got"
    cmp killed/piece blank || fails "a save that is cut off changes the piece"
    echo "peers: a program is stopped in the middle of a save, and the piece is as it was"
}

# A program is killed while it saves again and again. The piece is always whole.
try_killed_save() {
    local turn strays=0 row killed
    for ((turn = 0; turn < 10; turn++)); do
        make_blank
        join killed/piece --bpm 1 --rows 2 --cols 8
        for ((row = 0; row < 200; row++)); do printf '7\e[C\x13'; done >&"$typed"
        sleep "0.0$((RANDOM % 10))$((RANDOM % 10))"
        {
            killed=$(pgrep -P "$player") && kill -KILL "$killed" || true
            kill -KILL "$player" || true
            wait "$player" || true
        } 2>/dev/null
        # It may still be in the middle of a call.
        [ -z "$killed" ] || timeout 60 tail --pid="$killed" -f -s 0.01 /dev/null
        player=
        exec {typed}>&-
        [ "$(sed 's/^7*//; s/^\.*$//' killed/piece | sort -u)" = "" ] && [ "$(stat -c %s killed/piece)" = "$(stat -c %s blank)" ] ||
            fails "a program that was killed while it saved leaves a part of the piece"
        strays=$((strays + $(ls killed | wc -l) - 1))
    done
    [ "$strays" = 0 ] || echo "peers: $strays of 10 killed saves leave a file of their own"
    echo "peers: a program is killed while it saves, and the piece is whole"
}

# With standard input, output or error closed no file and no port takes their numbers.
try_closed() {
    local closed
    printf 'D4......\n.:03Cf2.\n' >kick
    printf '\x90\x24\x77\x80\x24\x00\x90\x24\x77\x80\x24\x00' >wanted
    for closed in '<&-' '>&-' '2>&-' '<&- >&-' '<&- 2>&-' '>&- 2>&-' '<&- >&- 2>&-'; do
        rm -f midi saved script
        got=0
        eval 'timeout 60 "$program" run kick 5 --midi midi </dev/null >text 2>fault' "$closed" || got=$?
        [ "$got" = 0 ] || [ "$got" = 3 ] || fails "a run with $closed ends with $got"
        cmp midi wanted || fails "a run with $closed writes something else to its port"
        choose_port tcp
        eval 'timeout 120 "$program" play kick "127.0.0.1:$port" --bpm 1 --midi midi --save saved --script script </dev/null >text 2>fault' "$closed" '&'
        player=$!
        within 60 connect "$port" || fails "a performance with $closed does not listen"
        printf 'D\x06' >&"$typed"
        leave
        head -c 6 wanted | cmp - midi || fails "a performance with $closed writes something else to its port"
        printf '!orca 2 seed 1\nwrite 0 0 D\nframe\n' | cmp - script || fails "a performance with $closed saves no script"
    done
    echo "peers: with closed input, output and error nothing takes their numbers"
}

# A connection that is reset ends the performance: what was typed before is done, and saved.
try_reset() {
    printf '....\n' >reset_piece
    choose_port tcp
    timeout 60 "$program" play reset_piece "127.0.0.1:$port" --bpm 1 --save reset_saved >view 2>fault </dev/null &
    player=$!
    timeout 60 python3 -c 'import socket, struct, sys, time
while True:
    try:
        keys = socket.create_connection(("127.0.0.1", int(sys.argv[1])))
        break
    except ConnectionRefusedError:
        time.sleep(0.05)
keys.send(b"7")
while sys.argv[2].encode() not in open("view", "rb").read():
    time.sleep(0.05)
# An end that lingers for no time goes without a farewell.
keys.setsockopt(socket.SOL_SOCKET, socket.SO_LINGER, struct.pack("ii", 1, 0))
keys.close()' "$port" "$(cursor_on 7)" || fails "what is typed before a reset is not seen"
    await 7 $'inbox fault\n'
    printf '7...\n' | cmp - reset_saved
    echo "peers: a connection that is reset ends the performance, and the piece is saved"
}
