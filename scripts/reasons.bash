# shellcheck shell=bash
# For ./orca and ./perform, which source this: why a number, a port or an address will not do. Each of these
# functions leaves the reason in $why, which is empty where none is found.
why=

# The least and the most of each number. Beside them stand the constants of limits.rt (.ci/pages compares).
declare -A bounds=(
    [--number]='1 4294967295' [--seed]='0 4294967295' [FRAMES]='0 4294967295' [SEED]='0 4294967295'
    [--limit]='1 4000000' # MAX_HISTORY
    [--bpm]='1 999'       # MAX_BPM
    [--rows]='2 100'      # MIN_SCREEN_ROWS MAX_SCREEN_ROWS
    [--cols]='8 256'      # MIN_SCREEN_COLUMNS MAX_SCREEN_COLUMNS
    [--hands]='1 8'       # MAX_HANDS
    [HANDS]='1 8'         # MAX_HANDS
    [HEIGHT]='1 1024'     # MAX_ROWS
    [WIDTH]='1 1024'      # MAX_COLUMNS
)
# The most bytes of a file that is loaded.
most_bytes=16777216 # MAX_FILE_BYTES

# full_name NAME: then $full is what it names, from the root, with all links followed
full_name() {
    IFS= read -rd '' full < <(readlink -mz -- "$1")
}

# why_no_number WHAT TEXT
why_no_number() {
    local least most
    read -r least most <<<"${bounds[$1]}"
    why="a number from $least to $most is wanted"
    [[ ! $2 =~ ^[0-9]{1,10}$ ]] || ((10#$2 < least || 10#$2 > most)) || why=
}

# why_no_address ADDRESS: HOST:PORT. Then $host and $port are its parts. A name server may never answer.
why_no_address() {
    local pattern='^(\[[0-9A-Fa-f:.%]+\]|[^],:[[:space:]]+):([0-9]{1,5})$'
    why='an address is HOST:PORT, as in 127.0.0.1:9000'
    [[ $1 =~ $pattern ]] && ((10#${BASH_REMATCH[2]} >= 1 && 10#${BASH_REMATCH[2]} <= 65535)) || return 0
    host=${BASH_REMATCH[1]} port=${BASH_REMATCH[2]} why=
    host=${host//[][]/}
    ! command -v getent >/dev/null || timeout 3 getent ahosts "$host" >/dev/null ||
        why="there is no host $host"
}

# is_heard [ADDRESSES]: somebody listens for TCP at $port of 127.0.0.1, ::1 or all addresses, or else of these
is_heard() {
    local addresses='(0100007F|0{8}|0{24}01000000|0{32})'
    grep -qsE "$(printf ': %s:%04X [0-9A-F:]* 0A ' "${1-$addresses}" "$((10#$port))")" /proc/net/tcp{,6}
}
