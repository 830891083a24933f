# shellcheck shell=bash
# For ./orca, ./perform and scripts/pack, which source this first. Then $top is the folder that they lie in,
# and $program the program: the one that was installed with them, or that of this checkout.
set -euE +f +o posix
trap 'exit 125' ERR
unset CDPATH POSIXLY_CORRECT
# The number of a closed input, output or error would be given to the next file that is opened.
{ : 9<&0; } 2>/dev/null || exec </dev/null
{ : 9>&1; } 2>/dev/null || exec >/dev/null
{ : 9>&2; } 2>/dev/null || exec 2>/dev/null
# A file that may not grow any more is a save that failed.
trap '' XFSZ

# The version, as in CHANGELOG.md, and the toolchain that the proofs are checked by, as `rt version` tells it.
version=1.0
kit='rattle-kit-13b logic dac8208d650f15bf'
# An installed copy may have longer names.
called=${0##*/}

# A line for the user, who may have gone. A name may have bytes that would ask the terminal for something.
say() {
    local line="$called: $*"
    printf '%s\n' "${line//[[:cntrl:]]/?}" >&2 || true
}

fails() {
    say "$*"
    exit 125
}

wants() {
    local tool
    for tool; do
        command -v "$tool" >/dev/null || fails "the command $tool isn't on the path: install it"
    done
}

# Where the words ask for help or for the version, that is said, and all is done.
tell_about() {
    local word
    for word; do
        case $word in
            --) return ;;
            --version) echo "orca $version, whose proofs are checked by $kit" && exit ;;
            -h | --help)
                printf '%s\n' "usage: $(usage)" "All words, options, keys and statuses: $manual"
                exit
                ;;
        esac
    done
}

((BASH_VERSINFO[0] * 100 + BASH_VERSINFO[1] >= 404)) ||
    fails "bash 4.4 or later is needed, and this is $BASH_VERSION"
# Where few files are allowed, bash ends without a word.
most=$(ulimit -n)
[[ $most == unlimited || $most -ge 16 ]] ||
    fails "only $most files are allowed at once: at least 16 are wanted (ulimit)"
wants readlink find
top=$(readlink -f "${BASH_SOURCE[0]%/*}/..")
program=$top/program
manual="man $called, and the pages in ${top%/lib/*}/share/doc"
build_in_turn() { [ "${1-}" != --prove ] || fails "this is no checkout, and has no sources to be proved"; }
[ -e "$program" ] || source "$top/scripts/build.bash"
