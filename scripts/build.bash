# shellcheck shell=bash
# For a checkout, where scripts/base.bash sources this: if the program isn't built, or its sources changed,
# that of dist/ is taken, where it is made from exactly these, or else it is proved and built. A program that
# the gate has built is used as it stands.
manual="$top/README.md and $top/docs/COMMANDS.md"
out=$top/crates/orca/out
program=$out/orca
# The moment at which the last build that passed had begun: the one below, or the gate's (.ci/run).
mark=$out/orca.begun
log=$out/orca.log
# The program that scripts/pack has put there, and the mark that the one above is that.
packed=$top/dist/orca.gz
unpacked=$out/orca.unpacked

# The built program is newer than every source that it is made from.
is_built() {
    [ -x "$program" ] && [ -e "$mark" ] && [ -z "$(cd "$top" &&
        find crates.txt crates/*/{src,specs,proofs} -newer "$mark" -print -quit 2>/dev/null)" ]
}

# What the program is made from: the crates below it. In crates.txt each stands after those that it uses.
list_sources() {
    echo crates.txt
    tac "$top/crates.txt" | awk -F : '
        BEGIN { wanted["orca"] }
        { sub(/#.*/, "") }
        $1 in wanted {
            print "crates/" $1
            count = split($2, below, " ")
            while (count) wanted[below[count--]]
        }'
}

# One sum for all of these, and for the toolchain.
sum_of_sources() {
    local sources sums
    mapfile -t sources < <(list_sources)
    sums=$(cd "$top" && find "${sources[@]}" -type f -regex '.*\.txt\|crates/[^/]*/\(src\|specs\|proofs\)/.*' \
        -print0 | LC_ALL=C sort -z | xargs -0 sha256sum)
    sha256sum <<<"$kit"$'\n'"$sums" | cut -d ' ' -f 1
}

# told NAME: what dist/PROVED says of this
told() { sed -n "s/^$1 //p" "$top/dist/PROVED" 2>/dev/null; }

# Takes the program of dist/, unless one was built here, and says so; or why it will not do.
unpack() {
    local why='it cannot be unpacked' first=$top/pieces/first.orca
    [ -e "$packed" ] && { [ ! -e "$program" ] || [ -e "$unpacked" ]; } || return
    wants awk chmod cut gzip sed sha256sum sort tac xargs
    touch "$mark.new"
    if [ "$(sum_of_sources)" != "$(told sources)" ]; then
        why='it is made from other sources'
    elif [ "$(sha256sum <"$packed")" != "$(told packed)  -" ]; then
        why='it is cut off or changed'
    elif gzip -dc "$packed" >"$program.new" && chmod +x "$program.new" &&
        why=$("$program.new" run "$first" 0 2>&1 >/dev/null); then
        [ -e "$unpacked" ] || say "this is the program of dist/, proved and built from exactly these" \
            "sources; $top/orca --prove proves and builds it here instead"
        mv -f "$program.new" "$program" && touch "$unpacked" && mv -f "$mark.new" "$mark" && return
    fi
    rm -f "$program.new"
    why=${why%%$'\n'*} why=${why##*: }
    say "the program of dist/ will not do: ${why:-it does not run}"
    return 1
}

# The toolchain is here, or another one of the same logic.
look_at_kit() {
    local found
    command -v rt >/dev/null || fails "the program isn't built, and the toolchain's command rt isn't on the" \
        "path: put the rt of ${kit%% *} there"
    found=$(rt version 2>/dev/null </dev/null) || true
    [[ $found == rattle-kit-*" ${kit#* }" ]] || fails "the command rt on the path is of ${found%%$'\n'*}," \
        "and the proofs are for $kit: put its rt first on the path"
}

tell_failure() {
    tail -n 20 "$log" >&2
    fails "it could not be proved and built; run this again, and what was proved is kept. The log is $log"
}

# First the libraries are proved, side by side; if this kit cannot, rt does so in turn below.
build() {
    look_at_kit
    wants python3 tail
    say "proving and building the program; lines tell how far that is, and README.md how long it takes"
    [ ! -e "$unpacked" ] || rm -f "$program" "$unpacked"
    touch "$mark.new"
    python3 "$top/scripts/prove.py" "$(command -v rt)" </dev/null >"$log" || [ $? = 2 ] || tell_failure
    say "now the program itself"
    # The command rt ends with the status of the program, so it is given a run that succeeds.
    (cd "$top/crates/orca" && rt run -- run "$top/pieces/first.orca" 0) </dev/null >>"$log" 2>&1 ||
        tell_failure
    mv "$mark.new" "$mark"
}

# build_in_turn [--prove]: builds the program if that is wanted, with this word also where it is that of dist/.
# Of several that want it at once one builds, and the others wait.
build_in_turn() {
    local lock
    if [ "${1-}" = --prove ]; then
        look_at_kit
        packed=
        [ ! -e "$unpacked" ] || rm -f "$program" "$unpacked"
    fi
    ! is_built || return 0
    [ -e "$packed" ] || look_at_kit
    wants flock mkdir mv rm touch
    { mkdir -p "$out" && : >"$log"; } 2>/dev/null ||
        fails "nothing can be written in $out: copy all of this to where that can be done"
    exec {lock}<"$top/orca"
    flock -n "$lock" || say "another orca is proving and building the program; this one waits for it"
    # A file system without locks gives none, and then nobody is waited for.
    flock "$lock" || true
    is_built || unpack || build
    exec {lock}<&-
}
