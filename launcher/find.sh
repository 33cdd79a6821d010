# Read by the launcher and by ./install: finds the program that was proved from the sources as they stand. No other one
# is run. One that is built here is out/skk, and out/sources has the checksum of its sources.

. "$here/launcher/released.sh"
out=$here/out
built=$out/skk
proved=$out/sources # its time is when the sources were last seen to be those
seen=$out/released # its time is when the released program was last seen to be of the sources, and as it was recorded
looking=$out/looking.$$ # its time is when a look at the sources began

# Whether no source, nor what else is named, has changed since the file $1 was written. The time of a file's last change
# of any kind is asked, which no copy and no checkout sets back.
is_newest() {
    newest=$1
    shift
    [ -f "$newest" ] &&
        [ -z "$(find "$here/crates.txt" "$here"/crates/*/src "$here"/crates/*/specs "$here"/crates/*/proofs "$@" \
            -cnewer "$newest" -print -quit 2>/dev/null)" ]
}

is_current() {
    [ -x "$built" ] && is_newest "$proved"
}

# Whether the sources say what they said when the program was built, although a file has a newer time.
is_same() {
    [ -x "$built" ] && [ -f "$proved" ] && touch "$looking" 2>/dev/null || return 1
    same=''
    [ "$(cat "$proved")" != "$("$here/.ci/sum-of-sources")" ] || ! touch -r "$looking" "$proved" || same=yes
    rm "$looking"
    [ -n "$same" ]
}

# Whether the released program can be run as it stands. That it can is kept where out/ can be written; where not, it is
# looked for at every launch, which takes a third of a second.
is_released() {
    [ -x "$released" ] && is_newest "$seen" "$here/release" && return
    { mkdir -p "$out" && touch "$looking"; } 2>/dev/null
    if is_recorded && is_whole "$released" && does_run "$released"; then
        [ ! -f "$looking" ] || mv "$looking" "$seen" 2>/dev/null
        return 0
    fi
    rm -f "$looking" 2>/dev/null
    return 1
}

# Takes the lock under which one build at a time is made, and none beside the gate: who comes second waits, and finds it
# done. A failed redirection of `exec` would end a shell without a word; that of `command exec` only fails.
lock_builds() {
    if ! mkdir -p "$out" || ! { command exec 9>"$out/lock"; } 2>/dev/null; then
        tell "$out/lock can't be written, so nothing can be built"
        return 1
    fi
    if ! flock -n 9; then
        tell 'waiting for another launch that builds, or for the gate'
        flock 9
    fi
}

# Proves and builds the program where it is not there.
build_program() {
    if ! command -v rt >/dev/null; then
        tell "$why, and the command rt that would prove another one is not on the path: README.md (\"What it needs\")"
        return 1
    fi
    lock_builds || return 1
    if ! is_current && ! is_same; then
        tell "$why: another one is proved and built"
        . "$here/launcher/build.sh" && build || return 1
    fi
    exec 9>&-
}

# Finds the program, whose name is in `program` then.
find_program() {
    program=$built
    is_current && return
    program=$released
    is_released && return
    program=$built
    is_same || build_program
}

# Proves and builds the program from the sources as they stand, and says whether it is the released one.
prove_again() {
    if [ $# -ne 0 ]; then
        tell "usage: $called prove"
        exit 1
    fi
    lock_builds && . "$here/launcher/build.sh" && build || exit 125
    exec 9>&-
    if ! is_recorded; then
        echo "the program is proved and built; it is not compared: $why"
    elif cmp -s "$built" "$released"; then
        echo 'the program is proved and built, and is the released one'
    else
        echo 'the program is proved and built, and the released one is another'
        exit 1
    fi
}
