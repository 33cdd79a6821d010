# Read by what looks at the released program: release/ has the program as the gate built it, and a record of the sources
# that it was built from, of its own checksum, and of the toolchain. Where a look finds a fault, `why` says it.

released=$here/release/skk-x86_64-linux
record=$here/release/record

# What the record says of something.
recorded() {
    sed -n "s/^$1 //p" "$record"
}

# Whether the released program was built from the sources as they stand.
is_recorded() {
    if [ ! -f "$record" ] || [ ! -f "$released" ]; then
        why='there is no released program'
    elif [ "$(recorded sources)  -" != "$("$here/.ci/sum-of-sources")" ]; then
        why='the released program is of other sources'
    else
        return 0
    fi
    return 1
}

# Whether a file is the released program, to the byte.
is_whole() {
    [ "$(recorded sha256)  -" = "$(sha256sum <"$1")" ] && return
    why="$1 was changed: its sha256 is not the recorded one"
    return 1
}

# Whether a program runs on this machine: without words it has one line to say.
does_run() {
    if [ ! -x "$1" ]; then
        why="$1 may not be run"
    elif [ "$("$1" 2>&1 </dev/null)" != 'skk: words' ]; then
        why="$1 does not run on this machine: it needs $(recorded needs)"
    else
        return 0
    fi
    return 1
}
