# Read by the launcher, which holds the lock then: proves the crates that the program stands on, and builds it.
#
# Crates that do not stand on each other are proved side by side. rt keeps every other command out of the folder of a
# crate and of all below it, so each crate is proved in a copy of the sources, which is taken away afterwards. What rt
# keeps of a crate lies in the crate's own out/ before and after: it is moved into the copy and back.

copies=$out/copies
sources=$copies/sources # the sources as they stood when the build began: all copies are made from it
logs=$out/logs # the log of each crate

# Copies all that rt reads, and what makes the checksum.
copy_sources() {
    mkdir -p "$sources/crates" && cp -R "$here/.ci" "$here/crates.txt" "$here/HANDLES" "$sources/" || return 1
    for folder in "$here"/crates/*/; do
        folder=${folder%/}
        mkdir "$sources/crates/${folder##*/}" || return 1
        for it in "$folder"/*; do
            case $it in
                */out | */must-fail) ;;
                *) cp -R "$it" "$sources/crates/${folder##*/}/" || return 1 ;;
            esac
        done
    done
}

# A line for each crate that the program stands on, and for its own: the name, how much there is to do, by the bytes of
# its sources, how much in the longest chain of crates from it up to the program, and the crates that it stands on. The
# longest chain is first, so that each crate comes behind those that it stands on. With its own crate the whole program
# is built, which takes about a fifteenth of the time of all proofs.
plan() {
    for folder in "$sources"/crates/*; do
        echo "${folder##*/} $(($(find "$folder" -type f -exec cat {} + | wc -c) + 5000))"
    done | awk '
        function visit(name, above, depth, count, at, deps) {
            if (!(name in below) || depth > 99 || above + work[name] <= chain[name]) return
            chain[name] = above + work[name]
            count = split(below[name], deps, " ")
            for (at = 1; at <= count; at++) visit(deps[at], chain[name], depth + 1)
        }
        FNR == NR { work[$1] = $2; all += $2; next }
        { sub(/#.*/, "") }
        /:/ { split($0, part, ":"); split(part[1], word, " "); below[word[1]] = part[2] }
        END {
            work["skk"] += int(all / 15)
            visit("skk", 0, 0)
            for (name in chain) {
                line = name " " work[name] " " chain[name]
                count = split(below[name], deps, " ")
                for (at = 1; at <= count; at++) if (deps[at] in below) line = line " " deps[at]
                print line
            }
        }' - "$sources/crates.txt" | sort -k 3,3nr
}

# How many crates may be proved at a time: one for each processor, and one for each 4 GB of free memory.
lanes() {
    awk -v most="$processors" '
        /^MemAvailable:/ { fit = int($2 / 4000000) }
        END { print fit < 1 ? 1 : fit < most ? fit : most }' /proc/meminfo
}

# The crates that are not begun and stand on none that is not proved.
ready() {
    echo "$plan" | while read -r name _ _ deps; do
        case $begun in *" $name "*) continue ;; esac
        for dep in $deps; do
            case $ended in *" $dep "*) ;; *) continue 2 ;; esac
        done
        echo "$name"
    done
}

# Makes the copy for a crate, by links, and moves there what rt keeps of it.
make_copy() {
    cp -Rl "$sources" "$copies/$1" || return 1
    move_out "$here/crates/$1" "$copies/$1/crates/$1" "$here/crates/$1" || :
}

# Puts what was proved where others find it: a library beside the sources, with which it comes into the copies for the
# crates above it.
hand_on() {
    if [ "$1" = skk ]; then
        cp "$copies/skk/crates/skk/out/skk" "$copies/program"
    else
        mkdir "$sources/crates/$1/out" && cp -Rl "$copies/$1/crates/$1/out/rlib" "$sources/crates/$1/out/"
    fi
}

# Moves a crate's out/ from one folder to another, while no rt works in the third, which is one of them. Where one works
# there for long it is left: only time is lost then.
move_out() {
    # shellcheck disable=SC2016
    [ ! -d "$1/out" ] || flock -w 10 "$3" sh -c 'rm -rf "$2/out" && mv "$1/out" "$2/out"' move "$1" "$2"
}

# The crate that is first in the longest chain of what is left: the program can be there no sooner than its chain.
first() {
    echo "$plan" | while read -r name _; do
        case $ended in *" $name "*) ;; *) echo "$name" && break ;; esac
    done
}

# Proves a crate in its copy, in the background, and writes to the pipe that it ended, and how.
# The crate that is first in the longest chain has as many jobs as rt chooses. Each other has one, since every job reads
# all libraries anew, and gives way to it.
begin() {
    begun="$begun$1 "
    (
        stopped='' child=''
        trap 'stopped=yes; [ -z "$child" ] || kill "$child"' TERM HUP
        status=1
        if command exec 2>"$logs/$1" && make_copy "$1" && [ -z "$stopped" ]; then
            give_way='nice -n 10' jobs='--jobs 1'
            [ "$1" != "$2" ] || give_way='' jobs=''
            how="lib $jobs"
            [ "$1" != skk ] || how="run $jobs -- type"
            # shellcheck disable=SC2086
            (cd "$copies/$1/crates/$1" && exec $give_way rt $how) </dev/null >&2 8>&- &
            child=$!
            [ -z "$stopped" ] || kill "$child"
            wait "$child"
            status=$?
            [ -z "$stopped" ] || wait "$child"
        fi
        [ "$status" -ne 0 ] || hand_on "$1" || status=1
        move_out "$copies/$1/crates/$1" "$here/crates/$1" "$here/crates/$1"
        rm -rf "${copies:?}/$1"
        echo "$1 $status" >&8
    ) 9>&- &
    running="$running$1:$! "
}

# How long the rest may take: what is left of the longest chain, by the time that its part so far took.
time_left() {
    echo "$plan" | awk -v ended="$ended" -v seconds="$(($(date +%s) - since))" '
        NR == 1 { whole = $3 }
        !index(ended, " " $1 " ") { left = $3; exit }
        END {
            if (!left || (whole - left) * 10 < whole) exit
            left = left * seconds / (whole - left)
            if (left < 90) print ", about a minute"; else print ", some " int(left / 60 + 0.5) " minutes"
        }'
}

# Ends all that still runs, with what it started, and takes the copies away.
stop() {
    trap '' INT TERM HUP PIPE
    for it in $running; do
        kill "${it#*:}" 2>/dev/null
    done
    wait
    exec 8>&-
    rm -rf "$copies"
    trap - INT TERM HUP PIPE
}

# Proves the crates of the plan, each as soon as those that it stands on are proved.
prove() {
    left=$(echo "$plan" | wc -l)
    tell "proving $left crates, up to $lanes at a time"
    while [ "$left" -gt 0 ]; do
        first=$(first)
        for name in $(ready); do
            # shellcheck disable=SC2086
            [ "$(echo $running | wc -w)" -ge "$lanes" ] || begin "$name" "$first"
        done
        if [ "$running" = ' ' ]; then
            tell 'crates.txt leaves no crate to begin with: it has a circle, or no line of skk'
            return 1
        fi
        read -r name status <&8 || continue
        running=$(echo "$running" | sed "s/ $name:[0-9]* / /")
        if [ "$status" -ne 0 ]; then
            grep -E '(: error|^error)|no proof:' "$logs/$name" | head -n 5 >&2
            tell "$name is not proved, so no program is run; the whole log is $logs/$name"
            return 1
        fi
        ended="$ended$name "
        left=$((left - 1))
        tell "$name is proved, $left left$(time_left)"
    done
}

# Proves the crates from the sources as they stand, and puts the program and their checksum in place.
make_program() {
    if ! mkdir -p "$logs" || ! copy_sources || ! mkfifo "$copies/ends" || ! command exec 8<>"$copies/ends"; then
        tell "the sources can't be copied into $copies"
        return 1
    fi
    started=$("$sources/.ci/sum-of-sources")
    plan=$(plan)
    processors=$(nproc)
    lanes=$(lanes)
    since=$(date +%s)
    prove && echo "$started" >"$out/looked" || return 1
    if [ "$started" != "$("$here/.ci/sum-of-sources")" ]; then
        tell 'a source changed while it was proved: start again'
        return 1
    fi
    mv "$copies/program" "$built" && mv "$out/looked" "$proved"
}

# Proves the crates and builds the program, which is taken away before.
build() {
    if ! rm -rf "$built" "$proved" "$copies" "$logs"; then
        tell "what an earlier build left in $out can't be taken away"
        return 1
    fi
    if ! command -v rt >/dev/null; then
        tell 'the command rt of the toolchain is not on the path: README.md says where it comes from ("What it needs")'
        return 1
    fi
    running=' ' begun=' ' ended=' '
    trap 'stop; exit 130' INT
    trap 'stop; exit 143' TERM
    trap 'stop; exit 129' HUP
    trap 'stop; exit 141' PIPE
    make_program
    made=$?
    stop
    return "$made"
}
