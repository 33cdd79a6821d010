# Read by the launcher where the program ended with a fault: says more of the cause, as far as the words and the files
# show it. Only plain files are looked at, which can be read again, and none is changed.

# A text as a line of a terminal can show it: without control characters, and not long.
shown() {
    printf '%s' "$1" | LC_ALL=C tr '\000-\037\177' '?' | LC_ALL=C cut -c 1-400 | iconv -c -f UTF-8 -t UTF-8 2>/dev/null
}

# A name as a shell reads it.
quoted() {
    case $1 in
        *[!A-Za-z0-9_./+-]*) printf "'%s'" "$(shown "$1" | sed "s/'/'\\\\''/g")" ;;
        *) printf '%s' "$1" ;;
    esac
}

# Calls $1 with the option and the name of each file that the words name, up to the first at which it fails. A word that
# stands without an option is the file of `check` or `import`, or one of `expr` where it is no sign: a dictionary.
each_file() {
    look=$1 of=$2
    shift 2
    while [ $# -gt 0 ]; do
        case $1 in
            --threads) ;;
            --*=*) "$look" "${1%%=*}" "${1#*=}" || return 1 ;;
            --*)
                "$look" "$1" "${2-}" || return 1
                [ $# -eq 1 ] || shift
                ;;
            *) [ "$of $1" = 'expr +' ] || [ "$of $1" = 'expr -' ] || "$look" --dict "$1" || return 1 ;;
        esac
        shift
    done
}

# Whether another run has a learned file: the lock on its first file, which covers both, is asked for without waiting,
# and let go at once.
is_locked() {
    [ -f "$1" ] || return 1
    (exec 8<"$1" && flock -s -n -E 75 8) 2>/dev/null
    [ $? -eq 75 ]
}

# Says why a file can't be read, where that shows, or why the first file of the learned one can't be made, or either of
# them can't be read or written. The second one is made by the program alone, when it is wanted.
look_for() {
    file=$(shown "$2")
    case $1 in
        --learned)
            case $2 in
                */*) folder=${2%/*}/ ;;
                *) folder=./ ;;
            esac
            if [ ! -d "$folder" ]; then
                tell_cause "there is no folder $(shown "$folder")"
            elif [ -d "$2" ]; then
                tell_cause "$file is a folder, and no file"
            elif [ ! -e "$2" ] && [ ! -w "$folder" ]; then
                tell_cause "$file can't be made: the folder $(shown "$folder") may not be written"
            elif [ -e "$2" ] && { [ ! -r "$2" ] || [ ! -w "$2" ]; }; then
                tell_cause "$file may not be read or written"
            elif [ -d "$2.2" ]; then
                tell_cause "$(shown "$2.2") is a folder, and no file"
            elif [ -e "$2.2" ] && { [ ! -r "$2.2" ] || [ ! -w "$2.2" ]; }; then
                tell_cause "$(shown "$2.2") may not be read or written"
            elif is_locked "$2"; then
                tell_cause "another run has the learned file $file"
            fi
            return
            ;;
        --dict | --rules) ;;
        *) return ;;
    esac
    if [ ! -e "$2" ]; then
        tell_cause "there is no file $file"
    elif [ -d "$2" ]; then
        tell_cause "$file is a folder, and no file"
    elif [ ! -r "$2" ]; then
        tell_cause "$file may not be read"
    fi
}

tell_cause() {
    found=yes
    tell "$1"
}

# Whether a file has no more bytes than $2 and is UTF-8. Where it is not UTF-8, it is said how it becomes so.
is_text() {
    [ "$(wc -c <"$1")" -le "$2" ] || return 1
    iconv -f UTF-8 -t UTF-8 "$1" >/dev/null 2>&1 && return 0
    name=${1##*/}
    case $name in
        *.gz) tell "$(shown "$1") is packed; this unpacks it: gunzip -c $(quoted "$1") >$(quoted "${name%.gz}")" ;;
        *)
            tell "$(shown "$1") is not UTF-8. If it is EUC-JP, this makes UTF-8 of it, in a file of this folder:"
            tell "iconv -f EUC-JP -t UTF-8 $(quoted "$1") >$(quoted "$name.utf8")"
            ;;
    esac
    return 1
}

tell_rule() {
    tell 'a rule has four fields between TABs: what is typed, what waits then, the hiragana and the katakana'
}

# Fails where a rule file is seen to be at fault, and says why.
look_at_rules() {
    [ "$1" = --rules ] || return 0
    rules=$2
    if [ ! -f "$2" ]; then
        hidden=yes
        return 0
    fi
    is_text "$2" 1048576 || return 1
    if LC_ALL=C awk -F '\t' '!/^#/ && !/^\r?$/ && NF != 4 { found = 1; exit } END { exit !found }' "$2"; then
        tell_rule
        return 1
    fi
}

# Fails where a dictionary is seen to be at fault, and says why.
look_at_dictionary() {
    [ "$1" = --dict ] || return 0
    if [ ! -f "$2" ]; then
        hidden=yes
        return 0
    fi
    is_text "$2" 67108864
}

# Looks for the fault of a rule file or a dictionary, in the order in which the program reads them. Where none is seen
# although all were looked at, a rule has one that only the program finds, or a line that `expr` was to print.
look_at_files() {
    rules='' hidden=''
    each_file look_at_rules "$@" && each_file look_at_dictionary "$@" || return 0
    [ -z "$hidden" ] || return 0
    [ -z "$rules" ] || tell_rule
    [ "$1" != expr ] || tell 'a line of what is left would have more than 65535 bytes, and is read by nothing'
}

# Says what a line of the script is to be. The line at fault is shown where standard input is a plain file that was read
# from its start: the program then finds the line once more.
look_at_script() {
    said=''
    if [ "$offset" = 0 ] && [ -f /dev/stdin ]; then
        said=$({ "$program" type 2>&1 >/dev/null </dev/stdin; } 2>/dev/null)
    fi
    line='' mark=$(printf '\357\273\277') cr=$(printf '\r')
    case $said in
        'skk: line '*)
            line=$(LC_ALL=C sed -n "${said##* }{p;q;}" </dev/stdin)
            tell "line ${said##* } is: $(shown "${line%"$cr"}")"
            ;;
        'skk: script too long') return ;;
    esac
    case $line in
        "$mark"*) tell 'it begins with the mark U+FEFF, which is part of no line: save the script without it' ;;
        *"$cr"*) tell "it has a CR, which is part of no line; this takes every CR away: tr -d '\\r' <SCRIPT >NEW" ;;
        *)
            tell 'a line is empty, # and a comment, S:KEYS, or, before all others of session S, S=T,B; it ends with LF.'
            tell 'S is from 1 to 64, T from 0 to 65535, B is 0 or T, and a key is written as a, <lt>, <cj> or <ret>'
            ;;
    esac
}

# Says more of the cause of status $1, by the words behind it.
hint() {
    fault=$1
    shift
    case $fault in
        1) usage | while IFS= read -r line; do tell "$line"; done ;;
        2) look_at_script ;;
        3) look_at_files "$@" ;;
        4)
            found=''
            each_file look_for "$@"
            # The port is asked for when all files are there.
            [ "$1" != serve ] || [ -n "$found" ] || tell 'another program may have the port: --port N takes another one'
            [ "$1" != ask ] || tell 'no server is at this port of 127.0.0.1, or it broke off the connection'
            ;;
        5) tell 'FILE and FILE.2 are as they were: FILE ("file 2" is FILE.2) is no learned file, or has a bad record' ;;
        7)
            case $1 in
                share) tell 'the list had no room within --limit, and is as it was' ;;
                import) tell 'a word had no room within --limit: those before it were learnt, and no other' ;;
                *) tell 'a change had no room within --limit: what was written is whole, but not all of it was learnt' ;;
            esac
            ;;
        9) tell 'the server is no skkserv, or answers in EUC-JP: only replies in UTF-8 are read' ;;
        10) tell 'the book has counted nearly to its end, and learns no dictionary any more: --book N takes another one' ;;
    esac
}
