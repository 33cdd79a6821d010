# Read by the launcher, in the sources and where it is installed: runs the program, and says more where it ends with a
# fault.

tell() {
    printf 'launcher: %s\n' "$*" >&2
}

# Runs the program until it ends, or until the launcher is told to end, with which the program ends too.
serve() {
    child='' stopped=''
    trap 'stopped=yes; [ -z "$child" ] || kill "$child" 2>/dev/null' HUP INT TERM
    "$program" "$@" &
    child=$!
    [ -z "$stopped" ] || kill "$child" 2>/dev/null
    wait "$child"
    status=$?
    # A signal ends the wait before the program has ended.
    while kill -0 "$child" 2>/dev/null; do
        wait "$child"
        status=$?
    done
}

# The commands with their options.
usage() {
    sed "s|@skk|$called|" <<'END'
usage: @skk type [--dict FILE].. [--rules FILE] [--learned FILE] [--limit BYTES] [--threads] <SCRIPT
                          types a script of keys and prints each line
       @skk serve --learned FILE [--dict FILE].. [--rules FILE] [--limit BYTES] [--port NUMBER] [--connections NUMBER]
                          serves SKK clients and typists on this machine
       @skk dump --learned FILE [--book NUMBER]    prints a book of a learned file as a dictionary
       @skk share --learned FILE --typist NUMBER --books NUMBER[,NUMBER].. [--limit BYTES]
                          sets the books that a typist reads behind the private one, and prints them
       @skk import --learned FILE [--book NUMBER] [--limit BYTES] FILE
                          learns the words of a dictionary, as another SKK program has left it
       @skk ask --port NUMBER (--look READING | --complete PREFIX)    asks a skkserv, and prints what it says
       @skk check FILE    checks a dictionary file, line by line
       @skk expr FILE [+ FILE | - FILE]..
                          adds dictionary files and takes them away, from the left, and prints what is left as one
       @skk load --seed NUMBER --sessions NUMBER --lines NUMBER [--threads]    types drawn lines, and prints a summary
END
    [ -z "$proves" ] ||
        echo "       $called prove    proves and builds the program, and says whether it is the released one"
}

help() {
    usage
    printf '%s\n' "for example: printf '1:kitte\\n' | $called type"
    echo "$manual says what a script, a dictionary and a rule file are, and what each exit status tells."
}

# Runs the program with the words, and ends with its status.
run_program() {
    if [ "${1-}" = type ] && [ -t 0 ]; then
        tell 'write lines as 1:Kanji and a space, where 1 is the number of a session, and end with C-d'
    fi
    # Where standard input stands, if it is a file: a hint on a line of it counts the lines from its start.
    offset=''
    { read -r _ offset </proc/self/fdinfo/4; } 2>/dev/null 4<&0
    if [ "${1-}" = serve ]; then
        serve "$@"
    else
        "$program" "$@"
        status=$?
    fi
    # In a shell of its own: whatever becomes of a hint, the status is the program's.
    case $status in
        [1-579] | 10) (. "$here/launcher/hints.sh" && hint "$status" "$@") ;;
    esac
    exit "$status"
}
