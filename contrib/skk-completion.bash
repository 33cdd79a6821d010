# Completes the words of skk in bash.
_skk() {
    local word=${COMP_WORDS[COMP_CWORD]} before=${COMP_WORDS[COMP_CWORD - 1]} words=''
    [ "$before" != = ] || before=${COMP_WORDS[COMP_CWORD - 2]}
    [ "$word" != = ] || word=''
    case $before in
        --dict | --learned | --rules | check | expr | + | -)
            compopt -o filenames
            mapfile -t COMPREPLY < <(compgen -f -- "$word")
            return
            ;;
        --books | --*[!s]) return ;;
    esac
    if [ "$COMP_CWORD" -eq 1 ]; then
        words='type serve dump share import ask check expr load help'
    else
        case ${COMP_WORDS[1]} in
            type) words='--dict --rules --learned --limit --threads' ;;
            serve) words='--learned --dict --rules --limit --port --connections' ;;
            dump) words='--learned --book' ;;
            share) words='--learned --typist --books --limit' ;;
            import)
                words='--learned --book --limit'
                if [ "${word#-}" = "$word" ]; then
                    compopt -o filenames
                    mapfile -t COMPREPLY < <(compgen -f -- "$word")
                    return
                fi
                ;;
            expr) words='+ -' ;;
            ask) words='--port --look --complete' ;;
            load) words='--seed --sessions --lines --threads' ;;
        esac
    fi
    mapfile -t COMPREPLY < <(compgen -W "$words" -- "$word")
}
complete -F _skk skk
