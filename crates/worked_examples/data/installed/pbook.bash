# Completions of pbook for bash: its commands, then files where a command takes one.

# The files whose names begin with this.
_pbook_files() {
    compopt -o filenames 2> /dev/null
    mapfile -t COMPREPLY < <(compgen -f -- "$1")
}

_pbook() {
    local word=${COMP_WORDS[COMP_CWORD]} last=${COMP_WORDS[COMP_CWORD - 1]}
    COMPREPLY=()
    if [ "$COMP_CWORD" -eq 1 ]; then
        COMPREPLY=($(compgen -W 'collect export check games show probe lookup tree fen epd help --help --version' -- "$word"))
        return
    fi
    # Bash has the `=` of `--ledger=FILE`, and the `<` of `<FILE`, as a word of its own.
    if [ "$word" = = ]; then
        word=
    elif [[ $word == *[\<\>] || $word == '>|' ]]; then
        last=$word word=
    elif [ "$last" = = ]; then
        last=${COMP_WORDS[COMP_CWORD - 2]}
    fi
    # A file follows the first of these, and a number the others, for which there is nothing to complete.
    case $last in
        *[\<\>] | '>|') _pbook_files "$word"; return ;;
        --ledger | --journal) _pbook_files "$word"; return ;;
        --plies | --least | --weight) return ;;
    esac
    if [[ $word == -* ]]; then
        case ${COMP_WORDS[1]} in
            collect) COMPREPLY=($(compgen -W '--ledger --journal --sync --plies --least --summary -q --quiet --help' -- "$word")) ;;
            export) COMPREPLY=($(compgen -W '--plies --least --summary -q --quiet --help' -- "$word")) ;;
            tree) COMPREPLY=($(compgen -W '--plies --weight --help' -- "$word")) ;;
            *) COMPREPLY=($(compgen -W '--help' -- "$word")) ;;
        esac
        return
    fi
    # How many files stand first among the command's words, and how many words stand before this one without options, their values and redirections.
    local files=0 before=0 at
    for ((at = 2; at < COMP_CWORD; at++)); do
        case ${COMP_WORDS[at]} in
            --ledger | --journal | --plies | --least | --weight)
                at=$((at + 1))
                if [ "${COMP_WORDS[at]}" = = ]; then at=$((at + 1)); fi ;;
            *[\<\>] | '>|') at=$((at + 1)) ;;
            [0-9]) [[ ${COMP_WORDS[at + 1]} == *[\<\>] ]] || before=$((before + 1)) ;;
            -*) ;;
            *) before=$((before + 1)) ;;
        esac
    done
    case ${COMP_WORDS[1]} in
        show | export) files=1 ;;
        probe | lookup | tree | collect) files=2 ;;
        games) files=$COMP_CWORD ;;
        help) COMPREPLY=($(compgen -W 'collect export check games show probe lookup tree fen epd' -- "$word")) ;;
    esac
    if [ "$before" -lt "$files" ]; then
        _pbook_files "$word"
    fi
}

complete -F _pbook pbook
