#!/bin/sh
# Tries the completions for bash, zsh and fish, as far as these are installed. Bash's function is
# called with the words of a line. Lines are typed into bash and zsh too, with a TAB, and `pbook`
# stands there for a function that tells what it was given. Fish is asked for what it would offer.
# Usage: tests/completions.sh [CHECK..] (at the top of the repository).
# shellcheck disable=SC2086 # what isn't quoted is more words than one
set -eu
unset PROGRAM
. tests/lib/harness.sh
installed=$PWD/crates/worked_examples/data/installed
commands='check collect epd export fen games help lookup probe show tree'
mkdir "$work/files"
cd "$work/files"
touch games.txt games.epd table.txt book.bin 'two words.epd'

# offers DUE WORD..: what bash offers for the last of these words, the others standing before it,
# are the lines of DUE, in any order
offers() {
    printf '%s' "$1" | tr ' ' '\n' | sed '/^$/d; s/:/ /g' | sort > "$work/due"
    shift
    # shellcheck disable=SC2016 # it is for that bash
    bash --norc -c '
        . "$0"
        COMP_WORDS=("$@") COMP_CWORD=$(($# - 1))
        _pbook
        [ ${#COMPREPLY[@]} -eq 0 ] || printf "%s\n" "${COMPREPLY[@]}"
    ' "$installed/pbook.bash" "$@" | sort > "$work/offered"
    same_lines "$work/due" "$work/offered"
}

bash_commands() {
    holds offers "$commands --help --version" pbook ''
    holds offers 'check collect' pbook c
    holds offers "check collect epd export fen games lookup probe show tree" pbook help ''
    holds offers 'epd export' pbook help e
}

bash_files() {
    holds offers 'games.txt games.epd' pbook show ga
    holds offers '' pbook show book.bin ga
    for command in collect lookup probe tree; do
        holds offers table.txt pbook "$command" ta
        holds offers book.bin pbook "$command" table.txt bo
        holds offers '' pbook "$command" table.txt book.bin ga
    done
    holds offers 'games.txt games.epd' pbook games table.txt book.bin ga
    for command in check epd fen; do holds offers '' pbook "$command" ga; done
}

# A file stands behind `<` and `>` wherever they stand, and isn't one of the command's own.
bash_redirections() {
    for words in 'collect table.txt book.bin' 'export table.txt' 'lookup table.txt book.bin' \
        check epd; do
        for sign in '<' '>' '>>' '>|' '2 >'; do
            holds offers 'games.txt games.epd' pbook $words $sign ga
        done
        holds offers 'games.txt games.epd table.txt book.bin two:words.epd' pbook $words '<'
        holds offers two:words.epd pbook $words '<' games.txt '>' tw
    done
    holds offers table.txt pbook collect '<' games.txt ta
    holds offers book.bin pbook collect '<' games.txt table.txt 2 '>' told bo
    holds offers '' pbook collect '<' games.txt table.txt book.bin bo
    holds offers '' pbook export 2 '>' told table.txt ta
}

bash_options() {
    holds offers '--ledger --journal --sync --plies --least --summary -q --quiet --help' \
        pbook collect -
    holds offers '--plies --least --summary -q --quiet --help' pbook export -
    holds offers '--plies --weight --help' pbook tree -
    holds offers '--sync --summary' pbook collect table.txt --s
    holds offers --summary pbook export --s
    for command in check lookup games show probe fen epd; do
        holds offers --help pbook "$command" -
    done
    for option in --ledger --journal; do
        holds offers 'games.txt games.epd' pbook collect "$option" ga
        holds offers 'games.txt games.epd' pbook collect "$option" = ga
        holds offers 'games.txt games.epd table.txt book.bin two:words.epd' \
            pbook collect "$option" =
        holds offers table.txt pbook collect "$option" = games.txt ta
    done
    for option in --plies --least; do
        holds offers '' pbook collect "$option" ''
        holds offers '' pbook collect "$option" = ''
        holds offers table.txt pbook collect "$option" 24 ta
    done
    holds offers table.txt pbook tree --weight 10 ta
    # Other options have no value.
    holds offers book.bin pbook collect --sync -q table.txt bo
    holds offers '' pbook collect --summary table.txt book.bin bo
}

# gives SHELL LINE DUE: whether this line, typed into the shell with a TAB behind it, gives `pbook`
# these words, and the file of its input behind them where that is one
gives() {
    rm -f "$work/given"
    # The function that stands for `pbook` in the shell tells its words.
    cat > "$work/told.sh" << 'END'
pbook() {
    {
        printf '[%s]' "$@"
        case $(readlink /proc/self/fd/0) in */files/*) readlink /proc/self/fd/0 ;; esac
    } > "$GIVEN.new"
    mv "$GIVEN.new" "$GIVEN"
}
END
    case $1 in
        bash) shell="bash --norc --noprofile -i" ;;
        zsh) shell='zsh -f -i' ;;
    esac
    {
        echo ". '$work/told.sh'"
        if [ "$1" = bash ]; then
            echo ". '$installed/pbook.bash'"
        else
            echo "fpath=('$installed' \$fpath); autoload -Uz compinit; compinit -u -D"
        fi
        printf '%s\t\n' "$2"
        echo exit
    } | GIVEN=$work/given HISTFILE='' TERM=dumb timeout "$patience" script -qec "$shell" /dev/null \
        > "$work/typed" 2>&1 || true
    sed "s|$PWD/|<|" "$work/given" > "$work/found" 2> /dev/null || true
    if [ "$(cat "$work/found")" = "$3" ]; then return; fi
    echo "    what was given: $(cat "$work/found"); what the terminal shows:"
    sed 's/^/    /' "$work/typed"
    return 1
}

# typed SHELL: lines that have one completion each
typed() {
    rm -f games.epd
    holds gives "$1" 'pbook epd < ga' '[epd]<games.txt'
    holds gives "$1" 'pbook check <ga' '[check]<games.txt'
    holds gives "$1" 'pbook lookup table.txt book.bin < tw' \
        '[lookup][table.txt][book.bin]<two words.epd'
    holds gives "$1" 'pbook collect < games.txt table.txt bo' \
        '[collect][table.txt][book.bin]<games.txt'
    holds gives "$1" 'pbook collect --ledger=ga' '[collect][--ledger=games.txt]'
    holds gives "$1" 'pbook export --su' '[export][--summary]'
    holds gives "$1" 'pbook loo' '[lookup]'
    holds gives "$1" 'pbook lookup table.txt bo' '[lookup][table.txt][book.bin]'
    holds gives "$1" 'pbook games table.txt ga' '[games][table.txt][games.txt]'
    touch games.epd
}

# fish_offers DUE LINE: what fish offers at the end of this line, without what it says of them
fish_offers() {
    printf '%s' "$1" | tr ' ' '\n' | sed '/^$/d; s/:/ /g' | sort > "$work/due"
    # shellcheck disable=SC2016 # it is for fish
    HOME=$work XDG_CONFIG_HOME=$work fish --no-config -c '
        source $argv[1]
        complete -C $argv[2]' "$installed/pbook.fish" "$2" | cut -f 1 | sort > "$work/offered"
    same_lines "$work/due" "$work/offered"
}

fish_lines() {
    holds fish_offers "$commands" 'pbook '
    holds fish_offers 'check collect' 'pbook c'
    for words in 'collect table.txt book.bin' 'export table.txt' 'lookup table.txt book.bin' \
        check epd; do
        holds fish_offers 'games.txt games.epd' "pbook $words < ga"
        holds fish_offers 'games.txt games.epd' "pbook $words > ga"
    done
    holds fish_offers '--ledger=games.txt --ledger=games.epd' 'pbook collect --ledger=ga'
    holds fish_offers 'games.txt games.epd' 'pbook collect --journal ga'
    holds fish_offers '--summary --sync' 'pbook collect --s'
    holds fish_offers --summary 'pbook export --s'
    holds fish_offers '' 'pbook check --s'
    holds fish_offers table.txt 'pbook lookup ta'
    holds fish_offers 'games.txt games.epd' 'pbook games table.txt ga'
    holds fish_offers '' 'pbook check ga'
}

bash_typed() { typed bash; }
zsh_typed() { typed zsh; }
can_type() { has "$1" && has script; }
[ $# -gt 0 ] || {
    choose 'has bash' 'bash is wanted' bash_commands bash_files bash_redirections bash_options
    choose 'has fish' 'fish is wanted' fish_lines
    choose 'can_type bash' 'bash and script are wanted' bash_typed
    choose 'can_type zsh' 'zsh and script are wanted' zsh_typed
}
try_all "$@"
