# Completions of pbook for fish: its commands and their options, then files where a command takes one.

set -l commands collect export check games show probe lookup tree fen epd
set -l first "not __fish_seen_subcommand_from $commands help"

complete -c pbook -f
complete -c pbook -s h -l help -d 'Say how it is used'
complete -c pbook -n $first -s V -l version -d 'Print the version'
complete -c pbook -n $first -a collect -d 'Make a book of the games on standard input'
complete -c pbook -n $first -a export -d 'Print the book of the games on standard input as EPD lines'
complete -c pbook -n $first -a check -d 'Judge the games on standard input, and make no book'
complete -c pbook -n $first -a games -d 'Print the submission lines of journals, saved ledgers and lists'
complete -c pbook -n $first -a show -d 'Print the entries of a book'
complete -c pbook -n $first -a probe -d 'Print the moves that a book has for a FEN record'
complete -c pbook -n $first -a lookup -d 'Print those for each position on standard input'
complete -c pbook -n $first -a tree -d 'Print the moves of a book from a position on'
complete -c pbook -n $first -a fen -d 'Play moves from a FEN record'
complete -c pbook -n $first -a epd -d 'Rewrite EPD lines from standard input'
complete -c pbook -n $first -a help -d 'Say how a command is used'
complete -c pbook -n '__fish_seen_subcommand_from help' -a "$commands"

complete -c pbook -n '__fish_seen_subcommand_from collect export games show probe lookup tree' -F
complete -c pbook -n '__fish_seen_subcommand_from collect export' -l plies -x -d 'Count the first plies of each game'
complete -c pbook -n '__fish_seen_subcommand_from tree' -l plies -x -d 'Go so many plies deep'
complete -c pbook -n '__fish_seen_subcommand_from tree' -l weight -x -d 'Leave out lighter moves'
complete -c pbook -n '__fish_seen_subcommand_from collect export' -l least -x -d 'Leave out moves that occur fewer times'
complete -c pbook -n '__fish_seen_subcommand_from collect export' -l summary -d 'Sum up what became of the lines'
complete -c pbook -n '__fish_seen_subcommand_from collect export' -s q -l quiet -d 'Print only errors on standard error'
complete -c pbook -n '__fish_seen_subcommand_from collect' -l ledger -r -F -d 'Go on from a saved ledger, and keep it'
complete -c pbook -n '__fish_seen_subcommand_from collect' -l journal -r -F -d 'Go on from a journal, and add each new game'
complete -c pbook -n '__fish_seen_subcommand_from collect' -l sync -d 'Have each game reach the disk before its reply'
