# Completion of the words of equity for fish: modes, options and their values, files and folders.
set -l modes audit check streets results settle totals balance spots ranges made
complete -c equity -n "not __fish_seen_subcommand_from $modes" -f
complete -c equity -n "not __fish_seen_subcommand_from $modes" -a audit -d 'A verdict on each hand, and each equity at the all-in'
complete -c equity -n "not __fish_seen_subcommand_from $modes" -a check -d 'Only the verdicts'
complete -c equity -n "not __fish_seen_subcommand_from $modes" -a streets -d 'Audit, and the equities on each later street'
complete -c equity -n "not __fish_seen_subcommand_from $modes" -a results -d 'What each player won or lost in each hand'
complete -c equity -n "not __fish_seen_subcommand_from $modes" -a settle -d 'What the rules give, and who must still get or give back'
complete -c equity -n "not __fish_seen_subcommand_from $modes" -a totals -d 'Collected and expected, by player'
complete -c equity -n "not __fish_seen_subcommand_from $modes" -a balance -d 'Net and all-in adjusted net, by player'
complete -c equity -n "not __fish_seen_subcommand_from $modes" -a spots -d 'Equities of hands'
complete -c equity -n "not __fish_seen_subcommand_from $modes" -a ranges -d 'Equities of ranges of hands'
complete -c equity -n "not __fish_seen_subcommand_from $modes" -a made -d 'A self-test over generated hands'
complete -c equity -n "not __fish_seen_subcommand_from $modes help" -a help -d 'What to type'
complete -c equity -n "__fish_seen_subcommand_from made help" -f
complete -c equity -l workers -x -d 'How many threads count, 1 to 16'
complete -c equity -l format -x -a 'text csv' -d 'The form of the report'
complete -c equity -l seed -x -d 'The seed of made'
complete -c equity -l hands -x -d 'How many hands made makes'
complete -c equity -l lines -d 'Which lines are of which file'
complete -c equity -l quiet -d 'No progress'
complete -c equity -l help -d 'What to type'
complete -c equity -l version -d 'Version and checksum'
