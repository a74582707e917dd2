#compdef equity
# Completion of the words of equity for zsh: modes, options and their values, files and folders.
local -a modes options
local word mode=""
modes=(
    'audit:a verdict on each hand, and each equity at the all-in'
    'check:only the verdicts'
    'streets:audit, and the equities on each later street'
    'results:what each player won or lost in each hand'
    'settle:what the rules give, and who must still get or give back'
    'totals:collected and expected, by player'
    'balance:net and all-in adjusted net, by player'
    'spots:equities of hands'
    'ranges:equities of ranges of hands'
    'made:a self-test over generated hands'
)
options=(
    '--workers:how many threads count, 1 to 16'
    '--format:text or csv'
    '--seed:the seed of made'
    '--hands:how many hands made makes'
    '--lines:which lines are of which file'
    '--quiet:no progress'
    '--help:what to type'
    '--version:version and checksum'
)
for word in "${(@)words[2,CURRENT-1]}"; do
    if [[ -z $mode && -n ${(M)modes:#$word:*} ]]; then mode=$word; fi
done
case $words[CURRENT-1] in
--format) compadd text csv ;;
--workers | --seed | --hands) ;;
*)
    if [[ $words[CURRENT] == -* ]]; then
        _describe option options
    elif [[ -z $mode ]]; then
        _describe mode modes
        [[ $CURRENT -gt 2 ]] || compadd help
    elif [[ $mode != made && $words[2] != help ]]; then
        _files
    fi
    ;;
esac
