# Completion of the words of equity for bash: modes, options and their values, files and folders.
_equity() {
    local word="${COMP_WORDS[COMP_CWORD]}" before="${COMP_WORDS[COMP_CWORD - 1]}" given mode=""
    local modes="audit check streets results settle totals balance spots ranges made"
    local options="--workers --format --seed --hands --lines --quiet --help --version"
    local words=""
    # bash cuts a word at =
    [ "$word" != = ] || word=""
    [ "$before" != = ] || before="${COMP_WORDS[COMP_CWORD - 2]}"
    for given in "${COMP_WORDS[@]:1:COMP_CWORD-1}"; do
        if [[ -z "$mode" && " $modes help " == *" $given "* ]]; then mode="$given"; fi
    done
    case "$before" in
    --format) words="text csv" ;;
    --workers | --seed | --hands) COMPREPLY=(); return ;;
    *)
        case "$word" in
        -*) words="$options" ;;
        *)
            [ -n "$mode" ] || words="$modes help"
            [ "$mode" != help ] || words="$modes"
            ;;
        esac
        ;;
    esac
    mapfile -t COMPREPLY < <(compgen -W "$words" -- "$word")
    # a mode goes before the files
    if [ -z "$words" ] && [ "$mode" != made ]; then
        mapfile -t COMPREPLY < <(compgen -f -- "$word")
        compopt -o filenames 2>/dev/null
    fi
}
complete -F _equity equity
