#!/usr/bin/env bash
# Runs the program `equity` with the files that the words name. ./install puts this file into PREFIX/bin as `equity`, and ./equity sources
# it. Standard output and the exit status are the program's. This script writes to standard error only.
#
#   equity MODE FILE ..       FILE is a file, a folder, or - for standard input. A folder means each *.txt, in any case, in it and below
#                             it, in byte order of their paths. Files are read one after the other, with a newline between two
#   equity MODE < FILE        without a FILE, the program reads standard input
#   --                        each word after it is a FILE
#   --lines                   with several files: first prints FILE: lines A to B for each
#   --quiet                   shows no progress. EQUITY_QUIET=1 in the environment does the same
#   equity help [MODE]        what to type. So do --help, -h, and words that name no mode
#   equity --version          the version, the program's path, and its checksum
#   equity --which            prints the program's path on standard output, and runs nothing. The status is 0
#
# The first word that is a mode is the mode. --workers, --format, --seed, and --hands take the next word and go to the program. The status is
# 3 if a file can't be read or a folder has no *.txt: then nothing runs. It is 2, and the usage line is printed, if `made` gets a file, if
# no mode is named, or if no file is named and standard input is a terminal. It is 8 if there is no program.
#
# Statuses 3 to 7 get a sentence. So does a line of `ranges` above the limit: it names examples/wide-ranges, which counts the line in
# parts. A history without a hand gets a line with the likely reason. If standard error is a terminal and
# standard output isn't, a run of more than two seconds shows how far it is. TERM, INT, and HUP end the program too. If a signal ended the
# program, the status is 128 plus its number.
#
# The program is ../libexec/equity/equity, seen from the folder of this file, and VERSION next to it names the version. So is tell.sh, which
# has what most runs don't need: help, sentences, folders, --lines, and progress. This file is short, because bash reads it before each run.
# The script needs bash 5.1 or later, coreutils, findutils, and grep. ./install replaces the first line by the path of bash, because `env`
# costs each run 0.5 ms.

# the program's own line, and its modes: docs/check compares both with the code
usage="usage: equity MODE [--workers N] [--format text|csv] [--seed S] [--hands H]"
modes=(audit check streets results settle totals balance spots ranges made)

# what the words say, the processes of the program and of the `cat` that feeds it, and how this script is called
mode="" wanted="" lines="" quiet="" words=() files=()
child="" feeder="" watcher="" torn="" closed="" above="" begun=""
name=equity
# the path of tell.sh until it has been read
tell_file=""

# say LINE: on standard error
say() { printf 'equity: %s\n' "$1" >&2; }

# more: reads tell.sh, unless it has been read
more() {
    [ -n "$tell_file" ] || return 0
    if [ ! -r "$tell_file" ]; then
        say "there is no file $tell_file. Run ./install again"
        return 1
    fi
    # shellcheck source=tell.sh
    . "$tell_file"
    tell_file=""
}

# is_mode WORD
is_mode() {
    local one
    for one in "${modes[@]}"; do [ "$1" != "$one" ] || return 0; done
    return 1
}

# reads_hands: whether the mode reads hand histories
reads_hands() {
    case "$mode" in
    '' | spots | ranges | made) return 1 ;;
    esac
}

# read_words WORDS..: sets mode, words (those for the program), files, wanted, lines, and quiet
read_words() {
    mode="" wanted="" lines="" quiet="" words=() files=()
    [ "${EQUITY_QUIET-}" != 1 ] || quiet=1
    if [ "${1-}" = help ]; then
        wanted=help
        shift
    fi
    while [ "$#" -gt 0 ]; do
        case "$1" in
        --)
            shift
            files+=("$@")
            return
            ;;
        --workers | --format | --seed | --hands)
            words+=("${@:1:2}")
            [ "$#" -eq 1 ] || shift
            ;;
        --lines) lines=1 ;;
        --quiet) quiet=1 ;;
        --help | -h) wanted=help ;;
        --version) wanted=version ;;
        --*) words+=("$1") ;;
        *)
            if [ -z "$mode" ] && is_mode "$1"; then
                mode="$1"
                words+=("$1")
            else
                files+=("$1")
            fi
            ;;
        esac
        shift
    done
}

# are_plain: whether each file can be read, and none is a folder
are_plain() {
    local file
    for file in "${files[@]}"; do
        # opening anything else than a file could wait, or take something out of it
        if [ "$file" = - ] || { [ -f "$file" ] && : <"$file"; } || { [ -r "$file" ] && ! [ -f "$file" ] && ! [ -d "$file" ]; }; then continue; fi
        return 1
    done 2>/dev/null
}

# open_pipe: sets `reader` and `writer` to the ends of a new pipe. (A here-string is a pipe with a newline in it)
open_pipe() { exec {reader}<<<"" && exec {writer}>"/dev/fd/$reader" && read -r -u "$reader"; }

# feed: writes the files to the program, with a newline between two. If one can't be read to its end, `torn` names it, and nothing after it
# is written. If the program ends meanwhile, `status` is its status
#
# One `cat` for several files is faster than one for each. What it says goes to a pipe that nobody reads, so SIGPIPE ends it at the first file
# that fails. Each newline is a pipe of its own, and those that are still full show which file that was
feed() {
    local reader writer most=16 at=0 file passed gaps gap first result
    open_pipe || { torn="${files[0]}" && return; }
    # if SIGPIPE was ignored before this script, `cat` would go on to the next file
    trap -p PIPE >&"$writer"
    ! read -r -t 0 -u "$reader" || most=1
    exec {reader}<&-
    while [ "$at" -lt "${#files[@]}" ]; do
        passed=() gaps=()
        for file in "${files[@]:at:most}"; do
            at=$((at + 1))
            passed+=("$file")
            if [ "$most" = 1 ] || [ "$at" = "${#files[@]}" ]; then break; fi
            exec {gap}<<<""
            gaps+=("$gap")
            passed+=("/dev/fd/$gap")
        done
        cat -- "${passed[@]}" <&"$input" >&"$to" 2>&"$writer" &
        feeder="$!"
        [ "$at" -gt "$most" ] || look
        wait -n -p first "$feeder" "$child" 2>/dev/null
        result=$?
        if [ "${first-}" = "$child" ]; then
            status="$result"
            return
        fi
        # (`wait -n` doesn't know a process that a signal ended before)
        if [ -z "${first-}" ]; then
            wait "$feeder" 2>/dev/null
            result=$?
        fi
        feeder=""
        if [ "$result" != 0 ]; then
            # (a pipe that nobody reads counts as one with input: the program has ended)
            if read -r -t 0 -u "$to"; then return; fi
            torn="$file"
            ! more || find_torn
            return
        fi
        for gap in "${gaps[@]}"; do exec {gap}<&-; done
        if [ "$most" = 1 ] && [ "$at" -lt "${#files[@]}" ]; then { printf '\n' >&"$to"; } 2>/dev/null; fi
    done
}

# ended STATUS: ends what runs, and then this script
# shellcheck disable=SC2317 # it is called by traps
ended() {
    trap '' INT TERM HUP
    if [ -n "$child" ]; then
        if more; then end_tree "$child"; else kill "$child"; fi
    fi
    stop_helpers
    wait 2>/dev/null
    exit "$1"
}

# hear: has the signals end the program too
hear() {
    trap 'ended 130' INT
    trap 'ended 143' TERM
    trap 'ended 129' HUP
}

# stop_helpers: ends what feeds and what watches the program
stop_helpers() {
    if [ -n "$watcher" ]; then
        { kill "$watcher" && wait "$watcher"; } 2>/dev/null
        watcher=""
        # where the line of progress may be
        [ "$SECONDS" -lt 2 ] || printf '\r\033[K' >&2
    fi
    if [ -n "$feeder" ]; then
        { kill "$feeder" && wait "$feeder"; } 2>/dev/null
        feeder=""
    fi
}

# launch WORDS..: becomes the program
launch() { exec "$program" "$@"; }

# run_program: runs it over the files, or over standard input, and returns its status
run_program() {
    local from=0 input=0 out=1 to="" status="" reader writer found finder passer=""
    hear
    SECONDS=0
    if ! [ -e /dev/fd/0 ]; then from=- input=- closed=1; fi
    if [ "${#files[@]}" -gt 1 ]; then
        open_pipe || return 3
        from="$reader" to="$writer"
    elif [ "${#files[@]}" -eq 1 ] && [ "${files[0]}" != - ]; then
        exec {from}<"${files[0]}" || return 3
    fi
    if [ "$mode" = ranges ]; then
        # the report of ranges passes a search for a line that is above the limit
        exec {found}> >(exec grep -cE 'refused[ ,]above' >/dev/null 2>&1)
        finder="$!"
        exec {out}> >(exec tee "/dev/fd/$found" 2>/dev/null)
        passer="$!"
        exec {found}>&-
    fi
    # in the background, so that a signal to this script is heard meanwhile
    (
        trap - INT QUIT
        [ -z "$to" ] || exec {to}>&-
        launch "${words[@]}"
    ) <&"$from" >&"$out" &
    child="$!"
    [ -z "$passer" ] || exec {out}>&-
    case "$from" in
    0 | -) ;;
    *) exec {from}<&- ;;
    esac
    if [ -z "$quiet" ] && [ "$mode" != made ] && [ -t 2 ] && ! [ -t 1 ] && more; then
        (
            [ -z "$to" ] || exec {to}>&-
            watch "$child"
        ) <&"$input" &
        watcher="$!"
    fi
    if [ -z "$to" ]; then
        look
    else
        feed
        # the program must not take a part for the whole, so it ends before it sees the end
        if [ -n "$torn" ]; then kill "$child"; else exec {to}>&-; fi
    fi
    if [ -z "$status" ]; then
        wait "$child" 2>/dev/null
        status=$?
    fi
    if [ -n "$torn" ]; then
        say "$torn: it couldn't be read to its end"
        status=3
    fi
    child=""
    stop_helpers
    if [ -n "$passer" ]; then
        # what can't be written is known to `tee`, and the program may have ended before
        if ! wait "$passer" && [ "$status" -le 1 ]; then status=4; fi
        ! wait "$finder" || above=1
    fi
    trap - INT TERM HUP
    return "$status"
}

# look: notes whether each file begins with a hand. (It is called while the program runs)
look() {
    if reads_hands && all_begin; then begun=1; fi
}

# begins_hand FILE: whether its first line begins a hand, as most do. (A regular expression would cost half a millisecond)
begins_hand() {
    local line=""
    # (`read` leaves out zero bytes, if it doesn't end at one)
    IFS= read -r -d '' -n 120 line 2>/dev/null <"$1"
    case "${line#$'\357\273\277'}" in
    'PokerStars Hand #'[0-9]* | 'PokerStars Zoom Hand #'[0-9]*) ;;
    *) return 1 ;;
    esac
}

# all_begin: whether each of the files, or the file that is standard input, begins with a hand
all_begin() {
    local file
    for file in "${files[@]:-/dev/stdin}"; do
        if ! [ -f "$file" ] || ! begins_hand "$file"; then return 1; fi
    done
}

# may_lack_hands: whether a file must be searched for a hand, or nothing was found in a pipe
may_lack_hands() {
    if [ "${#files[@]}" -gt 0 ] || [ -f /dev/stdin ]; then [ -z "$begun" ]; else [ -f /dev/stdout ] && ! [ -s /dev/stdout ]; fi
}

# end_with STATUS: ends, and says before what the status means if that needs words
end_with() {
    if [ "$1" -gt 1 ] || [ -n "$above" ] || { [ "$1" = 1 ] && [ "${#files[@]}" -gt 1 ]; } || { reads_hands && may_lack_hands; }; then
        ! more || tell_end "$1"
    fi
    exit "$1"
}

# prepare: ends with what to type if the words aren't for the program, and otherwise finds the files
prepare() {
    if [ -n "$wanted" ] || [ -z "$mode" ] || { [ "$mode" = made ] && [ "${#files[@]}" -gt 0 ]; }; then
        more || exit 8
        end_with_help
    fi
    if [ "${#files[@]}" -eq 0 ]; then
        if [ "$mode" = made ] || ! [ -t 0 ]; then return; fi
        more || exit 8
        end_at_terminal
    fi
    # (a command that isn't in form is the program's to refuse, if nothing is to be said or proved before)
    if [ -z "$lines" ] && [ -n "$tell_file" ] && are_plain; then return; fi
    more || exit 8
    find_files
    if [ -n "$lines" ] && [ "${#files[@]}" -gt 1 ]; then print_lines; fi
}

# serve: runs the program as prepared, and ends with its status
serve() {
    local file
    for file in "${files[@]}"; do
        if [ "$file" = - ] && [ -t 0 ]; then say "reads from the terminal: paste, then press Ctrl-D on a line of its own"; fi
    done
    run_program
    end_with "$?"
}

# main WORDS..: what the installed script does
main() {
    local self="${BASH_SOURCE[0]}"
    set -u
    export LC_ALL=C
    [ ! -L "$self" ] || self="$(readlink -f -- "$self")"
    [ "$self" != "${self##*/}" ] || self="./$self"
    place="${self%/*}/../libexec/equity"
    program="$place/equity"
    tell_file="$place/tell.sh"
    if [ ! -x "$program" ]; then
        say "there is no program $program. Run ./install again"
        exit 8
    fi
    if [ "${1-}" = --which ]; then
        realpath -- "$program" || exit 8
        exit 0
    fi
    read_words "$@"
    prepare
    serve
}

if [ "${BASH_SOURCE[0]}" = "$0" ]; then main "$@"; fi
