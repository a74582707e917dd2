# shellcheck shell=bash disable=SC2154
# What the script before the program says on standard error, and what few runs need: help, folders, --lines, progress, and the meaning of
# statuses. run.sh reads this file when a run needs it, and sets the variables that are used here. ./install puts it next to the program.

# purpose MODE: prints what the mode reports
purpose() {
    case "$1" in
    audit) echo "a verdict on each hand, and each player's equity at the all-in" ;;
    check) echo "only the verdicts" ;;
    streets) echo "the report of audit, and the equities on each later street" ;;
    results) echo "for each hand and player: stack, put in, collected, net, all-in adjusted net" ;;
    settle) echo "for each pot what the rules give, and who must still get or give back" ;;
    totals) echo "for each player, over hands with a counted all-in: collected and expected" ;;
    balance) echo "for each player: the sums of results over all hands" ;;
    spots) echo "equities of hands, a line for each situation" ;;
    ranges) echo "equities of ranges of hands" ;;
    made) echo "a self-test over generated hands; reads no file" ;;
    esac
}

# example MODE: prints what to type
example() {
    case "$1" in
    spots) printf '%s spots spots.txt' "$name" ;;
    ranges) printf '%s ranges ranges.txt' "$name" ;;
    made) printf '%s made --seed 1 --hands 100' "$name" ;;
    *) printf '%s %s hands.txt' "$name" "$1" ;;
    esac
}

# help_all: what to type, for all modes
help_all() {
    local one
    {
        printf 'Type a mode and the files to read:\n\n'
        for one in "${modes[@]}"; do printf '    %-36s %s\n' "$(example "$one")" "$(purpose "$one")"; done
        cat <<END

A file can be a folder: then all its *.txt are read, and those of the folders in it. A hyphen is standard input.
$name help MODE says more about a mode, and $name --version which program this is.
PokerStars saves hand histories, if its settings say so, in a folder with the player's name below
    Windows  C:\\Users\\YOU\\AppData\\Local\\PokerStars\\HandHistory     (in WSL /mnt/c/Users/YOU/AppData/Local/PokerStars/HandHistory)
    macOS    ~/Library/Application Support/PokerStars/HandHistory
END
    } >&2
}

# help_mode MODE: what to type, for one mode
help_mode() {
    {
        printf '%s: %s\n\n    %s\n' "$1" "$(purpose "$1")" "$(example "$1")"
        case "$1" in
        spots) printf "    echo 'holdem As Ah - Ks Kh -- 2c 7d 9h' | %s spots\n" "$name" ;;
        ranges) printf "    echo 'holdem TT+ - AsAh -- 2c 7d 9h' | %s ranges\n" "$name" ;;
        made) ;;
        *) printf '    %s %s FOLDER > report.txt\n    %s %s -              paste hands, then press Ctrl-D on a line of its own\n' "$name" "$1" "$name" "$1" ;;
        esac
        printf '\n    %-20s %s\n' '--format csv' 'prints CSV instead of text'
        if [ "$1" = made ]; then
            printf '    %-20s %s\n' '--seed S' 'the seed of the hands, 1 if none is given' '--hands H' 'the number of hands, 0 to 10000, 100 if none is given'
        else
            printf '    %-20s %s\n' '--lines' 'prints which lines are of which file, if there are several' '--quiet' 'shows no progress'
        fi
        printf '    %-20s %s\n' '--workers N' 'counts with N threads, 1 to 16, 2 if none is given'
    } >&2
}

# print_usage: the usage line on standard output, as the program prints it, and status 2, or 4 if that fails
print_usage() {
    trap '' PIPE
    printf '%s\n' "$usage" 2>/dev/null || end_with 4
}

# distance ONE OTHER: prints how many letters differ, are missing, are too many, or have changed places with the next one
distance() {
    local one="$1" other="$2" i j cost least
    local -A steps=()
    for ((i = 0; i <= ${#one}; i++)); do steps[$i, 0]=$i; done
    for ((j = 0; j <= ${#other}; j++)); do steps[0, $j]=$j; done
    for ((i = 1; i <= ${#one}; i++)); do
        for ((j = 1; j <= ${#other}; j++)); do
            cost=1
            [ "${one:i-1:1}" != "${other:j-1:1}" ] || cost=0
            least=$((steps[$((i - 1)), $((j - 1))] + cost))
            ((steps[$((i - 1)), $j] + 1 >= least)) || least=$((steps[$((i - 1)), $j] + 1))
            ((steps[$i, $((j - 1))] + 1 >= least)) || least=$((steps[$i, $((j - 1))] + 1))
            if ((i > 1 && j > 1)) && [ "${one:i-1:1}${one:i-2:1}" = "${other:j-2:1}${other:j-1:1}" ]; then
                ((steps[$((i - 2)), $((j - 2))] + 1 >= least)) || least=$((steps[$((i - 2)), $((j - 2))] + 1))
            fi
            steps[$i, $j]=$least
        done
    done
    echo "${steps[${#one}, ${#other}]}"
}

# nearest WORD: prints the mode that is most like the word, or nothing if none is
nearest() {
    local one far best=3 found="" word="${1,,}"
    [ "${#word}" -le 12 ] || return 0
    for one in "${modes[@]}"; do
        far="$(distance "$word" "$one")"
        if [ "${#word}" -ge 3 ] && [ "${one#"$word"}" != "$one" ]; then far=1; fi
        if [ "$far" -lt "$best" ] && [ "$far" -lt "${#word}" ]; then best="$far" found="$one"; fi
    done
    printf '%s' "$found"
}

# is_number TEXT LEAST MOST
is_number() {
    [[ "$1" =~ ^[0-9]{1,10}$ ]] && [ "$((10#$1))" -ge "$2" ] && [ "$((10#$1))" -le "$3" ]
}

# blame: says which option isn't in form, or fails if none is found
blame() {
    local word value at
    local -A seen=()
    for ((at = 0; at < ${#words[@]}; at++)); do
        word="${words[at]}" value=""
        case "$word" in
        --workers | --format | --seed | --hands)
            at=$((at + 1))
            value="${words[at]-}"
            ;;
        --*=*)
            value="${word#*=}"
            word="${word%%=*}"
            ;;
        esac
        if [ -n "${seen[$word]-}" ]; then
            say "$word is there twice"
            return 0
        fi
        seen[$word]=1
        case "$word" in
        --workers) is_number "$value" 1 16 || { say "--workers takes a number from 1 to 16"; return 0; } ;;
        --seed) is_number "$value" 0 4294967295 || { say "--seed takes a number from 0 to 4294967295"; return 0; } ;;
        --hands) is_number "$value" 0 10000 || { say "--hands takes a number from 0 to 10000"; return 0; } ;;
        --format) [ "$value" = text ] || [ "$value" = csv ] || { say "--format takes text or csv"; return 0; } ;;
        --*) say "there is no option $word"; return 0 ;;
        esac
    done
    return 1
}

# explain: the lines for words that name no mode
explain() {
    local word="${files[0]-}" like
    if [ -z "$word" ]; then
        help_all
    elif [ -e "$word" ]; then
        say "no mode is named. Type, for example: $name audit $word"
        help_all
    elif like="$(nearest "$word")" && [ -n "$like" ]; then
        say "there is no mode $word. Did you mean $like?"
        printf '\n    %s\n\n' "$(example "$like")" >&2
        say "$name help says what each mode does"
    else
        say "there is no mode $word. The modes are: ${modes[*]}"
        say "$name help says what each of them does"
    fi
}

# spread FOLDER: adds the *.txt of the folder and below it to `found`, or says what is wrong and fails
spread() {
    local at="$1" path before="${#found[@]}"
    while [ "$at" != / ] && [ "${at%/}" != "$at" ]; do at="${at%/}"; done
    case "$at" in
    -*) at="./$at" ;;
    esac
    while IFS= read -r -d '' path; do found+=("$path"); done < <(set -o pipefail; find -H "$at" -iname '*.txt' -xtype f -print0 2>/dev/null | sort -z)
    if ! wait "$!"; then
        say "$1: a folder in it can't be read"
        return 1
    elif [ "${#found[@]}" -eq "$before" ]; then
        say "$1: there is no file *.txt in it or below it"
        return 1
    fi
}

# find_files: replaces each folder among the files by its *.txt. Ends if the command isn't in form, which comes first, as in the program, or
# if a file can't be read
find_files() {
    local file found=() shut=() failed=0
    if [ "${#words[@]}" -gt 1 ] && blame; then
        print_usage
        say "$name help $mode says more"
        exit 2
    fi
    for file in "${files[@]}"; do
        if [ "$file" = - ] || [ -f "$file" ]; then
            found+=("$file")
        elif [ -d "$file" ]; then
            spread "$file" || failed=1
        elif [ -e "$file" ]; then
            found+=("$file")
        elif [ -z "$file" ] || [ ! -L "$file" ]; then
            say "$file: there is no such file"
            failed=1
        else
            say "$file: it links to a file that isn't there"
            failed=1
        fi
    done
    for file in "${found[@]}"; do
        if [ "$file" = - ] || { [ -f "$file" ] && : <"$file"; } || { [ ! -f "$file" ] && [ -r "$file" ]; }; then continue; fi
        shut+=("$file")
    done 2>/dev/null
    for file in "${shut[@]}"; do
        say "$file: it can't be read"
        failed=1
    done
    files=("${found[@]}")
    [ "$failed" = 0 ] || exit 3
}

# print_lines: for each file which lines of the whole are its own, as far as that is known before the run
print_lines() {
    local file at=1 last count ends="" counts=() plain=() n=0 e=0
    for file in "${files[@]}"; do
        [ -f "$file" ] || break
        plain+=("$file")
    done
    if [ "${#plain[@]}" -gt 0 ]; then
        mapfile -t counts < <(for file in "${plain[@]}"; do [ "${file#-}" = "$file" ] || file="./$file"; printf '%s\0' "$file"; done | wc -l --files0-from=-)
        ends="$(for file in "${plain[@]}"; do [ ! -s "$file" ] || printf '%s\0' "$file"; done | xargs -0r tail -qc1 -- | tr '\n' n | tr -c n x)"
    fi
    for file in "${plain[@]}"; do
        read -r count _ <<<"${counts[n]}"
        n=$((n + 1))
        last=$((at + count - 1))
        if [ -s "$file" ]; then
            [ "${ends:e:1}" = n ] || last=$((last + 1))
            e=$((e + 1))
        fi
        [ "$last" -ge "$at" ] || last=$at
        printf '%s: lines %d to %d\n' "$file" "$at" "$last" >&2
        # the newline between two files ends the last line of the first one, or is a line of its own
        at=$((at + count + 1))
    done
    [ "$n" -eq "${#files[@]}" ] || printf '%s: from line %d on; the lines of later files depend on its length\n' "${files[n]}" "$at" >&2
}

# find_torn: names in `torn` the file at which `cat` ended: the first one after which the newline wasn't read, or otherwise the last one
find_torn() {
    for gap in "${!gaps[@]}"; do
        if read -r -u "${gaps[gap]}"; then
            torn="${passed[2 * gap]}"
            return
        fi
    done
}

# end_tree PROCESS: ends it and all that it started
# shellcheck disable=SC2317 # it is called by traps
end_tree() {
    local list below children
    for list in "/proc/$1/task/"*/children; do
        # (the list ends without a newline, so `read` fails)
        children=()
        { read -ra children <"$list"; } 2>/dev/null
        for below in "${children[@]}"; do end_tree "$below"; done
    done
    kill -TERM "$1" 2>/dev/null
}

# total_size: prints the bytes of all that the program is to read, or nothing if that isn't known
total_size() {
    local file
    if [ "${#files[@]}" -eq 0 ]; then
        [ -f /dev/stdin ] || return 0
        stat -Lc %s /dev/stdin
        return
    fi
    for file in "${files[@]}"; do [ -f "$file" ] || return 0; done
    printf '%s\0' "${files[@]}" | xargs -0 stat -Lc %s -- | {
        local sum=0 size
        while read -r size; do sum=$((sum + size + 1)); done
        echo "$((sum - 1))"
    }
}

# watch PROCESS: shows how much of the input the program has read, from the third second on
watch() {
    local clock total from="${EPOCHREALTIME//[.,]/}" key value done_ time line rate
    # reading a pipe into which nobody writes waits without another process
    exec {clock}<> <(:)
    read -rt 2 -u "$clock"
    total="$(total_size 2>/dev/null)"
    while [ -r "/proc/$1/io" ]; do
        done_=""
        while read -r key value; do [ "$key" != rchar: ] || done_="$value"; done 2>/dev/null <"/proc/$1/io"
        [ -n "$done_" ] || return
        time=$((${EPOCHREALTIME//[.,]/} - from))
        rate=$((done_ * 10 / time))
        line="$((rate / 10)).$((rate % 10)) MB/s"
        if [ -z "$total" ]; then
            line="$((done_ / 1000000)) MB, $line"
        elif [ "$done_" -lt "$total" ]; then
            line="$((done_ * 100 / total))%, $line, $(((total - done_) * (time / 1000) / (done_ + 1) / 1000 + 1)) s left"
        else
            line="100% read, still counting"
        fi
        printf '\r%s\033[K' "$line" >&2
        read -rt 0.5 -u "$clock"
    done
}

# has_hand FILE: whether a line of it begins a hand
has_hand() {
    begins_hand "$1" || grep -qaE $'^(\357\273\277)?PokerStars [A-Za-z ]*(Hand|Game) #[0-9]' -- "$1" 2>/dev/null
}

# reason_of FILE: prints why the file has no hand, as far as its first bytes show that
reason_of() {
    local head zeros other="only hand histories of PokerStars are read"
    # (a shell can't keep zero bytes)
    head="$(head -c 16384 -- "$1" 2>/dev/null | tr '\000' '\001')"
    zeros="${head//[^$'\001']/}"
    case "$head" in
    '') echo "an empty file" ;;
    $'PK\003\004'*) echo "a zip archive: unpack it first" ;;
    $'\037\213'*) echo "a gzip archive: unpack it first" ;;
    $'7z\274\257'*) echo "a 7z archive: unpack it first" ;;
    'Rar!'*) echo "a rar archive: unpack it first" ;;
    '%PDF'*) echo "a PDF: the hand histories themselves are text files" ;;
    $'\377\376'* | $'\376\377'*) echo "text in UTF-16: save it as UTF-8" ;;
    *)
        if [ "$((${#zeros} * 5))" -gt "$((${#head} * 2))" ]; then
            echo "text in UTF-16: save it as UTF-8"
        elif [ -n "$zeros" ]; then
            echo "not text"
        else
            case $'\n'"$head" in
            *$'\n'[\>\|]*'PokerStars '*) echo "a copy from a mail or a forum, with a mark before each line" ;;
            *$'\n''POKERSTARS '*) echo "a history with PokerStars in capitals, which isn't read" ;;
            *$'\n''Poker Hand #'*) echo "another site, likely GGPoker: $other" ;;
            *$'\n''***** Hand History '[Ff]'or Game'* | *$'\n''#Game No'*) echo "another site, likely partypoker or 888: $other" ;;
            *$'\n''Winamax Poker'*) echo "another site, Winamax: $other" ;;
            *$'\n'Ignition*'Hand #'* | *$'\n'Bovada*'Hand #'* | *$'\n'Bodog*'Hand #'*) echo "another site, likely Ignition or Bovada: $other" ;;
            *$'\n''Full Tilt Poker Game #'*) echo "another site, Full Tilt: $other" ;;
            *'<session'*) echo "another site, likely of the iPoker network: $other" ;;
            *$'\n''Hand #'[0-9]* | *$'\n''Game Hand #'[0-9]*) echo "another site, likely of the Winning network: $other" ;;
            *$'\n''PokerStars Tournament #'[0-9]*) echo "the summary of a tournament, which has no hands" ;;
            *$'\n''Main PokerStars'* | *$'\n''Mano PokerStars'* | *$'\n'*'PokerStars '*'#'[0-9]*) echo "PokerStars, but in another language: switch the histories to English" ;;
            *$'\n'[[:blank:]]'PokerStars '* | *$'\n'[[:blank:]]*[[:blank:]]'PokerStars '*) echo "a copy with spaces before its lines" ;;
            *) echo "no line begins a hand, as PokerStars Hand # and a number does" ;;
            esac
        fi
        ;;
    esac
}

# tell_handless: names each file in which no hand is
tell_handless() {
    local file without=0
    if [ "${#files[@]}" -gt 0 ]; then
        for file in "${files[@]}"; do
            if ! [ -f "$file" ] || has_hand "$file"; then continue; fi
            without=$((without + 1))
            [ "$without" -gt 10 ] || say "$file: no hand was found: $(reason_of "$file")"
        done
        [ "$without" -le 10 ] || say "no hand was found in $((without - 10)) more files"
        [ "$without" -eq 0 ] || return 0
    elif [ -f /dev/stdin ]; then
        has_hand /dev/stdin || say "no hand was found in standard input: $(reason_of /dev/stdin)"
        return 0
    fi
    if [ -f /dev/stdout ] && ! [ -s /dev/stdout ]; then
        say "no hand was found in standard input: no line begins a hand, as PokerStars Hand # and a number does"
    fi
}

# tell_above: says which script answers lines of ranges that are above the limit
tell_above() {
    local folder="${BASH_SOURCE[0]%/*}" path="" one
    for one in "$folder/examples/wide-ranges" "$folder/../../share/doc/equity/examples/wide-ranges"; do
        if [ -z "$path" ] && [ -x "$one" ]; then path="$(realpath -- "$one")"; fi
    done
    say "a line above the limit of 200,000,000 runouts isn't counted. If it has two or three ranges, this counts it in parts:"
    printf '\n    %s < FILE\n\n' "${path:-examples/wide-ranges}" >&2
}

# tell_end STATUS: says what the status means
tell_end() {
    case "$1" in
    0 | 1)
        if [ "$1" = 1 ] && [ "${#files[@]}" -gt 1 ]; then
            if [ -n "$lines" ]; then
                say "something was rejected: the lines above say of which file its line is"
            else
                say "something was rejected, and its line is counted over all files: --lines prints which lines are of which file"
            fi
        fi
        ! reads_hands || tell_handless
        [ -z "$above" ] || tell_above
        ;;
    2)
        blame || :
        say "$name help $mode says more"
        ;;
    3)
        if [ -n "$torn" ]; then
            say "the report ends before that file"
        elif [ -d /dev/stdin ] && [ "${#files[@]}" -eq 0 ]; then
            say "standard input is a folder. Type its name as a word: ${name} ${mode:-audit} FOLDER"
        elif [ "${#files[@]}" -eq 0 ] && [ -n "$closed" ]; then
            say "standard input is closed, so there is nothing to read"
        else
            say "the input couldn't be read to its end: what was complete before that is reported"
        fi
        ;;
    4) [ -p /dev/stdout ] || say "the report couldn't be written to its end: is the disk full?" ;;
    5) say "the input has more than 1 GiB: what was complete within it is reported. Give the files in several runs" ;;
    6) say "there isn't enough memory: only the first part of the report was written" ;;
    7) say "the words couldn't be read: an option isn't UTF-8" ;;
    *) [ "$1" -le 128 ] || say "signal $(($1 - 128)) ended the program" ;;
    esac
}

# end_with_help: says what to type, because the words aren't for the program, and ends
end_with_help() {
    print_usage
    if [ "$wanted" = version ]; then
        tell_version
    elif [ "$wanted" = help ] && [ -n "$mode" ]; then
        help_mode "$mode"
    elif [ "$wanted" = help ] && [ "${#files[@]}" -eq 0 ]; then
        help_all
    elif [ "$mode" = made ]; then
        say "made reads no file, and ${files[0]} is one. Type, for example: $(example made)"
    else
        [ "${#files[@]}" -gt 0 ] || ! blame || say "no mode is named either"
        explain
    fi
    exit 2
}

# end_at_terminal: says what to type, because no file is named and standard input is a terminal, and ends
end_at_terminal() {
    print_usage
    say "no file is named, and standard input is the terminal"
    help_mode "$mode"
    exit 2
}

# tell_version: says the version, the program's path, and its checksum. ./equity has its own
tell_version() {
    local sum
    sum="$(sha256sum <"$program")"
    printf 'equity %s\n%s\nsha256 %s\n' "$(cat "$place/VERSION" 2>/dev/null)" "$(realpath -- "$program")" "${sum%% *}" >&2
}
