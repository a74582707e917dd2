# shellcheck shell=bash
# Shared by ./equity, page/build, and sums.sh, which source this file. It names the crates below one crate, and copies them without
# their must-fail edits into a folder of their own, where one `rt ci` passes them. No function sets a variable of its caller.

# needed_lines ROOT CRATE: prints the line `NAME[ KIND]: LOWER ..` of crates.txt for a crate, and then for each crate of the repository
# that it stands on, each crate once
needed_lines() {
    local line name kind lower at needed=("$2")
    local -A lines=() seen=(["$2"]=1)
    while IFS= read -r line; do
        line="${line%%#*}"
        [[ "$line" == *:* ]] || continue
        read -r name kind <<<"${line%%:*}"
        lines["$name"]="$name${kind:+ $kind}:${line#*:}"
    done <"$1/crates.txt"
    for ((at = 0; at < ${#needed[@]}; at++)); do
        line="${lines[${needed[at]}]-}"
        [ -n "$line" ] || return 1
        printf '%s\n' "$line"
        for lower in ${line#*:}; do
            if [ -z "${lines[$lower]-}" ] || [ -n "${seen[$lower]-}" ]; then continue; fi
            seen["$lower"]=1
            needed+=("$lower")
        done
    done
}

# Prints the line of the kit, or nothing if there is no kit.
kit_line() {
    local rt
    rt="$(command -v rt)" || return 0
    cat "$(dirname "$(readlink -f "$rt")")/../KIT-ID" 2>/dev/null
}

# sum_of ROOT CRATE: prints a checksum of the files from which a crate and those below it are built
sum_of() {
    local lines line part parts=()
    lines="$(needed_lines "$1" "$2")" || return 1
    while IFS= read -r line; do
        for part in "crates/${line%%[ :]*}"/{src,specs,proofs}; do
            [ ! -d "$1/$part" ] || parts+=("$part")
        done
    done <<<"$lines"
    (
        cd "$1" || exit 1
        printf '%s\n' "$lines"
        find HANDLES "${parts[@]}" -type f -print0 | LC_ALL=C sort -z | xargs -0 sha256sum
    ) | sha256sum | cut -d' ' -f1
}

# lay_out ROOT TREE LINE..: copies the crates that these lines name. A folder .git makes the tree the top of a repository
lay_out() {
    local name part line
    mkdir -p "$2/.git" "$2/crates" && cp "$1/HANDLES" "$2" || return 1
    for line in "${@:3}"; do
        name="${line%%[ :]*}"
        printf '%s\n' "$line" >>"$2/crates.txt"
        mkdir "$2/crates/$name" || return 1
        for part in src specs proofs args stdin stdout status data; do
            [ ! -e "$1/crates/$name/$part" ] || cp -R "$1/crates/$name/$part" "$2/crates/$name" || return 1
        done
    done
}

# How many proofs run side by side: one a processor, and no more than have three gigabytes of memory each. A proof was seen to take two.
# rt by itself reckons with up to ten for each, and so leaves processors idle.
lanes() {
    local most memory
    most="$(nproc)" || return
    memory="$(awk '/^MemAvailable:/ { print int($2 / 3145728) }' /proc/meminfo)" || return
    if [ "${memory:-0}" -lt "$most" ]; then most="$memory"; fi
    if [ "$most" -ge 1 ]; then printf '%s' "$most"; fi
}

# pass TREE ROOM: has rt ci pass what lies there
pass() {
    cd "$1" && RT_JOBS="${RT_JOBS-$(lanes 2>/dev/null)}" TMPDIR="$2" exec rt ci
}

# told FILE COUNT: copies to the file what the prover prints, and at a terminal prints how many of the crates are proved
told() {
    local line done=0
    while IFS= read -r line; do
        printf '%s\n' "$line"
        case "$line" in
        "rt: "*" proved" | "rt: "*" is kept: "*)
            done=$((done + 1))
            if [ -t 2 ]; then
                line="${line#rt: }"
                printf 'proved %s, %d of %d, after %d:%02d minutes\n' "${line%% *}" "$done" "$2" $((SECONDS / 60)) $((SECONDS % 60)) >&2
            fi
            ;;
        esac
    done >"$1"
}
