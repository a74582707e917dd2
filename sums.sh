# shellcheck shell=bash
# Shared by ./equity, dist/, .ci/run, and ./release, which source this file after prove.sh with `here` set to the top of the
# repository: checksums of the sources, and the three records of what was built from them. Each record has lines `KEY VALUE`.
#
#   dist/RELEASE        what dist/ contains and was built from
#   out/gate            the last gate that passed here, and what it built
#   out/equity.proved   the program that ./equity proved here
#
# A program or page that was built here is trusted only if a record names its checksum and the checksum of the sources as they are.

# shellcheck disable=SC2034,SC2154 # for the scripts that source this file, which set `here`
{
    release="$here/dist/RELEASE"
    gate="$here/out/gate"
    proved="$here/out/equity.proved"
    built="$here/crates/equity_main/out/equity_main"
    page_built="$here/out/page/equity.html"
    # the npm package's file, which page/build makes beside the page
    script_built="$here/out/page/equity.mjs"
}

# what RELEASE says of the tools whose version decides the bytes of the page, and all its keys in their order
page_tools=(esbuild zlib)
# shellcheck disable=SC2034
release_keys=(version sources page kit gate glibc module "${page_tools[@]}")

# tool_version TOOL: prints the version of one of the page's tools that is installed, or nothing
tool_version() {
    case "$1" in
    esbuild) esbuild --version 2>/dev/null ;;
    # the packer of the module, in Python
    zlib) python3 -c 'import zlib; print(zlib.ZLIB_RUNTIME_VERSION)' 2>/dev/null ;;
    esac
}

# value_of FILE KEY: prints the value of a key
value_of() {
    local key value
    [ -r "$1" ] || return 1
    while read -r key value; do
        if [ "$key" = "$2" ]; then
            printf '%s' "$value"
            return 0
        fi
    done <"$1"
    return 1
}

# has FILE KEY VALUE: whether the record has the key with this value, which isn't empty
has() {
    [ -n "$3" ] && [ "$(value_of "$1" "$2")" = "$3" ]
}

# hash_of FILE: prints its SHA-256
hash_of() {
    local line
    line="$(sha256sum <"$1")" && printf '%s' "${line%% *}"
}

# dist_hash NAME: prints the checksum that dist/SHA256SUMS has for a file of dist/
dist_hash() {
    local hash name
    while read -r hash name; do
        if [ "$name" = "$1" ]; then printf '%s' "$hash"; fi
    done <"$here/dist/SHA256SUMS"
}

# Prints the checksum of the program's sources.
program_sum() {
    sum_of "$here" equity_main
}

# Prints the checksum of all files that page/build reads.
page_sum() {
    (
        cd "$here" || exit 1
        sum_of . equity_page
        page/build --files | LC_ALL=C sort | tr '\n' '\0' | xargs -0 sha256sum
    ) | sha256sum | cut -d' ' -f1
}

# is_proved_here SUM: whether the program that was built here was proved from the sources with this checksum. A kit that is installed
# must be the one that proved it. `proved_by` is then the record that says so
is_proved_here() {
    local record kit="" hash=""
    proved_by=""
    [ -x "$built" ] || return 1
    for record in "$proved" "$gate"; do
        has "$record" sources "$1" || continue
        [ -n "$kit" ] || kit="$(kit_line)"
        [ -z "$kit" ] || has "$record" kit "$kit" || continue
        [ -n "$hash" ] || hash="$(hash_of "$built")"
        if has "$record" program "$hash"; then
            proved_by="$record"
            return 0
        fi
    done
    return 1
}

# is_gate_here SUM PAGE: whether out/gate is of the sources with these checksums, and of the program as it is
is_gate_here() {
    is_proved_here "$1" && has "$gate" version "$(cat "$here/VERSION")" && has "$gate" sources "$1" && has "$gate" page "$2" &&
        has "$gate" program "$(hash_of "$built")"
}

# is_page_here SUM: whether the page and the npm package's file that were built here are those of a gate over the files with this checksum
is_page_here() {
    [ -e "$page_built" ] && [ -e "$script_built" ] && has "$gate" page "$1" && has "$gate" html "$(hash_of "$page_built")" &&
        has "$gate" mjs "$(hash_of "$script_built")"
}

# Prints the sums that a gate takes before and after it ran.
gate_sums() {
    printf 'version %s\nsources %s\npage %s\n' "$(cat "$here/VERSION")" "$(program_sum)" "$(page_sum)"
}

# record_gate BEFORE LAST: records a gate that passed, with the sums from before it and its last line. Fails if the sums have changed
record_gate() {
    rm -f "$gate"
    if [ "$1" != "$(gate_sums)" ]; then
        echo "the sources changed while the gate ran, so it isn't recorded" >&2
        return 1
    fi
    mkdir -p "$here/out" &&
        printf 'kit %s\ngate %s\n%s\nprogram %s\n' "$(kit_line)" "$2" "$1" "$(hash_of "$built")" >"$gate.$$" && mv -f "$gate.$$" "$gate"
}

# Builds the page and the npm package's file into out/page and adds them to the record of the gate.
record_page() {
    local tool versions="" module
    for tool in "${page_tools[@]}"; do versions+="$tool $(tool_version "$tool")"$'\n'; done
    mkdir -p "$here/out/page" && module="$("$here/page/build" "$page_built")" || return 1
    {
        grep -v '^\(html\|mjs\|module\) ' "$gate" | grep -vE "^($(IFS="|"; echo "${page_tools[*]}")) "
        printf 'html %s\nmjs %s\nmodule %s\n%s' "$(hash_of "$page_built")" "$(hash_of "$script_built")" "${module##* }" "$versions"
    } >"$gate.$$" && mv -f "$gate.$$" "$gate"
}
