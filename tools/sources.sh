# shellcheck shell=bash
# What the program is built from, for scripts that have set `top` to the top of the repository.
: "${top:?}"

program_crate=nexus_main

# Sets `sources` to the folders of sources of the program's crate and of each that it stands on, by `crates.txt`.
find_sources() {
    local line name word
    local -A below=() found=()
    while IFS= read -r line; do
        line=${line%%#*}
        case $line in *:*) ;; *) continue ;; esac
        name=${line%%:*}
        below[${name%% *}]=${line#*:}
    done <"$top/crates.txt"
    local -a left=("$program_crate")
    sources=()
    while [ ${#left[@]} -gt 0 ]; do
        name=${left[-1]}
        unset 'left[-1]'
        [ -z "${found[$name]-}" ] || continue
        found[$name]=1
        sources+=("crates/$name/src")
        [ ! -d "$top/crates/$name/specs" ] || sources+=("crates/$name/specs")
        [ ! -d "$top/crates/$name/proofs" ] || sources+=("crates/$name/proofs")
        for word in ${below[$name]}; do
            [ -z "${below[$word]+is_ours}" ] || left+=("$word")
        done
    done
}

# Whether a source, or a folder that one was put into or taken from, is newer than the file. It wants `sources`.
is_older_than_sources() {
    [ -n "$(cd "$top" && find "${sources[@]}" crates.txt -newer "$1" -print -quit)" ]
}

# The SHA-256 of the list of all sources, each with its own SHA-256, in the order of their paths as bytes. It wants `sources`.
digest_of_sources() {
    local digest
    digest=$(cd "$top" && find "${sources[@]}" -type f -print0 | LC_ALL=C sort -z | xargs -0 sha256sum | sha256sum) && echo "${digest%% *}"
}

# Sets `stated` to what the release's manifest states, by its keys; to nothing where there is no manifest.
read_manifest() {
    local key value
    declare -gA stated=([sha256]='' [sources]='' [kit]='' [logic]='')
    [ -f "$top/release/MANIFEST" ] || return 0
    while read -r key value; do
        stated[$key]=$value
    done <"$top/release/MANIFEST"
}

# Unpacks the released program into a new file, and makes sure that it is the one that the manifest states. It wants `stated`.
unpack_release() {
    xz -dc "$top/release/nexus-x86_64-linux-gnu.xz" >"$1" && echo "${stated[sha256]}  $1" | sha256sum --check --status && chmod 755 "$1"
}
