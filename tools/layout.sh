#!/usr/bin/env bash
# Says which crates are not in the layout that `rt fmt` gives, which the gate refuses. It works on a copy, and takes about a second a crate.
#
#     tools/layout.sh [CRATE ..]      of all crates where none is named
set -u

cd -P -- "$(dirname -- "$0")/.." || exit 1
work=$(mktemp -d) || exit 1
trap 'rm -rf "$work"' EXIT

if [ "$#" -eq 0 ]; then
    set -- crates/*/
fi
cp crates.txt HANDLES "$work" || exit 1
status=0
for crate in "$@"; do
    name=$(basename -- "$crate")
    mkdir -p "$work/crates/$name" || exit 1
    for part in src specs proofs; do
        if [ -d "crates/$name/$part" ]; then
            cp -R "crates/$name/$part" "$work/crates/$name/" || exit 1
        fi
    done
    if ! said=$(cd "$work/crates/$name" && rt fmt 2>&1); then
        echo "$name: $said"
        status=1
    elif formatted=$(grep formatted <<<"$said"); then
        echo "$name: $formatted"
        status=1
    fi
done
exit "$status"
