#!/usr/bin/env bash
# Proves and builds a Rattle program of bench/, whose source lies there as text, over the repository's crates, in a copy of them, and runs it.
#
#   bench/rattle.sh PROGRAM CRATES [INPUT]     PROGRAM is the source of a main.rt, CRATES the crates that it stands on
set -eu

top=$(cd "$(dirname "$0")/.." && pwd)
program=$1
crates=$2
input=${3:-/dev/null}
work=$(mktemp -d)
trap 'rm -rf "$work"' EXIT

cp "$top/crates.txt" "$top/HANDLES" "$work"
echo "measure: $crates" >>"$work/crates.txt"
mkdir -p "$work/crates/measure/src"
for crate in "$top"/crates/*/; do
    name=$(basename "$crate")
    mkdir -p "$work/crates/$name"
    for part in src specs proofs; do
        [ -d "$crate$part" ] && cp -r "$crate$part" "$work/crates/$name"
    done
done
cp "$program" "$work/crates/measure/src/main.rt"
cd "$work/crates/measure"
if ! rt run >"$work/log" 2>&1 </dev/null || [ ! -x out/measure ]; then
    cat "$work/log" >&2
    exit 1
fi
out/measure <"$input"
