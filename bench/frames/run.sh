#!/bin/sh
# Frames a second that are read from a link in memory and answered into it, beside those of a reader written by hand in Rust:
# calls, and frames that set a proof of 2,000 bytes. It proves and builds the program in a folder of its own, with what earlier
# checks left in the crates' out/, and needs rt, rustc and python3. RUNS is how often each is run (9), in turns.
set -eu
here=$(cd "$(dirname "$0")" && pwd)
root=$(cd "$here/../.." && pwd)
work=$(mktemp -d)
trap 'rm -rf "$work"' EXIT
bench="$work/crates/frames_bench"
mkdir -p "$bench/src" "$bench/proofs/serve"
crates='nx_io nal_term session_wire'
for crate in $crates; do
    mkdir -p "$work/crates/$crate"
    for part in src specs proofs out; do
        if [ -d "$root/crates/$crate/$part" ]; then cp -r "$root/crates/$crate/$part" "$work/crates/$crate/$part"; fi
    done
    grep "^$crate:" "$root/crates.txt" >> "$work/crates.txt"
done
echo "frames_bench: $crates" >> "$work/crates.txt"
cp "$root/HANDLES" "$work/"
cp "$here/frames_bench.txt" "$bench/src/main.rt"
cp "$here/serve_invariants.txt" "$bench/proofs/serve/Invariants.antt"
cp "$here/baseline.rs.txt" "$work/baseline.rs"
rustc --edition 2021 -O -C target-cpu=x86-64-v2 -A dead_code -o "$work/hand" "$work/baseline.rs"
(cd "$bench" && rt run > "$work/log.txt" 2>&1 -- call 10 10) || { tail -20 "$work/log.txt"; exit 1; }
python3 "$here/times.py" "$bench/out/frames_bench" "$work/hand" "${RUNS:-9}"
