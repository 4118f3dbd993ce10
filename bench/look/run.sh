#!/bin/sh
# Nanoseconds of one look that hits, beside those of the same look written by hand in Rust: with 1, 2 and 4 threads, and
# with 4 threads beside one that publishes. It proves and builds the program in a folder of its own, and needs rt, rustc
# and python3. RUNS is how often each is run (9), PAUSE how many loads of another word stand between two entries (1000).
# With KEEP the programs are left in that folder.
set -eu
here=$(cd "$(dirname "$0")" && pwd)
root=$(cd "$here/../.." && pwd)
work=$(mktemp -d)
trap 'rm -rf "$work"' EXIT
looks=50000000
pause=${PAUSE:-1000}
bench="$work/crates/look_bench"
mkdir -p "$bench/src" "$bench/proofs/looks_with" "$bench/proofs/publishes" "$work/crates/verdict_words"
cp "$root/HANDLES" "$work/"
for part in src specs proofs; do cp -r "$root/crates/verdict_words/$part" "$work/crates/verdict_words/"; done
printf 'verdict_words: atomic_table\nlook_bench: verdict_words\n' > "$work/crates.txt"
cp "$here/look_bench_invariants.txt" "$bench/proofs/looks_with/Invariants.antt"
cp "$here/publishes_invariants.txt" "$bench/proofs/publishes/Invariants.antt"
cp "$here/publishes_answers.txt" "$bench/proofs/publishes/Answers.antt"
cp "$here/baseline.rs.txt" "$work/baseline.rs"
rustc --edition 2021 -O -C target-cpu=x86-64-v2 -o "$work/hand" "$work/baseline.rs"
sed "s/PAUSED/$pause/" "$here/look_bench.txt" > "$bench/src/main.rt"
(cd "$bench" && rt run > "$work/log.txt" 2>&1 -- a b c d) || { tail -20 "$work/log.txt"; exit 1; }
cp "$bench/out/look_bench" "$work/look"
if [ -n "${KEEP:-}" ]; then mkdir -p "$KEEP" && cp "$work/look" "$work/hand" "$here/times.py" "$KEEP/"; fi
python3 "$here/times.py" "$work" "$looks" "$pause" "${RUNS:-9}"
