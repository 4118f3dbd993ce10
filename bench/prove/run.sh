#!/bin/sh
# How long the search for a chain of delegations takes with 256 labels, beside the same search written by hand in Rust, and how long
# reading takes; inputs.py says what the inputs are. Both sides have to find a proof of as many lines. It proves and builds the program in a
# folder of its own, with what earlier checks left in the crates' out/, and needs rt, rustc and python3. RUNS is how often each side is run in
# turn (5); each run takes the least of 10 rounds.
set -eu
here=$(cd "$(dirname "$0")" && pwd)
root=$(cd "$here/../.." && pwd)
work=$(mktemp -d)
trap 'rm -rf "$work"' EXIT
bench="$work/crates/prove_bench"
mkdir -p "$bench/src" "$work/inputs"
crates='nx_io text_lines nal_term nal_subst nal_parse proof_lines proof_text nal_rules proof_check form_lines chain_prover prove_form'
for crate in $crates; do
    mkdir -p "$work/crates/$crate"
    for part in src specs proofs out; do
        if [ -d "$root/crates/$crate/$part" ]; then cp -r "$root/crates/$crate/$part" "$work/crates/$crate/$part"; fi
    done
    grep "^$crate:" "$root/crates.txt" >> "$work/crates.txt"
done
echo "prove_bench: arrayvec anyhow $crates" >> "$work/crates.txt"
cp "$root/HANDLES" "$work/"
cp "$here/prove_bench.txt" "$bench/src/main.rt"
cp "$here/by_hand.rs.txt" "$work/by_hand.rs"
python3 "$here/inputs.py" "$work/inputs"
rustc --edition 2021 -O -C target-cpu=x86-64-v2 -o "$work/by_hand" "$work/by_hand.rs"
(cd "$bench" && rt run > "$work/log.txt" 2>&1 < /dev/null) || { tail -20 "$work/log.txt"; exit 1; }
python3 "$here/times.py" "$bench/out/prove_bench" "$work/by_hand" "$work/inputs" "${RUNS:-5}"
