#!/bin/sh
# Times a bundle of 262,144 labels as it is read, beside the memory that its formulas and its text take alone; the printing of the most labels
# that one principal can hold; and `nexus import` of 4,000 labels over loopback beside `nexus client` with the same requests. It proves and
# builds a program in a folder of its own, with what earlier checks left in the crates' out/, and needs rt, python3 and the built program
# (./nexus builds it). RUNS is how often each is run (5).
#
# The aims are 3 seconds for reading and printing, 1.2 times the memory, and 0.9 of the rate of `client`.
set -eu
here=$(cd "$(dirname "$0")" && pwd)
root=$(cd "$here/../.." && pwd)
work=$(mktemp -d)
trap 'rm -rf "$work"' EXIT
bench="$work/crates/bundle_bench"
mkdir -p "$bench/src"
crates='peer_labels journal_text nx_io text_lines nal_term nal_subst nal_parse proof_lines proof_text nal_rules form_lines run_streams keyed_hash object_table goal_store proof_store label_store policy_history session_wire'
for crate in $crates; do
    mkdir -p "$work/crates/$crate"
    for part in src specs proofs out; do
        if [ -d "$root/crates/$crate/$part" ]; then cp -r "$root/crates/$crate/$part" "$work/crates/$crate/$part"; fi
    done
    grep "^$crate:" "$root/crates.txt" >> "$work/crates.txt"
done
echo "bundle_bench: $crates anyhow" >> "$work/crates.txt"
cp "$root/HANDLES" "$work/"
cp "$here/bundle_bench.txt" "$bench/src/main.rt"
(cd "$bench" && rt run > "$work/log.txt" 2>&1) || { tail -20 "$work/log.txt"; exit 1; }
python3 "$here/times.py" "$bench/out/bundle_bench" "${1:-$root/crates/nexus_main/out/nexus_main}" "${RUNS:-5}"
