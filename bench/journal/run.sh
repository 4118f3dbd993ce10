#!/bin/sh
# Times the calls of a journal with few entries beside one with many, and prints ratios, which are near 1 where the time
# does not grow with the journal; how long the greatest journal takes to build; and what an entry takes of memory. It
# proves and builds the program in a folder of its own, with what earlier checks left in the crates' out/, and needs rt
# and python3. RUNS is how often each is run (5).
set -eu
here=$(cd "$(dirname "$0")" && pwd)
root=$(cd "$here/../.." && pwd)
work=$(mktemp -d)
trap 'rm -rf "$work"' EXIT
bench="$work/crates/journal_bench"
mkdir -p "$bench/src"
crates='nx_io nal_term nal_subst nal_parse proof_lines proof_text nal_rules keyed_hash object_table goal_store proof_store label_store policy_history'
for crate in $crates; do
    mkdir -p "$work/crates/$crate"
    for part in src specs proofs out; do
        if [ -d "$root/crates/$crate/$part" ]; then cp -r "$root/crates/$crate/$part" "$work/crates/$crate/$part"; fi
    done
    grep "^$crate:" "$root/crates.txt" >> "$work/crates.txt"
done
echo "journal_bench: $crates" >> "$work/crates.txt"
cp "$root/HANDLES" "$work/"
cp "$here/journal_bench.txt" "$bench/src/main.rt"
(cd "$bench" && rt run > "$work/log.txt" 2>&1 -- 100) || { tail -20 "$work/log.txt"; exit 1; }
python3 "$here/times.py" "$bench/out/journal_bench" "${RUNS:-5}"
