#!/bin/sh
# Times the two calls that take a book's locks, beside few entries and beside many, and prints ratios, which are near 1 where the time
# does not grow with the journal: `write` of a short label, which is sent to a sink that keeps nothing, and `snap` of a case with a proof
# of four lines. It proves and builds the program in a folder of its own, with what earlier checks left in the crates' out/, and needs rt
# and python3. RUNS is how often each is run (5), in turns.
set -eu
here=$(cd "$(dirname "$0")" && pwd)
root=$(cd "$here/../.." && pwd)
work=$(mktemp -d)
trap 'rm -rf "$work"' EXIT
bench="$work/crates/book_bench"
mkdir -p "$bench/src" "$bench/proofs/write_all" "$bench/proofs/snap_all" "$bench/proofs/times_in"
crates='nx_io text_lines nal_term nal_subst nal_parse proof_lines proof_text nal_rules keyed_hash object_table goal_store proof_store label_store policy_history session_wire journal_text verdict_words policy_book'
for crate in $crates; do
    mkdir -p "$work/crates/$crate"
    for part in src specs proofs out; do
        if [ -d "$root/crates/$crate/$part" ]; then cp -r "$root/crates/$crate/$part" "$work/crates/$crate/$part"; fi
    done
    grep "^${crate}[: ]" "$root/crates.txt" >> "$work/crates.txt"
done
echo "book_bench: $crates atomic_table" >> "$work/crates.txt"
cp "$root/HANDLES" "$work/"
cp "$here/book_bench.txt" "$bench/src/main.rt"
cp "$here/write_all_invariants.txt" "$bench/proofs/write_all/Invariants.antt"
cp "$here/snap_all_invariants.txt" "$bench/proofs/snap_all/Invariants.antt"
cp "$here/times_in_invariants.txt" "$bench/proofs/times_in/Invariants.antt"
python3 "$here/times.py" policy 10 "$work/few"
python3 "$here/times.py" policy 200000 "$work/many"
(cd "$bench" && rt run > "$work/log.txt" 2>&1 < "$work/few") || { tail -20 "$work/log.txt"; exit 1; }
python3 "$here/times.py" "$bench/out/book_bench" "$work/few" "$work/many" "${RUNS:-5}"
