#!/bin/sh
# Times the calls of the four stores, with a few rows and with many. Each line is a call, the two numbers of rows, the
# nanoseconds of one call on average with each, and their ratio, which is near 1 where the time is constant. The
# program is run unproved, with run-time checks, in a folder of its own that is removed at the end: so the ratios
# count, and not the times.
set -eu
here=$(cd "$(dirname "$0")" && pwd)
root=$(cd "$here/../.." && pwd)
folder=$(mktemp -d)
trap 'rm -rf "$folder"' EXIT
mkdir -p "$folder/crates/stores_bench/src"
for crate in keyed_hash nal_term proof_lines object_table goal_store proof_store label_store; do
    mkdir -p "$folder/crates/$crate"
    for part in src specs proofs; do
        [ -d "$root/crates/$crate/$part" ] && cp -r "$root/crates/$crate/$part" "$folder/crates/$crate/$part"
    done
    grep "^$crate:" "$root/crates.txt" >> "$folder/crates.txt"
done
echo 'stores_bench: keyed_hash nal_term proof_lines object_table goal_store proof_store label_store indexmap' >> "$folder/crates.txt"
cp "$here/stores_bench.txt" "$folder/crates/stores_bench/src/main.rt"
cd "$folder/crates/stores_bench"
mkdir "$folder/cases"
while read -r store rows; do
    : > "$folder/cases/$store-$rows"
    printf '%s\n%s\n' "$store" "$rows" > "$folder/cases/$store-$rows.args"
done <<WORDS
objects 1000
objects 4000
goals 1000
goals 100000
proofs 1000
proofs 60000
labels 1000
labels 100000
chosen 4096
WORDS
rt try --seconds 60 --cases "$folder/cases" > "$folder/times"
awk '/^[A-Z].*::/ {
    nanoseconds = $NF; rows = $(NF - 1); $NF = ""; $(NF - 1) = ""; sub(/ +$/, "")
    if ($0 in few) printf "%s: %d and %d rows, %d and %d ns, ratio %.2f\n", $0, few[$0], rows, time[$0], nanoseconds, nanoseconds / time[$0]
    else { few[$0] = rows; time[$0] = nanoseconds }
}
/^chosen / { call = $4; for (k = 5; k <= NF; k++) call = call " " $k
    printf "%s: 4096 labels, and 4096 chosen against a fixed hash, %d and %d ns, ratio %.2f\n", call, $2, $3, $3 / $2
}' "$folder/times"
