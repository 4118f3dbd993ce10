#!/bin/sh
# Processor time of one call through `nexus script`, from its line to its reply line, with a proof of four lines whose labels are
# held, in a policy of 10 entries and in one of 100,000, beside the same decision written by hand in Rust. It needs the built
# program (./nexus builds it), rustc and python3. CALLS is how many calls are timed (200000), RUNS how often each is run (3).
set -eu
here=$(cd "$(dirname "$0")" && pwd)
program=${1:-$here/../../crates/nexus_main/out/nexus_main}
work=$(mktemp -d)
trap 'rm -rf "$work"' EXIT
cp "$here/by_hand.rs.txt" "$work/by_hand.rs"
rustc --edition 2021 -O -C target-cpu=x86-64-v2 -A warnings -o "$work/by_hand" "$work/by_hand.rs"
python3 "$here/times.py" "$program" "$work/by_hand" "${CALLS:-200000}" "${RUNS:-3}"
