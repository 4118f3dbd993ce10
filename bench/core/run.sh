#!/bin/sh
# Steps a second of `nexus core 1 1000000`, beside the same load on a machine written by hand in Rust, and the peak of memory at
# 250,000, 500,000 and 1,000,000 steps. Both have to write the same lines. It needs the built program (./nexus builds it), rustc, GNU time
# and python3. RUNS is how often each is run in turn (9).
#
#   bench/core/run.sh [PROGRAM]
set -eu
here=$(cd "$(dirname "$0")" && pwd)
program=${1:-$here/../../crates/nexus_main/out/nexus_main}
work=$(mktemp -d)
trap 'rm -rf "$work"' EXIT
cp "$here/by_hand.rs.txt" "$work/by_hand.rs"
rustc --edition 2021 -O -C target-cpu=x86-64-v2 -A warnings -o "$work/by_hand" "$work/by_hand.rs"
python3 "$here/times.py" "$program" "$work/by_hand" "${RUNS:-9}"
