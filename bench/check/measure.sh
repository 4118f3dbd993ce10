#!/usr/bin/env bash
# How fast `nexus check` is, beside `metamath`, another checker of proofs in text, verifying its own library set.mm
# in the same run.
#
#   bench/check/measure.sh
#
# Needs python3, GNU time, and Debian's packages metamath and metamath-databases. Prints megabytes a second and the
# peak of memory for
#   policy      a proof of 256 lines with 4,096 labels and 4,096 answers of a kilobyte each,
#   parts       the same with labels and answers of two hundred parts each, which differ in their leftmost part,
#   proof       the same proof with the one label and the one answer that it needs,
# the ratio to metamath's rate, and the seconds that the longest inputs, of 64 MiB, take. Each is the best of five
# runs.
set -eu

here=$(cd "$(dirname "$0")" && pwd)
nexus=$here/../../nexus
library=/usr/share/metamath/databases/set.mm
work=$(mktemp -d)
trap 'rm -rf "$work"' EXIT

python3 "$here/inputs.py" "$work"
"$nexus" check <"$here/../../examples/check/first/input" >/dev/null
program=$here/../../crates/nexus_main/out/nexus_main

# best INPUT COMMAND..: runs the command five times on the input; leaves its least seconds and its peak of memory.
best() {
    local input=$1
    shift
    seconds=1000000
    for _ in 1 2 3 4 5; do
        /usr/bin/time -o "$work/time" -f '%e %M' "$@" <"$input" >"$work/output" || true
        read -r run peak < <(tail -n 1 "$work/time")
        seconds=$(awk -v a="$seconds" -v b="$run" 'BEGIN { print a < b ? a : b }')
    done
}

# rate BYTES SECONDS
rate() {
    awk -v bytes="$1" -v seconds="$2" 'BEGIN { if (seconds < 0.005) seconds = 0.005; printf "%.2f", bytes / 1e6 / seconds }'
}

cd "$(dirname "$library")"
best /dev/null metamath "read $(basename "$library")" "verify proof *" exit
peer=$(rate "$(stat -c %s "$library")" "$seconds")
echo "metamath  $(stat -c %s "$library") bytes  $seconds s  $peer MB/s"

for name in policy parts proof; do
    bytes=$(stat -c %s "$work/$name")
    best "$work/$name" "$program" check
    own=$(rate "$bytes" "$seconds")
    awk -v name="$name" -v bytes="$bytes" -v seconds="$seconds" -v own="$own" -v peer="$peer" -v peak="$peak" -v answer="$(head -n 1 "$work/output")" \
        'BEGIN { printf "%-9s %d bytes  %s s  %s MB/s  %.1f times metamath  peak %.1f MB, %.1f times the input  (%s)\n", name, bytes, seconds, own, own / peer, peak / 1000, peak * 1024 / bytes, answer }'
done

for name in one-line line-feeds semicolons; do
    best "$work/$name" "$program" check
    echo "$name of 64 MiB  $seconds s  ($(head -n 1 "$work/output"))"
done
