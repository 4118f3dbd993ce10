#!/bin/sh
# Processor time and peak memory of `nexus audit` of 65,536 records over a journal of 262,144 entries, whose proofs are short, and
# then at the limits; beside the same input without records, which is what reading the journal takes, and beside a run of
# `nexus script` on a front of the journal for each record, of which a few are run. It needs the built program (./nexus builds it) and
# python3. RUNS is how often each is run (3), SAMPLES how many runs of `script` are timed (8).
#
# The aims are 3 seconds for the records with short proofs, 60 for those with proofs at the limits, and less than twice the memory.
set -eu
here=$(cd "$(dirname "$0")" && pwd)
program=${1:-$here/../../crates/nexus_main/out/nexus_main}
for kind in plain worst; do
    python3 "$here/times.py" "$program" "$kind" 262144 65536 "${RUNS:-3}" "${SAMPLES:-8}"
done
