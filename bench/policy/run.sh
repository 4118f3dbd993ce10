#!/bin/sh
# Times `nexus script` on the text of the greatest policy without a request, so that it is read and written again: 262,144 entries
# of 64 principals, a mix of all ten events, in 33.6 MB; and tells the peak memory as a multiple of the text. Where Debian's packages
# metamath and metamath-databases are installed, it times `metamath` on its set.mm beside. It needs the built program (./nexus builds
# it) and python3. RUNS is how often each is run (5).
set -eu
here=$(cd "$(dirname "$0")" && pwd)
program=${1:-$here/../../crates/nexus_main/out/nexus_main}
work=$(mktemp -d)
trap 'rm -rf "$work"' EXIT
python3 "$here/text.py" "$work/policy"
python3 "$here/times.py" "$program" "$work/policy" "${RUNS:-5}"
