#!/usr/bin/env bash
# What reading formulas costs of a whole run: profiles `nexus script` on the text of the greatest policy without a request, 262,144
# entries in 33.6 MB, which is read and written again, and prints the share of time of each part. Needs the built program (./nexus
# builds it), python3 and `perf` (Debian's linux-perf).
#
#   bench/parse/share.sh [PROGRAM]
set -eu

here=$(cd "$(dirname "$0")" && pwd)
program=${1:-$here/../../crates/nexus_main/out/nexus_main}
work=$(mktemp -d)
trap 'rm -rf "$work"' EXIT

python3 "$here/../policy/text.py" "$work/policy"
perf record -o "$work/perf" "$program" script <"$work/policy" >"$work/written" 2>"$work/log"
cmp "$work/policy" "$work/written"
perf report -i "$work/perf" --stdio --sort symbol 2>/dev/null | python3 -c '
import collections
import re
import sys

PARTS = {
    "nal_parse": "reading, measuring and printing formulas (nal_parse)",
    "nal_term": "copying, comparing and letting go of trees (nal_term)",
    "proof_text": "reading and printing proofs but for their formulas (proof_text)",
    "journal_text": "lines of the policy text (journal_text)",
    "policy_history": "the policy machine and its tables (policy_history and the stores)",
    "label_store": "the policy machine and its tables (policy_history and the stores)",
    "goal_store": "the policy machine and its tables (policy_history and the stores)",
    "proof_store": "the policy machine and its tables (policy_history and the stores)",
    "object_table": "the policy machine and its tables (policy_history and the stores)",
    "indexmap": "the policy machine and its tables (policy_history and the stores)",
    "keyed_hash": "the policy machine and its tables (policy_history and the stores)",
}
shares = collections.Counter()
for line in sys.stdin:
    found = re.match(r"\s*([0-9.]+)%\s+\[(.)\]\s+(\S+)", line)
    if not found:
        continue
    share, kernel, symbol = found.groups()
    crate = symbol.split("::")[0].lstrip("<")
    if kernel == "k":
        part = "the system"
    elif re.search(r"malloc|free|alloc|memmove|memcpy|memcmp", symbol) and "::" not in symbol:
        part = "memory: allocating, letting go, moving"
    else:
        part = PARTS.get(crate, "other")
    shares[part] += float(share)
for part, share in shares.most_common():
    print(f"{share:5.1f} percent  {part}")
'
