#!/usr/bin/env bash
# How long the analysis of trust takes over the greatest policy: 4,096 labels and 4,096 facts, 64 untrusted principals and 64
# loose predicates.
#
#   bench/trust/run.sh
#
# Needs python3. Each label is an atom that is the last of the facts, and all facts have its predicate, so every list is looked
# through to its end for every label. Prints the milliseconds that reading and analysis take, each the least of five; the aim
# for both together is below 2,000. The program is proved before it is built.
set -eu

here=$(cd "$(dirname "$0")" && pwd)
work=$(mktemp -d)
trap 'rm -rf "$work"' EXIT

python3 - "$work/input" <<'PYTHON'
import sys

lines = ["nexus trust 1", "subject bob"]
lines += ["label fs says may(4095)"] * 4096
lines += [f"untrusted u{k}" for k in range(64)]
lines += [f"loose l{k}" for k in range(64)]
lines += [f"fact may({k})" for k in range(4096)]
lines += ["goal fs says may(4096)", "end"]
with open(sys.argv[1], "w") as file:
    file.writelines(line + "\n" for line in lines)
PYTHON

"$here/../rattle.sh" "$here/trust_bench.txt" \
    "nx_io text_lines nal_term nal_subst nal_parse proof_lines nal_rules form_lines trust_check trust_form anyhow" "$work/input" |
    awk '
    $5 != "Safe" { print "not safe: " $0; exit 1 }
    NR == 1 || $2 < read { read = $2 }
    NR == 1 || $4 < judged { judged = $4 }
    END { printf "read %.1f ms, judged %.1f ms\n", read / 1000, judged / 1000 }'
