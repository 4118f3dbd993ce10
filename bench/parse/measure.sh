#!/usr/bin/env bash
# How fast `parse_formula` is, beside a plain parser of the same grammar that is written by hand in Rust (baseline.rs),
# in the same run.
#
#   bench/parse/measure.sh
#
# Needs python3 and rustc. Each line is read 2,000 times in a round, the tree let go each time, and the best of five
# rounds counts. Prints for each text megabytes a second of both and their ratio; the texts of half a kilobyte show
# whether the time grows with the length alone.
set -eu

here=$(cd "$(dirname "$0")" && pwd)
work=$(mktemp -d)
trap 'rm -rf "$work"' EXIT

python3 - "$work/lines" <<'PYTHON'
import sys

def cut(unit, end, size):
    """The unit as often as it fits the size, and then the end."""
    return unit * ((size - len(end)) // len(unit)) + end

lines = []
for size in (512, 1024):
    lines.append(("conjunctions", cut("alice says ok and ", "p", size)))
    lines.append(("disjunctions", cut("p or ", "p", size)))
    lines.append(("brackets", "(" * 60 + cut("p(1, ?x, y) or ", "q", size - 120) + ")" * 60))
    lines.append(("quantified", "forall ?x : exists ?y : " + cut("p(?x, ?y) and ?x < 7 => ", "q", size - 24)))
    lines.append(("long names", cut("a" * 64 + " and ", "p", size)))
    lines.append(("quoted texts", cut('p("' + "t" * 150 + '") and ', "q", size)))
with open(sys.argv[1], "w") as file:
    file.writelines(line + "\n" for _, line in lines for _ in range(5))
with open(sys.argv[1] + "-names", "w") as file:
    file.writelines(name + "\n" for name, _ in lines for _ in range(5))
PYTHON

rustc -O --edition 2024 -o "$work/baseline" "$here/baseline.rs"
"$here/../rattle.sh" "$here/parse_bench.txt" "nal_parse anyhow" "$work/lines" >"$work/own"
"$work/baseline" <"$work/lines" >"$work/peer"
paste -d '|' "$work/lines-names" "$work/own" "$work/peer" | awk -F '|' '
    function rate(line, words) { split(line, words, " "); return words[2] * words[4] / words[7] * 1000 }
    {
        split($2, words, " ")
        text = sprintf("%-13s %4d bytes", $1, words[2])
        if (words[4] != 2000) text = text " REFUSED"
        if (!(text in own)) order[++count] = text
        if (rate($2) > own[text]) own[text] = rate($2)
        if (rate($3) > peer[text]) peer[text] = rate($3)
    }
    END {
        for (i = 1; i <= count; i++)
            printf "%s  nexus %6.1f MB/s  by hand %6.1f MB/s  ratio %.2f\n", order[i], own[order[i]], peer[order[i]], own[order[i]] / peer[order[i]]
    }'
