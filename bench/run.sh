#!/usr/bin/env bash
# Runs measures and writes what they print into bench/RESULTS.md, each with its date, its commit and its machine, in place of what it
# printed before. The prose above is written by hand, and says what the numbers mean.
#
#   bench/run.sh [NAME ..]      NAME is a folder of bench; all of them where none is named, which takes hours
#
# Each measure says itself what it needs. One that fails is told, and leaves what stands of it; the status is then 1.
set -u

cd -P -- "$(dirname -- "$0")" || exit 1
program=${PROGRAM:-$PWD/../crates/nexus_main/out/nexus_main}
commit=$(git rev-parse --short HEAD)
[ -z "$(git status --porcelain -- ../crates)" ] || commit="$commit with changes"
machine="$(sed -n 's/^model name\s*: //p' /proc/cpuinfo | head -n 1), $(nproc) processors, load $(cut -d ' ' -f 1 /proc/loadavg)"
names=("$@")
if [ ${#names[@]} -eq 0 ]; then
    for folder in */; do
        [ "$folder" = gate/ ] || names+=("${folder%/}")
    done
fi

# write NAME: puts what stands on standard input under the heading of the measure.
write() {
    python3 -c '
import re, sys
name, stamp, file = sys.argv[1], sys.argv[2], "RESULTS.md"
block = f"### {name}\n\n{stamp}\n\n" + "".join(f"    {line}".rstrip() + "\n" for line in sys.stdin.read().splitlines())
text = open(file).read()
heading = "\n## What was printed\n"
if heading not in text:
    text = text.rstrip("\n") + "\n" + heading
prose, printed = text.split(heading, 1)
blocks = {it.split("\n", 1)[0]: "### " + it.strip("\n") + "\n" for it in re.split(r"^### ", printed, flags=re.MULTILINE)[1:]}
blocks[name] = block
open(file, "w").write(prose + heading + "".join("\n" + blocks[it] for it in sorted(blocks)))
' "$1" "$(date +%F), commit $commit, $machine:"
}

status=0
for name in "${names[@]}"; do
    for script in run.sh measure.sh run.py; do
        [ -x "$name/$script" ] && break
    done
    words=()
    case $name in compact) words=("$program") ;; esac
    if printed=$("./$name/$script" "${words[@]}"); then
        write "$name" <<<"$printed"
    else
        echo "$name: failed, so what stands of it was left"
        status=1
    fi
done
exit $status
