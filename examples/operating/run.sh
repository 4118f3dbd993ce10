#!/usr/bin/env bash
# Runs the recipes of docs/OPERATING.md and compares what they print, byte for byte, and their statuses; then, where there is a Python of
# 3.9 or later, those that need a peer.
#
#   examples/operating/run.sh PROGRAM
#
# Prints a line for each run that differs and ends with 1, or prints how many pass and ends with 0.
set -u

here=$(cd "$(dirname "$0")" && pwd) || exit 1
program=$1
work=$(mktemp -d) || exit 1
trap 'rm -rf "$work"' EXIT

passed=0
failed=0

# expect NAME COMMAND INPUT STATUS OUTPUT: runs the command and compares the status and the output, which is a file.
expect() {
    "$program" "$2" <"$3" >"$work/output"
    local status=$?
    if [ "$status" != "$4" ] || ! cmp -s "$work/output" "$5"; then
        echo "$1: differs: wanted status $4 and '$(cat "$5")', got $status and '$(head -c 400 "$work/output")'"
        failed=$((failed + 1))
    else
        passed=$((passed + 1))
    fi
}

# A recipe is a script. That with an authority of its own is played by play.py.
for folder in "$here"/*/; do
    if [ -e "$folder/input" ] && [ ! -e "$folder/authority" ]; then
        expect "$(basename "$folder")" script "$folder/input" "$(cat "$folder/status")" "$folder/output"
    fi
done

# answer NAME COMMAND INPUT STATUS LINE: the same for an output of one line.
answer() {
    echo "$5" >"$work/wanted"
    expect "$1" "$2" "$here/$3" "$4" "$work/wanted"
}

answer 'a voice that is lent' trust no_further/trust 1 'label 3'
answer 'a comparison of two names' check scoped/two_names 0 allowed
answer 'a chain, from the desk' trust chain/from_desk 1 'label 2'
answer 'a chain, from the agency' trust chain/from_agency 1 'label 1'
answer 'a whole chain' trust chain/whole 1 goal
answer 'a broken chain' trust chain/broken 0 safe
answer 'the first principal of a chain' check chain/desk 0 allowed
answer 'the second principal of a chain' check chain/agency 1 'denied LabelMissing 2'

if ! python3 -c 'import sys; sys.exit(sys.version_info < (3, 9))' 2>/dev/null; then
    echo "recipes with a peer: skipped, since there is no python3 of 3.9 or later"
elif ! python3 -B "$here/play.py" "$program"; then
    failed=$((failed + 1))
fi

if [ "$failed" -gt 0 ]; then
    echo "$passed recipes pass, $failed differ"
    exit 1
fi
echo "$passed recipes pass"
