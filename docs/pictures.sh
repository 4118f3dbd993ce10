#!/usr/bin/env bash
# Draws the pictures of proofs that the documents show, by clients/python/proof_picture.py, from inputs of the examples and what the program
# answers to them.
#
#   docs/pictures.sh [PROGRAM]            draws them anew, into docs/pictures
#   docs/pictures.sh --check [PROGRAM]    compares what is said in them; ends with 1 where one says something else
#
# PROGRAM is ./nexus where none is given. Where Graphviz is missing and can't be installed it says that it is skipped. Where the boxes lie
# hangs on the version of Graphviz and on fonts, so that is not compared.
set -u

top=$(cd "$(dirname "$0")/.." && pwd) || exit 1
# shellcheck source=../tools/play.sh
. "$top/tools/play.sh"

check=
if [ "${1-}" = --check ]; then
    check=1
    shift
fi
program=${1:-$top/nexus}

if ! need dot graphviz; then
    echo "docs/pictures: skipped, since there is no dot and it could not be installed"
    exit 0
fi

work=$(mktemp -d) || exit 1
trap 'rm -rf "$work"' EXIT

# draw NAME FILE [ANSWER]: draws what stands in the file.
draw() {
    python3 -B "$top/clients/python/proof_picture.py" ${3+--answer "$3"} <"$2" >"$work/$1.svg" || exit 1
}

# draw_check NAME: draws the proof of an example of `nexus check`, with its answer.
draw_check() {
    local input=$top/examples/check/$1/input
    draw "$1" "$input" "$("$program" check <"$input")"
}

# said FILE: what a picture says: which boxes and arrows there are, and the texts in them.
said() {
    grep -o '<title>[^<]*\|<text[^>]*>[^<]*\|<!-- [^>]*' "$1" | sed 's/<text[^>]*>/text /' | grep -v '^<!-- \(Generated\|Title\|Pages\)' | sort
}

draw_check wrong_order
draw_check build_group
"$program" prove <"$top/examples/prove/three_hops/input" >"$work/proof" || exit 1
draw three_hops "$work/proof"

if [ -z "$check" ]; then
    mkdir -p "$top/docs/pictures" && cp "$work"/*.svg "$top/docs/pictures/"
    exit
fi
status=0
for picture in "$work"/*.svg; do
    name=${picture##*/}
    if ! diff <(said "$top/docs/pictures/$name") <(said "$picture"); then
        echo "docs/pictures/$name says something else than what is drawn now; docs/pictures.sh draws it anew"
        status=1
    fi
done
[ "$status" -ne 0 ] || echo "the pictures of the documents say what is drawn now"
exit "$status"
