#!/usr/bin/env bash
# Tests the client in Go: its form, its own tests, and its example of request lines.
#
#   clients/go/test.sh [PROGRAM]
#
# Prints what differs and ends with 1, or prints `the client in Go passes its N tests` and ends with 0. Where Debian's golang-go is missing
# and can't be installed it says that it is skipped. What was built is kept in out/.
set -u

here=$(cd "$(dirname "$0")" && pwd) || exit 1
top=$here/../..
program=$(readlink -f -- "${1:-$top/nexus}")
# shellcheck source=../../tools/play.sh
. "$top/tools/play.sh"

if ! need go golang-go; then
    echo "clients/go: skipped, since there is no go and it could not be installed"
    exit 0
fi

work=$(mktemp -d) || exit 1
trap 'kill $(jobs -p) 2>/dev/null; wait; rm -rf "$work"' EXIT
cd "$here" || exit 1
export GOCACHE=$top/out/go GOPATH=$work GOFLAGS=-mod=mod GOPROXY=off GOTOOLCHAIN=local CGO_ENABLED=0 NEXUS=$program

ill=$(gofmt -l .) || exit 1
if [ -n "$ill" ]; then
    echo "clients/go: gofmt would change $ill"
    exit 1
fi
go vet ./... || exit 1
if ! go test -count=1 -timeout 60s -v . >"$work/told" 2>&1; then
    echo "clients/go: a test fails:"
    grep -v '^=== RUN\|^--- PASS\|^PASS' "$work/told"
    exit 1
fi

# The day of docs/TOUR.md, by the example.
go build -o "$work/lines" ./cmd/lines || exit 1
read -r port <<<"$(free_ports 1)"
"$program" serve "127.0.0.1:$port" 1 3 <"$top/examples/serve/policy" >"$work/after" &
await_port "$port" || exit 1
for it in storage bob; do
    if ! "$work/lines" "127.0.0.1:$port" <"$top/examples/serve/$it.requests" | diff "$top/examples/serve/$it.replies" -; then
        echo "clients/go: cmd/lines prints other replies to $it.requests"
        exit 1
    fi
done
if echo 'object' | "$work/lines" "127.0.0.1:$port" 2>/dev/null; then
    echo "clients/go: cmd/lines takes what is no request line"
    exit 1
fi
echo "the client in Go passes its $(grep -c '^--- PASS' "$work/told") tests"
