#!/bin/sh
# What a policy of 16,384 principals and 65,536 objects costs beside one of 10 principals: how long it takes to be read, in seconds, the rates of a
# service of each, on one connection of its last principal, with the ratio of the two (hellos, each over a connection of its own; kept calls; calls
# that are checked anew; changes), and the bytes of a board. It needs the built program (./nexus builds it), a C compiler and python3. CALLS is how
# many calls are made (32000), RUNS how often each is measured, in turns (3): the median is printed.
set -eu
here=$(cd "$(dirname "$0")" && pwd)
program=${1:-$here/../../crates/nexus_main/out/nexus_main}
work=$(mktemp -d)
trap 'rm -rf "$work"' EXIT
${CC:-cc} -O2 -o "$work/load" "$here/../serve/load.c" -lpthread
exec python3 "$here/times.py" "$program" "$work/load" "$work"
