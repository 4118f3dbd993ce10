#!/bin/sh
# Changes a second of a service whose text is kept in three nodes of etcd on loopback by clients/python/nexus_log.py, with 1 and with 8
# connections, each of which waits for the reply to one change before the next; beside them the puts a second that as many clients make of etcd by
# the same HTTP gateway, of values as long, and the ratio; and how many microseconds 99 of 100 waited at most. Then how long a service takes to be
# started from the log, and what etcd's file has for a line. The two take turns. It needs the built program (./nexus builds it), python3 of 3.9 or
# later, and etcd (Debian's etcd-server). COUNT is how many changes a connection makes at each turn (300), RUNS how many turns there are (3): the
# medians are printed. WORK is the folder for the nodes' data (that of mktemp): on a disk, each change waits for it.
set -eu
here=$(cd "$(dirname "$0")" && pwd)
program=${1:-$here/../../crates/nexus_main/out/nexus_main}
work=$(mktemp -d ${WORK:+-p "$WORK"})
trap 'rm -rf "$work"' EXIT
python3 -B "$here/times.py" "$program" "$work" "${COUNT:-300}" "${RUNS:-3}"
