#!/bin/sh
# What a thread for each peer costs, in a service of as many sessions as there may be: its memory with one worker and with 1,024, before a peer
# has connected; what a session that was served takes; the memory with 1,023 admitted peers that say nothing, and how many kept calls a second one
# more peer makes beside them; and the calls of 1,024 busy peers, beside those of 16. It needs the built program (./nexus builds it), a C compiler,
# Python, and a limit of open files of 4,096 (ulimit -n).
set -eu
here=$(cd "$(dirname "$0")" && pwd)
program=${1:-$here/../../crates/nexus_main/out/nexus_main}
work=$(mktemp -d)
service='' idle=''
trap '[ -z "$service$idle" ] || kill $service $idle 2>/dev/null; rm -rf "$work"' EXIT
${CC:-cc} -O2 -o "$work/load" "$here/../serve/load.c" -lpthread
# shellcheck disable=SC3045
ulimit -n 4096

policy() {
    awk 'BEGIN {
        print "nexus 2"
        for (k = 0; k < 60; k++) print "principal p" k " s" k
        for (k = 0; k < 60; k++) {
            print "1 p" k " object o" k
            print "1 p" k " goal read o" k " : true"
            print "1 p" k " proof read o" k " : proof 2 ; 1 true_i : true ; end"
        }
        print "end"
    }'
}

# resident: the kibibytes that the service holds in memory, and how many threads it has.
resident() {
    awk '/^VmRSS/ { print $2 }' "/proc/$service/status"
}
threads() {
    awk '/^Threads/ { print $2 }' "/proc/$service/status"
}

# memory: the same in mebibytes.
memory() {
    echo $(($(resident) / 1024))
}

# start WORKERS: a service whose workers are all there.
start() {
    policy | "$program" serve "unix:$work/nexus" "$1" 65536 86400 >"$work/after" &
    service=$!
    while [ "$(threads)" -lt "$1" ]; do sleep 0.01; done
    while [ ! -S "$work/nexus" ]; do sleep 0.01; done
}

stop() {
    kill "$service" 2>/dev/null || true
    wait "$service" 2>/dev/null || true
    service=''
    rm -f "$work/nexus"
}

start 1
sleep 0.5
one=$(resident)
served=50000
python3 -B "$here/sessions.py" "$work/nexus" "$served"
echo "a session that was served: $((1024 * ($(resident) - one) / served)) bytes, of $served"
stop
start 1024
all=$(resident)
echo "1,024 workers, no peer: $((all / 1024)) MiB, and one: $((one / 1024)) MiB; a worker: $(((all - one) / 1023)) KiB"
alone=$("$work/load" "$work/nexus" 1 64000 1 call)
: >"$work/told"
python3 -B "$here/idle.py" "$work/nexus" 1023 >"$work/told" &
idle=$!
while ! grep -q admitted "$work/told"; do sleep 0.1; done
echo "1,023 admitted peers that say nothing: $(memory) MiB"
beside=$("$work/load" "$work/nexus" 1 64000 1 call)
echo "$alone $beside" | awk '{ printf "kept calls of one peer: %d a second beside them, %d without them, ratio %.2f\n", $3, $1, $3 / $1 }'
kill "$idle"
wait "$idle" 2>/dev/null || true
idle=''
stop
start 1024
few=$("$work/load" "$work/nexus" 16 16000 1 call)
many=$("$work/load" "$work/nexus" 1024 500 1 call)
echo "$few $many" | awk '{ printf "kept calls of 1,024 busy peers: %d a second, 99 of 100 within %d microseconds; of 16: %d, %d; ratio %.2f\n", $3, $4, $1, $2, $3 / $1 }'
echo "with 1,024 busy peers: $(memory) MiB"
stop
