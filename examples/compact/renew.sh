#!/usr/bin/env bash
# Renews a service in a pause: stops it, makes a policy of the entries that still matter, and starts it again at the same address.
#
#   renew.sh PROGRAM PID AFTER FOLDER ADDRESS WORKERS SESSIONS
#
# PID is the process of the service, AFTER the file that it wrote. FOLDER is made, and gets `before`, the whole policy of before, against
# which records of before are audited; `policy`, the compacted one; `numbers`, a line `OLD NEW` for each label that is kept; and `after`,
# to which the new service writes. Its process is told once it listens. Where FOLDER is there already nothing is done. Where a later step
# fails the service was stopped, the steps behind it are not made, AFTER is as it was, and the status is that of the step.
set -eu

program=$1 service=$2 after=$3 folder=$4 address=$5 workers=$6 sessions=$7
umask 077
mkdir "$folder"

# A process that nobody has waited for has ended too.
has_ended() {
    case $(ps -o stat= -p "$service") in
    '' | Z*) true ;;
    *) false ;;
    esac
}

kill "$service"
for _ in {1..1000}; do
    has_ended && break
    sleep 0.01
done
has_ended
"$program" recover <"$after" >"$folder/before"
"$program" compact <"$folder/before" >"$folder/policy" 2>"$folder/numbers"
"$program" serve "$address" "$workers" "$sessions" <"$folder/policy" >"$folder/after" &
next=$!
# It writes when it listens, and has ended with its status where it can't.
while [ ! -s "$folder/after" ]; do
    if ! kill -0 "$next" 2>/dev/null; then
        wait "$next"
    fi
    sleep 0.01
done
echo "$next"
