#!/bin/sh
# Requests a second of `nexus serve` over loopback TCP, and how many microseconds 99 of 100 of them waited at most: calls that a kept verdict
# answers, calls of a proof of four lines that is checked anew each time (a label of it is missing, and such a denial is not kept), and writes; with
# 1 and with 4 connections, each of which waits for the reply to one request before the next, and kept calls also 32 at a time; with a journal of
# few entries and with one of 200,000; and calls while another session changes the policy 500 times a second. Beside them what redis-server does
# with GET and, with an append-only file that is synced behind each write (`appendfsync always`), as the service's text is, with SET. Then writes on 16
# connections, kept calls over a local socket beside redis over one of its own, how calls that are checked anew fare while a writer writes as fast
# as it can, beside those without it, and kept calls with records of them in a file beside those without.
# Then the kept calls that the clients for programs make: that in Python, and that in Go where there is Go.
# It needs the built program (./nexus builds it), a C compiler and, for the ratios, redis-server and redis-benchmark (Debian's redis-server).
# CALLS is how many calls a connection makes (64000). The writes of a connection are 3,840, as one principal may have few more.
set -eu
here=$(cd "$(dirname "$0")" && pwd)
program=${1:-$here/../../crates/nexus_main/out/nexus_main}
calls=${CALLS:-64000}
writes=3840
port=${PORT:-42917}
work=$(mktemp -d)
redis='' service='' other=''
trap '[ -z "$redis$service$other" ] || kill $redis $service $other 2>/dev/null; rm -rf "$work"' EXIT
${CC:-cc} -O2 -o "$work/load" "$here/load.c" -lpthread

# policy COUNT ENTRIES: the text of a policy of so many principals, each with an object and a proof, of one more that changes the policy, and
# of so many entries more, 4,000 for each of further principals.
policy() {
    awk -v count="$1" -v entries="$2" 'BEGIN {
        fillers = entries / 4000
        print "nexus 2"
        for (k = 0; k < count; k++) print "principal p" k " s" k
        print "principal pC sC"
        for (k = 0; k < fillers; k++) print "principal q" k " t" k
        for (k = 0; k < count; k++) {
            print "1 p" k " object o" k
            for (turn = 0; turn < 2; turn++) {
                goal = turn ? "miss" : "read"
                both = "p" k " says a and p" k " says " (turn ? "c" : "b")
                print "1 p" k " goal " goal " o" k " : " both " or false"
                print "1 p" k " proof " goal " o" k " : proof 2 ; 1 label : p" k " says a ; 2 label : p" k " says " (turn ? "c" : "b") \
                    " ; 3 and_i 1 2 : " both " ; 4 or_l 3 : " both " or false ; end"
            }
            print "1 p" k " say p" k " : a"
            print "1 p" k " say p" k " : b"
        }
        for (k = 0; k < fillers; k++) for (n = 0; n < 4000; n++) print "1 q" k " say q" k " : ok"
        print "end"
    }'
}

if command -v redis-server >/dev/null && command -v redis-benchmark >/dev/null; then
    mkdir "$work/get" "$work/set"
    redis-server --port $((port + 1)) --unixsocket "$work/redis" --save '' --appendonly no --dir "$work/get" >/dev/null &
    redis=$!
    redis-server --port $((port + 2)) --save '' --appendonly yes --appendfsync always --dir "$work/set" >/dev/null &
    redis="$redis $!"
else
    echo "without redis, as there is no redis-server or no redis-benchmark here"
fi

# row TEXT "RATE WAIT" COMMAND CONNECTIONS COUNT DEPTH [SOCKET]: prints a row of the table, with what redis does in place of it.
row() {
    peer='- -'
    where="-p $((port + 1))"
    [ "$3" != set ] || where="-p $((port + 2))"
    [ -z "${7:-}" ] || where="-s $7"
    # shellcheck disable=SC2086
    [ -z "$redis" ] || peer=$(redis-benchmark $where -t "$3" -c "$4" -P "$6" -n $(($4 * $5)) --csv |
        awk -F'"' 'tolower($2) == "'"$3"'" { print int($4), int($14 * 1000) }')
    echo "$2 $peer" | awk -v text="$1" '{
        printf "%-44s %9d %9s %6s %9d %9s\n", text, $1, $3, $3 == "-" ? "-" : sprintf("%.2f", $1 / $3), $2, $4 }'
}

printf '%-44s %9s %9s %6s %9s %9s\n' '' 'a second' redis ratio '99 in 100' redis
for entries in 0 200000; do
    for connections in 1 4; do
        # The sessions of the churn take a worker of their own.
        policy "$connections" "$entries" | "$program" serve "127.0.0.1:$port" $((connections + 1)) 64 >"$work/after" &
        service=$!
        kept=$("$work/load" "$port" "$connections" "$calls" 1 call)
        many=$("$work/load" "$port" "$connections" "$calls" 32 call)
        anew=$("$work/load" "$port" "$connections" "$calls" 1 miss)
        said=$("$work/load" "$port" "$connections" "$writes" 1 say)
        "$work/load" "$port" churn &
        other=$!
        busy=$("$work/load" "$port" "$connections" "$calls" 1 call)
        busy_anew=$("$work/load" "$port" "$connections" "$calls" 1 miss)
        kill "$other" "$service" || true
        wait "$other" "$service" 2>/dev/null || true
        other='' service=''
        of="$connections connections, $entries entries"
        row "kept calls, $of" "$kept" get "$connections" "$calls" 1
        row "kept calls by 32, $of" "$many" get "$connections" "$calls" 32
        row "calls checked anew, $of" "$anew" get "$connections" "$calls" 1
        row "writes, $of" "$said" set "$connections" "$writes" 1
        row "kept calls amid changes, $of" "$busy" get "$connections" "$calls" 1
        row "calls anew amid changes, $of" "$busy_anew" get "$connections" "$calls" 1
    done
done

# Writes of 16 connections.
policy 16 0 | "$program" serve "127.0.0.1:$port" 17 64 >"$work/after" &
service=$!
said=$("$work/load" "$port" 16 "$writes" 1 say)
kill "$service" || true
wait "$service" 2>/dev/null || true
service=''
row "writes, 16 connections" "$said" set 16 "$writes" 1

# A local socket, and calls beside a writer at full speed: its writes take a principal's own entries, so it gets fewer of them.
policy 2 0 | "$program" serve "unix:$work/nexus" 3 64 >"$work/after" &
service=$!
local=$("$work/load" "$work/nexus" 1 "$calls" 1 call)
alone=$("$work/load" "$work/nexus" 1 "$calls" 1 miss)
"$work/load" "$work/nexus" 2 "$writes" 1 say >/dev/null &
other=$!
beside=$("$work/load" "$work/nexus" 1 $((writes / 2)) 1 miss)
kill "$other" "$service" 2>/dev/null || true
wait "$other" "$service" 2>/dev/null || true
other='' service=''
row "kept calls over a local socket" "$local" get 1 "$calls" 1 "$work/redis"
echo "$alone $beside" | awk '{ printf "calls anew beside a writer at full speed: %d a second, without it %d, ratio %.2f\n", $3, $1, $3 / $1 }'

# Calls that are recorded into a file, beside those that are not: the two services run at once, and are asked by turns.
policy 4 0 | "$program" serve "unix:$work/plain" 4 64 >"$work/after" &
service=$!
policy 4 0 | "$program" serve "unix:$work/recorded" 4 64 records >"$work/after.recorded" 2>"$work/calls" &
other=$!
for turn in 1 2 3; do
    plain=$("$work/load" "$work/plain" 4 "$calls" 1 call)
    recorded=$("$work/load" "$work/recorded" 4 "$calls" 1 call)
    echo "$plain $recorded" | awk -v turn="$turn" '{ printf "kept calls with records, 4 connections, turn %d: %d a second, without them %d, ratio %.2f\n", turn, $3, $1, $3 / $1 }'
done
kill "$other" "$service" 2>/dev/null || true
wait "$other" "$service" 2>/dev/null || true
other='' service=''

# The clients for programs, beside each other. That in Python makes a quarter of the calls.
if command -v go >/dev/null; then
    (cd "$here/../../clients/go" && GOCACHE=$work/go GOPROXY=off CGO_ENABLED=0 go build -o "$work/load_go" ./cmd/load)
fi
for connections in 1 4; do
    policy "$connections" 0 | "$program" serve "127.0.0.1:$port" $((connections + 1)) 64 >"$work/after" &
    service=$!
    # It waits until the service listens, which the others do not.
    "$work/load" "$port" "$connections" 64 1 call >/dev/null
    for depth in 1 32; do
        of="$connections connections, $depth at a time"
        python=$(python3 -B "$here/load.py" "$port" "$connections" $((calls / 4)) "$depth")
        row "client in Python, $of" "$python" get "$connections" "$calls" "$depth"
        [ ! -x "$work/load_go" ] || row "client in Go, $of" "$("$work/load_go" "$port" "$connections" "$calls" "$depth")" get "$connections" "$calls" "$depth"
    done
    kill "$service" || true
    wait "$service" 2>/dev/null || true
    service=''
done
