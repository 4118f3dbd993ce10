#!/usr/bin/env bash
# Plays a service and a client at the two ends of a tunnel, with right certificates and with wrong ones. What is wanted stands here.
#
#   examples/tunnel/run.sh [PROGRAM]
#
# Prints what differs and ends with 1, or prints `N checks of the tunnel pass` and ends with 0. Where Debian's stunnel4 or openssl is missing
# and can't be installed it says that it is skipped.
set -u

here=$(cd "$(dirname "$0")" && pwd) || exit 1
top=$here/../..
program=${1:-$top/nexus}
# shellcheck source=../../tools/play.sh
. "$top/tools/play.sh"

if ! need stunnel stunnel4 || ! need openssl openssl; then
    echo "examples/tunnel: skipped, since there is no stunnel4 or no openssl and it could not be installed"
    exit 0
fi

work=$(mktemp -d) || exit 1
trap 'kill $(jobs -p) 2>/dev/null; wait; rm -rf "$work"' EXIT
read -r nexus_port far_port near_port rogue_port astray_port <<<"$(free_ports 5)"

passed=0
failed=0

# expect WHAT WANTED GOT
expect() {
    if [ "$2" = "$3" ]; then
        passed=$((passed + 1))
    else
        echo "examples/tunnel: $1: differs: wanted '$2', got '$3'"
        failed=$((failed + 1))
    fi
}

# tunnel CONF NEAR FAR LISTENS: starts stunnel with this file, where it has the port NEAR for 4001 and FAR for 4443, and waits until it
# listens. Its process is in `tunnel`.
tunnel() {
    sed -e "s|WORK|$work|; s|:4000|:$nexus_port|; s|:4001|:$2|; s|:4443|:$3|" "$here/$1" >"$work/$1"
    stunnel "$work/$1" 2>/dev/null &
    tunnel=$!
    await_port "$4" || exit 1
}

# hello PORT: what bob's hello is answered there.
hello() {
    echo 'hello bob bob-secret' | timeout 5 "$program" client "127.0.0.1:$1"
}

# await_bytes FILE PROCESS: waits until something is in the file, or the process has ended, and then ends it.
await_bytes() {
    for _ in $(seq 200); do
        [ -s "$1" ] && break
        kill -0 "$2" 2>/dev/null || break
        sleep 0.05
    done
    kill "$2" 2>/dev/null
    wait "$2" 2>/dev/null
}

# told WORD ..: sends bob's hello over TLS, with these words for the certificate, and prints how many bytes come back.
told() {
    rm -f "$work/said" "$work/told"
    mkfifo "$work/said"
    exec 8<>"$work/said"
    printf '\0\0\0\x12\x01\0\3bob\0\x0abob-secret' >&8
    openssl s_client -connect "127.0.0.1:$far_port" -quiet "$@" <&8 >"$work/told" 2>/dev/null &
    await_bytes "$work/told" $!
    exec 8>&-
    wc -c <"$work/told"
}

# By the commands of docs/OPERATING.md.
make_certificates() {
    local name command
    "$here/certificate.sh" "$work/ann"
    while IFS= read -r command; do
        (cd "$work" && eval "${command/examples/$top/examples}") || exit 1
    done < <(shown 'Over a tunnel' | sed -n '/^\$ \(examples\/\|cat \|cp \)/s/^..//p')
    for name in stranger rogue; do
        "$here/certificate.sh" "$work/$name"
    done
    # One that says that it is bob's.
    mkdir "$work/other"
    "$here/certificate.sh" "$work/other/bob"
}

start_service() {
    # The one worker serves one connection after another, so the number of a session tells how many there were.
    "$program" serve "127.0.0.1:$nexus_port" 1 1000 <"$top/examples/serve/policy" >"$work/after" &
    await_port "$nexus_port" || exit 1
    tunnel serve.conf - "$far_port" "$far_port"
    serve_tunnel=$tunnel
    tunnel client.conf "$near_port" "$far_port" "$near_port"
}

play_right() {
    local name
    for name in storage bob; do
        expect "$name" "$(cat "$top/examples/serve/$name.replies")" \
            "$("$program" client "127.0.0.1:$near_port" <"$top/examples/serve/$name.requests")"
    done
}

# The frame of a welcome has 21 bytes.
play_certificates() {
    expect 'the certificate of bob' 21 "$(told -cert "$work/bob.pem" -key "$work/bob.pem")"
    expect 'the certificate of ann' 21 "$(told -cert "$work/ann.pem" -key "$work/ann.pem")"
    expect 'no certificate' 0 "$(told)"
    expect 'an unknown certificate' 0 "$(told -cert "$work/stranger.pem" -key "$work/stranger.pem")"
    expect 'an unknown certificate of the name bob' 0 "$(told -cert "$work/other/bob.pem" -key "$work/other/bob.pem")"
    expect 'the certificate of the service' 0 "$(told -cert "$work/serve.pem" -key "$work/serve.pem")"
    expect 'an older TLS' 0 "$(told -cert "$work/bob.pem" -key "$work/bob.pem" -tls1_2)"
    expect 'no TLS' '' "$(hello "$far_port")"
    # Sessions 3 and 4 were bob's and ann's. Nobody else had one, as each connection that comes through is a session.
    expect 'the sessions' 'welcome 5 5' "$(hello "$near_port")"
}

# Takes ann off the list. stunnel reads its files again at a signal.
play_taken_off() {
    cp "$work/bob.cert" "$work/peers.pem"
    kill -HUP "$serve_tunnel"
    for _ in $(seq 200); do
        [ "$(grep -c 'Configuration successful' "$work/serve.log")" = 2 ] && break
        sleep 0.05
    done
    sleep 0.2
    expect 'a certificate that was taken off' 0 "$(told -cert "$work/ann.pem" -key "$work/ann.pem")"
    expect 'one that was not' 'welcome 6 5' "$(hello "$near_port")"
}

# heard NAME: the bytes that a TLS server with this certificate hears of a client whose tunnel leads to it.
heard() {
    rm -f "$work/heard"
    openssl s_server -accept "127.0.0.1:$rogue_port" -cert "$work/$1.pem" -key "$work/$1.pem" -quiet <&9 >"$work/heard" 2>/dev/null &
    local server=$!
    await_port "$rogue_port" || exit 1
    # The server answers nothing, so a client that got through waits for it.
    hello "$astray_port" >/dev/null 2>&1 &
    await_bytes "$work/heard" $!
    kill "$server"
    wait "$server" 2>/dev/null
    wc -c <"$work/heard"
}

# A client sends nothing to whoever is not the service. The frame of the hello has 22 bytes.
play_astray() {
    # The server of openssl hears nothing where its own input has ended.
    mkfifo "$work/open"
    exec 9<>"$work/open"
    tunnel client.conf "$astray_port" "$rogue_port" "$astray_port"
    expect 'what the service would hear' 22 "$(heard serve)"
    expect 'what another one hears' 0 "$(heard rogue)"
}

# Each line that docs/OPERATING.md shows of the two files stands there.
play_document() {
    local line
    while IFS= read -r line; do
        expect 'docs/OPERATING.md' "$line" "$(cat "$here"/*.conf | sed 's/WORK.//' | grep -m 1 -xF -- "$line")"
    done < <(shown 'Over a tunnel' | grep -v '^\$ ')
}

make_certificates
start_service
for it in right certificates taken_off astray document; do
    "play_$it"
done
if [ "$failed" -gt 0 ]; then
    echo "examples/tunnel: $passed checks pass, $failed differ"
    exit 1
fi
echo "$passed checks of the tunnel pass"
