#!/usr/bin/env bash
# A document service behind nginx, on ports of this machine that are free.
#
#   examples/nginx/service.sh [PROGRAM]     starts it, says where it is, and stops it where Enter is typed or the input ends
#
# PROGRAM is ./nexus at the top of the repository where none is given. run.sh takes the functions of this script.
set -u

here=$(cd "$(dirname "${BASH_SOURCE[0]}")" && pwd) || exit 1
top=$here/../..
program=${1:-$top/nexus}
# shellcheck source=../../tools/play.sh
. "$top/tools/play.sh"

# Makes the folder that all is in, and draws the ports.
lay_out() {
    work=$(mktemp -d) || exit 1
    trap stop_all EXIT
    read -r nexus_port gate_port door_port desk_port <<<"$(free_ports 4)"
    chmod 755 "$work"
    cp -r "$here/site" "$work/site"
    echo 'on_duty(ann)' >"$work/rota"
    sed -e "s|WORK|$work|; s|GATE|$gate_port|; s|DOOR|$door_port|" "$here/nginx.conf" >"$work/nginx.conf"
    (umask 077 && sed -e "s|DESK|$desk_port|" "$here/policy" >"$work/policy")
    door=http://127.0.0.1:$door_port
}

# The process of each part, by its name.
declare -A started=()

# start NAME PORT COMMAND ..: starts a part and waits until it listens. What it reads is the input of the function.
start() {
    { "${@:3}" <&3 & } 3<&0
    started[$1]=$!
    await_port "$2"
}

# stop NAME: stops a part.
stop() {
    kill -KILL "${started[$1]}" 2>/dev/null
    wait "${started[$1]}" 2>/dev/null
    unset "started[$1]"
}

start_desk() {
    start desk "$desk_port" python3 -B "$top/examples/operating/authority.py" "127.0.0.1:$desk_port" "$work/rota"
}

start_nexus() {
    (umask 077 && : >"$work/after")
    start nexus "$nexus_port" "$program" serve "127.0.0.1:$nexus_port" 8 1000 <"$work/policy" >"$work/after"
}

start_gate() {
    start gate "$gate_port" python3 -B "$top/clients/python/nexus_http.py" \
        --nexus "127.0.0.1:$nexus_port" --listen "127.0.0.1:$gate_port" --table "$here/table" --sessions 6 >"$work/gate.log"
}

start_nginx() {
    start nginx "$door_port" nginx -p "$work" -e "$work/error.log" -c "$work/nginx.conf"
}

start_all() {
    start_desk && start_nexus && start_gate && start_nginx
}

# nginx has children, which end with it where it is told to end.
stop_all() {
    local name
    [ -z "${started[nginx]-}" ] || { kill "${started[nginx]}" && wait "${started[nginx]}"; } 2>/dev/null
    for name in "${!started[@]}"; do
        stop "$name"
    done
    rm -rf "$work"
}

if [ "${BASH_SOURCE[0]}" = "$0" ]; then
    if ! need nginx nginx; then
        echo "nginx is missing; apt-get install nginx"
        exit 1
    fi
    lay_out
    start_all || exit 1
    echo "$door/ is open. Readers are ann, bob and carol, with the secrets ann-secret and so on."
    echo "The service is at 127.0.0.1:$nexus_port. Enter stops all."
    read -r _
fi
