# shellcheck shell=bash
# For scripts that play an example against a program of Debian, which have set `top` to the top of the repository.

: "${top:?}"

# Where Debian has nginx, which the path of a user other than root leaves out.
PATH=$PATH:/usr/sbin

# need COMMAND PACKAGE: whether there is the command. Where it is missing, root installs its package; nothing is started by that, now or
# at the next start of the machine. What apt-get says is not shown.
need() {
    command -v "$1" >/dev/null && return 0
    [ "$(id -u)" -eq 0 ] && command -v apt-get >/dev/null || return 1
    (install_quietly "$2")
    command -v "$1" >/dev/null
}

# install_quietly PACKAGE: installs it, in a subshell, while the system is told to start no service.
install_quietly() {
    local policy=/usr/sbin/policy-rc.d
    if [ ! -e "$policy" ]; then
        trap 'rm -f /usr/sbin/policy-rc.d' EXIT
        printf '#!/bin/sh\nexit 101\n' >"$policy" && chmod 755 "$policy"
    fi
    apt_get --yes --no-install-recommends install "$1" || { apt_get update && apt_get --yes --no-install-recommends install "$1"; }
    if [ -d /run/systemd/system ]; then
        systemctl disable "$1" 2>/dev/null
    fi
}

apt_get() {
    DEBIAN_FRONTEND=noninteractive timeout 300 apt-get -o Acquire::Retries=0 -o Acquire::http::Timeout=10 "$@" </dev/null >/dev/null 2>&1
}

# free_ports COUNT: prints so many ports of this machine on which nobody listens, each another one. They are drawn below those that the
# system gives to connections, so nobody is given one of them before it is used.
free_ports() {
    python3 - "$1" <<'PYTHON'
import random, socket, sys

doors = []
while len(doors) < int(sys.argv[1]):
    door = socket.socket()
    try:
        door.bind(("127.0.0.1", random.randrange(10000, 32768)))
        doors.append(door)
    except OSError:
        door.close()
print(*(door.getsockname()[1] for door in doors))
PYTHON
}

# await_port PORT: waits until somebody listens there, at most ten seconds. It makes no connection, as that would be a session of a service.
await_port() {
    local row
    row=$(printf ': 0100007F:%04X 00000000:0000 0A ' "$1")
    for _ in $(seq 200); do
        grep -qF "$row" /proc/net/tcp && return 0
        sleep 0.05
    done
    echo "nobody listens at port $1" >&2
    return 1
}

# shown HEADING: the indented lines that docs/OPERATING.md shows in this section, without blanks in front. Commands begin with `$ `.
shown() {
    sed -n "/^## $1\$/,/^## [^${1:0:1}]/s/^    *//p" "$top/docs/OPERATING.md"
}
