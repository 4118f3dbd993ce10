#!/usr/bin/env bash
# Makes the package, looks into it, and plays the program and the scripts in it. Nothing is installed.
#
#   packaging/run.sh
#
# Prints what differs and ends with 1, or prints `N checks of the package pass` and ends with 0. Where there is no dpkg-deb it says that it is
# skipped; where there is no lintian, that this is.
set -u

top=$(cd -P -- "$(dirname -- "$0")/.." && pwd) || exit 1
# shellcheck source=../tools/play.sh
. "$top/tools/play.sh"

if ! command -v dpkg-deb >/dev/null; then
    echo "packaging: skipped, since there is no dpkg-deb"
    exit 0
fi

work=$(mktemp -d) || exit 1
service=
trap '[ -z "$service" ] || kill -KILL "$service" 2>/dev/null; wait; rm -rf "$work"' EXIT
root=$work/root
export STATE_DIRECTORY=$work/state WORKERS=1 SESSIONS=100
passed=0
failed=0

# expect WHAT WANTED GOT
expect() {
    if [ "$2" = "$3" ]; then
        passed=$((passed + 1))
    else
        echo "packaging: $1: differs: wanted '$2', got '$3'"
        failed=$((failed + 1))
    fi
}

look_into() {
    local package again
    package=$("$top/packaging/build.sh" "$work/first") && again=$("$top/packaging/build.sh" "$work/second") || exit 1
    expect 'a second one' '' "$(cmp "$package" "$again" 2>&1)"
    dpkg-deb -x "$package" "$root" && dpkg-deb -e "$package" "$root/DEBIAN" || exit 1
    expect 'the files' '' "$(cd "$root" && find . -path ./DEBIAN -prune -o -type f -printf '%P\n' | LC_ALL=C sort | diff "$top/packaging/contents" -)"
    expect 'the sums' '' "$(cd "$root" && md5sum --quiet -c DEBIAN/md5sums 2>&1)"
    expect 'the program' "$(sed -n 's/^sha256 //p' "$top/release/MANIFEST")" "$(sha256sum <"$root/usr/lib/nexus/nexus" | cut -d ' ' -f 1)"
    expect 'the version' "$(<"$top/VERSION")" "$(dpkg-deb -f "$package" Version)"
    expect 'what others may write' '' "$(find "$root" -type f -perm /022)"
    if ! command -v lintian >/dev/null; then
        echo "packaging: lintian is skipped, since it is not there"
    else
        expect 'lintian' '' "$(lintian --fail-on none "$package" 2>/dev/null | grep '^E')"
    fi
}

# What a command writes where a terminal is its input and output.
on_terminal() {
    python3 -c 'import os, pty, sys; sys.exit(os.waitstatus_to_exitcode(pty.spawn(sys.argv[1:])))' "$@" </dev/null | tr -d '\r'
}

# The launcher, with its paths in the folder.
play_launcher() {
    sed -i "s|/usr/|$root/usr/|" "$root/usr/bin/nexus"
    expect 'the version it says' "nexus $(<"$top/VERSION")" "$("$root/usr/bin/nexus" --version)"
    expect 'its help' "$(cat "$top/tools/usage.txt")" "$("$root/usr/bin/nexus" help)"
    expect 'no word' 2 "$("$root/usr/bin/nexus" 2>/dev/null; echo $?)"
    expect 'a check' allowed "$("$root/usr/bin/nexus" check <"$top/examples/check/share/input")"
    expect 'the status of a denial' 1 "$("$root/usr/bin/nexus" check <"$top/examples/check/wrong_order/input" >/dev/null; echo $?)"
    expect 'a word too many' 2 "$("$root/usr/bin/nexus" help me </dev/null; echo $?)"
    for launcher in "$root/usr/bin/nexus" "$top/nexus"; do
        expect 'what a status means, on a terminal' \
            'nexus: these words are none of a command; `help` lists the commands (status 2)' "$(on_terminal "$launcher" chek | tail -n 1)"
    done
}

play_secrets() {
    mkdir -m 700 "$STATE_DIRECTORY"
    "$root/usr/lib/nexus/draw-secrets" <"$root/usr/share/doc/nexus/examples/policy" >"$STATE_DIRECTORY/policy"
    expect 'the secrets that are drawn' 3 "$(sed -n 's/^principal [a-z]* \([0-9a-f]\{64\}\)$/\1/p' "$STATE_DIRECTORY/policy" | sort -u | wc -l)"
    expect 'what is drawn again' 1 "$("$root/usr/lib/nexus/draw-secrets" <"$top/packaging/policy" | cmp -s - "$STATE_DIRECTORY/policy"; echo $?)"
    expect 'a policy of them' "$(cat "$STATE_DIRECTORY/policy")" "$("$root/usr/lib/nexus/nexus" script <"$STATE_DIRECTORY/policy")"
}

start_service() {
    local port
    read -r port <<<"$(free_ports 1)"
    export ADDRESS=127.0.0.1:$port
    "$root/usr/lib/nexus/serve" &
    service=$!
    await_port "$port" || exit 1
}

kill_service() {
    kill -KILL "$service"
    wait "$service" 2>/dev/null
    service=
}

# ask NAME LINE: what this principal is answered to the line.
ask() {
    local secret
    secret=$(sed -n "s/^principal $1 //p" "$STATE_DIRECTORY/policy")
    printf 'hello %s %s\n%s\n' "$1" "$secret" "$2" | "$root/usr/lib/nexus/nexus" client "$ADDRESS" | tail -n 1
}

# A service that is killed, and starts again with what it had answered.
play_service() {
    start_service
    expect 'an object' 'done 1 0' "$(ask storage 'object report')"
    expect 'a goal' 'done 2 0' "$(ask storage 'goal read report : storage says may_read(?subject)')"
    kill_service
    RECORDS=yes start_service 2>"$work/records"
    expect 'the goal after a kill' 'denied 2 NoProof' "$(ask bob 'call read report 0')"
    expect 'the record of this call' '2 bob read report - : denied NoProof' "$(cat "$work/records")"
    expect 'one more change' 'done 3 3' "$(ask storage 'say storage : may_read(bob)')"
    kill_service
    expect 'who may read the files' '' "$(find "$STATE_DIRECTORY" -type f -perm /077)"
}

settle() {
    "$root/usr/lib/nexus/settle" 2>"$work/said"
}

# The names of the files in the state directory.
left() {
    (cd "$STATE_DIRECTORY" && echo *)
}

# What a service may have left, and what is made of it. The policy has 9 lines: a head of 5, 3 entries, and `end`.
play_settle() {
    local policy=$STATE_DIRECTORY/policy after=$STATE_DIRECTORY/after
    settle
    expect 'the entries' 3 "$(grep -c '^[0-9]* storage' "$policy")"
    expect 'what was settled' policy "$(left)"
    cp "$policy" "$work/policy"
    for lines in 0 1 5 7; do
        head -n "$lines" "$work/policy" >"$after"
        printf 'cut' >>"$after"
        settle
        expect "a service that was killed after $lines of its first lines" policy "$(cmp "$policy" "$work/policy"; left)"
    done
    { head -n 8 "$work/policy" && echo '9 alice say alice : more' && printf '9 alice say ali'; } >"$after"
    settle
    expect 'a change more, and one that was cut' "$(head -n 8 "$work/policy"; echo '9 alice say alice : more'; echo end)" "$(cat "$policy")"
    expect 'who may read what was settled' '' "$(find "$STATE_DIRECTORY" -type f -perm /077)"
    { head -n 8 "$work/policy" && echo 'no entry' && echo '9 alice say alice : more'; } >"$after"
    cp "$policy" "$work/policy"
    expect 'a text that is none' 3 "$(settle; echo $?)"
    expect 'what is left of it' 'after policy recovered' "$(left)"
    expect 'the policy then' '' "$(cmp "$policy" "$work/policy")"
    expect 'what is said of it' 1 "$(grep -c 'refused line 9 of' "$work/said")"
    expect 'a service on it' 3 "$(timeout 10 "$root/usr/lib/nexus/serve" 2>/dev/null; echo $?)"
}

# The day of examples/serve, by the program of the package.
play_day() {
    local told
    told=$(cd "$top/examples/serve" && python3 -B -c 'import run, sys; run.program = sys.argv[1]; run.play_day(); print("a day")' "$root/usr/lib/nexus/nexus" 2>&1)
    expect 'the day of examples/serve' 'a day' "$told"
}

look_into
for it in launcher secrets service settle day; do
    "play_$it"
done
if [ "$failed" -gt 0 ]; then
    echo "packaging: $passed checks pass, $failed differ"
    exit 1
fi
echo "$passed checks of the package pass"
