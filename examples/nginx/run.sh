#!/usr/bin/env bash
# Plays a document service behind nginx by curl: readers who may and may not read, one whose right is taken back, an authority that is down,
# hostile paths and headers, and each part being killed. What is wanted stands here.
#
#   examples/nginx/run.sh [PROGRAM]
#
# Prints what differs and ends with 1, or prints `N requests to nginx are answered right` and ends with 0. Where Debian's nginx or curl is
# missing and can't be installed it says that it is skipped.
here=$(cd "$(dirname "$0")" && pwd) || exit 1
# shellcheck source=service.sh
. "$here/service.sh"

for it in nginx curl; do
    if ! need "$it" "$it"; then
        echo "examples/nginx: skipped, since there is no $it and it could not be installed"
        exit 0
    fi
done

# The command of docs/OPERATING.md takes the place of the one of service.sh.
gate_command=$(shown 'Beside nginx' | sed -n 's|^\$ \(clients/python/nexus_http.py .*\) &$|\1|p')

start_gate() {
    local command=${gate_command/127.0.0.1:4000/127.0.0.1:$nexus_port}
    command=${command/127.0.0.1:4180/127.0.0.1:$gate_port}
    # The words of the document, without quotes.
    # shellcheck disable=SC2086
    start gate "$gate_port" python3 -B "$top"/${command/--table table/--table $here/table} >"$work/gate.log"
}

passed=0
failed=0

differs() {
    echo "examples/nginx: $1: differs: wanted '$2', got '$3'"
    failed=$((failed + 1))
}

# ask STATUS TEXT WHAT WORD ..: curl with these words is answered with the status, and what comes has the text.
ask() {
    local got
    got=$(curl --silent --max-time 20 --path-as-is --write-out '%{stderr}%{http_code}' --output "$work/answer" "${@:4}" 2>&1)
    if [ "$got" != "$1" ]; then
        differs "$3" "$1" "$got"
    elif ! grep -qF -- "$2" "$work/answer"; then
        differs "$3" "$2" "$(head -c 600 "$work/answer")"
    else
        passed=$((passed + 1))
    fi
}

# as NAME STATUS TEXT PATH WORD ..: this reader asks for the path.
as() {
    ask "$2" "$3" "$1 asks for $4" --user "$1:$1-secret" "${@:5}" "$door$4"
}

# tell NAME LINE ..: these request lines are those of a session of this principal. The last reply is `done`.
tell() {
    local told
    told=$({ echo "hello $1 $1-secret" && printf '%s\n' "${@:2}"; } | "$program" client "127.0.0.1:$nexus_port" | tail -n 1)
    if [ "${told%% *}" = 'done' ]; then
        passed=$((passed + 1))
    else
        differs "$1 tells $2" 'done' "$told"
    fi
}

play_readers() {
    as ann 200 'You have accepted the terms of use.' /documents/handbook.html
    as bob 403 'Line 1 of your proof names a statement that you do not hold.' /documents/handbook.html
    as bob 403 'denied 17 LabelMissing 1' /documents/handbook.html
    as bob 403 'You have registered no proof for it.' /documents/report.html
    as ann 403 'Line 1 of your proof is wrong: NotGoal.' /documents/report.html
    tell bob 'say bob : accepts("terms of use, 2011")'
    as bob 200 'You have accepted the terms of use.' /documents/handbook.html
    ask 200 'The handbook' 'everybody asks for the list' "$door/"
}

play_strangers() {
    ask 401 '' 'nobody asks' "$door/documents/handbook.html"
    ask 401 '' 'a wrong secret' --user ann:bob-secret "$door/documents/handbook.html"
    ask 401 '' 'no secret' --user ann: "$door/documents/handbook.html"
    ask 401 '' 'nobody of this name' --user eve:ann-secret "$door/documents/handbook.html"
    ask 401 '' 'a name that is none' --user '<b>:ann-secret' "$door/documents/handbook.html"
    ask 401 '' 'another scheme' --header 'Authorization: Bearer ann' "$door/documents/handbook.html"
    ask 401 'WWW-Authenticate: Basic realm="nexus"' 'what a browser is told' --include "$door/documents/handbook.html"
    # Only nginx says what was asked for, and only the service what came of it.
    as bob 403 'denied 18 NoProof' /documents/report.html --header 'X-Original-URI: /documents/handbook.html'
    as bob 403 'no line of the table is for this' /documents/handbook.html --request POST --header 'X-Original-Method: GET'
    as bob 403 'denied 18 NoProof' /documents/report.html --header 'Nexus-Reason: allowed 1 0 0' --header 'Nexus-User: ann'
    as bob 404 '' /gate
    as bob 404 '' /refused.html
}

# Each of these is the handbook, which ann may read, to somebody who cleans or decodes paths; or it is nothing.
HOSTILE=(
    /documents/../documents/handbook.html
    /documents/./handbook.html
    /./documents/handbook.html
    //documents/handbook.html
    /documents//handbook.html
    /documents%2fhandbook.html
    /documents%2Fhandbook.html
    /documents/%2e%2e/documents/handbook.html
    /documents/..%2fdocuments%2fhandbook.html
    /documents/%252e%252e/documents/handbook.html
    /documents/%68andbook.html
    /documents/handbook%2ehtml
    /documents/handbook.html/
    /documents/handbook.html/.
    /documents/report.html/../handbook.html
    '/documents\handbook.html'
    /documents/handbook.html%20
    '/documents/handbook.html;v=1'
    /documents/%c0%ae%c0%ae/handbook.html
    # Names that are none.
    /documents/1handbook.html
    /documents/says.html
    /documents/hand-book.html
    /documents/hand.book.html
    /documents/.html
    /documents/
    /documents
    "/documents/$(printf 'x%.0s' {1..65}).html"
    # What stands beside the documents.
    /index.html
    /documents/../index.html
    /unknown
)

play_hostile() {
    local path
    for path in "${HOSTILE[@]}"; do
        as ann 403 'no line of the table is for this' "$path"
    done
    # nginx itself takes these for no path.
    for path in /documents/handbook.html%00 /../documents/handbook.html /documents/%zz /documents/../../etc/passwd; do
        as ann 400 '' "$path"
    done
    # A name that is one, and nobody's document.
    as ann 403 'refused 18 NoSuchObject' /documents/unknown.html
    as ann 403 'refused 18 NoSuchObject' /documents/HANDBOOK.html
    # The page shows the path as text.
    as ann 403 '/documents/&lt;b&gt;' '/documents/<b>'
    as ann 200 'The handbook' '/documents/handbook.html?x=/../%2f'
    as ann 200 '' /documents/handbook.html --head
}

play_revocation() {
    as carol 200 'The library says that you may read it.' /documents/report.html
    tell library 'unbind library.carol'
    as carol 403 'Line 2 of your proof asks somebody who can not be asked any more' /documents/report.html
    as carol 403 'denied 19 NotBound 2' /documents/report.html
    tell library 'bind library.carol 0'
    as carol 200 'The library says that you may read it.' /documents/report.html
}

play_authority() {
    as ann 200 'You are on duty.' /documents/rota.html
    as carol 403 'Who is asked in line 1 of your proof says no.' /documents/rota.html
    stop desk
    as ann 503 'Whether you may open this can not be found out now.' /documents/rota.html
    as ann 503 'down 20 1' /documents/rota.html --include
    as ann 200 'The handbook' /documents/handbook.html
    start_desk
    as ann 200 'You are on duty.' /documents/rota.html
}

# Everything that was let through before is refused.
expect_none() {
    local name path
    for name in ann bob carol; do
        for path in handbook report rota; do
            as "$name" 503 'Whether you may open this can not be found out now.' "/documents/$path.html"
        done
    done
}

# What was written is a policy again: bob's acceptance is in it.
start_nexus_again() {
    (umask 077 && "$program" recover <"$work/after" >"$work/policy")
    start_nexus
}

play_killed() {
    stop nexus
    expect_none
    start_nexus_again
    as bob 200 'You have accepted the terms of use.' /documents/handbook.html
    # Nobody asks meanwhile: the sessions that were kept are found to have ended.
    stop nexus
    start_nexus_again
    as bob 200 'You have accepted the terms of use.' /documents/handbook.html
    stop gate
    expect_none
    start_gate
    as bob 200 'You have accepted the terms of use.' /documents/handbook.html
}

# Each line that docs/OPERATING.md shows of the table and of nginx.conf stands there.
play_document() {
    local line
    while IFS= read -r line; do
        if sed 's/^ *//' "$here/table" "$here/nginx.conf" | grep -qxF -- "$line"; then
            passed=$((passed + 1))
        else
            differs 'docs/OPERATING.md' 'a line of the example' "$line"
        fi
    done < <(shown 'Beside nginx' | grep -v '^\$ ')
}

play_log() {
    if grep -qx 'bob GET /documents/handbook.html 403 denied 17 LabelMissing 1' "$work/access.log"; then
        passed=$((passed + 1))
    else
        differs 'the log' 'the denial of bob' "$(head -n 5 "$work/access.log")"
    fi
}

lay_out
start_all || exit 1
for it in readers strangers hostile revocation authority killed log document; do
    "play_$it"
done
if [ "$failed" -gt 0 ]; then
    echo "examples/nginx: $passed requests are answered right, $failed differ"
    exit 1
fi
echo "$passed requests to nginx are answered right"
