#!/usr/bin/env bash
# Runs each example of `nexus check`, `script`, `trust`, `prove`, `audit`, `explain` and `recover` and compares what it prints, byte for byte, its exit
# status, and what it tells on standard error, which is nothing where there is no file `told`; has `nexus check` check each proof that was found; then the other ways in which the program ends; then plays `nexus serve`,
# also with peers that hold workers, over local sockets and with a log, where there is a Python of 3.9 or later; then the commands of
# README and TOUR, the recipes of docs/OPERATING.md, the client for programs, and the manual page; then the client in Go, what stands
# beside web servers, a tunnel, and pictures of proofs.
#
#   examples/run.sh [PROGRAM]     PROGRAM is ./nexus at the top of the repository where none is given
#
# Prints a line for each run that differs and ends with 1, or prints `N runs pass` and ends with 0.
set -u

examples=$(cd "$(dirname "$0")" && pwd) || exit 1
program=${1:-$examples/../nexus}
work=$(mktemp -d) || exit 1
trap 'rm -rf "$work"' EXIT

passed=0
failed=0
for folder in "$examples"/check/*/ "$examples"/script/*/ "$examples"/trust/*/ "$examples"/prove/*/ "$examples"/audit/*/ "$examples"/explain/*/ "$examples"/recover/*/; do
    name=$(basename "$folder")
    command=$(basename "$(dirname "$folder")")
    "$program" "$command" <"$folder/input" >"$work/output" 2>"$work/errors"
    status=$?
    told=$(cat "$folder/told" 2>/dev/null)
    if [ "$status" -eq 70 ]; then
        echo "$name: the program was not built"
        exit 1
    fi
    wanted=$(cat "$folder/status")
    if ! cmp -s "$work/output" "$folder/output"; then
        echo "$name: differs: wanted '$(cat "$folder/output")', got '$(head -c 200 "$work/output")'"
        failed=$((failed + 1))
    elif [ "$status" != "$wanted" ]; then
        echo "$name: differs: wanted status $wanted, got $status"
        failed=$((failed + 1))
    elif [ "$(cat "$work/errors")" != "$told" ]; then
        echo "$name: differs: wanted to be told '$told', got '$(head -c 200 "$work/errors")'"
        failed=$((failed + 1))
    else
        passed=$((passed + 1))
    fi
done

# expect NAME STATUS OUTPUT [TOLD]: compares the status and the output of the run before, and what it told in the file `errors`.
expect() {
    local status=$?
    if [ "$status" != "$2" ] || [ "$(cat "$work/output")" != "$3" ]; then
        echo "$1: differs: wanted status $2 and '$3', got $status and '$(head -c 200 "$work/output")'"
        failed=$((failed + 1))
    elif [ $# -gt 3 ] && [ "$(cat "$work/errors")" != "$4" ]; then
        echo "$1: differs: wanted to be told '$4', got '$(head -c 200 "$work/errors")'"
        failed=$((failed + 1))
    else
        passed=$((passed + 1))
    fi
}

# A proof that was found is allowed for what it was found for.
for folder in "$examples"/prove/*/; do
    if [ "$(cat "$folder/status")" = 0 ]; then
        { sed -e 's/^nexus prove 1$/nexus check 1/' -e '/^end$/d' "$folder/input"; "$program" prove <"$folder/input"; } | "$program" check >"$work/output"
        expect "the proof of $(basename "$folder")" 0 allowed
    fi
done

share=$examples/check/share/input
day=$examples/script/storage/input
: >"$work/output"
"$program" chek <"$share" >"$work/output"
expect 'a word that is no command' 2 ''
"$program" check more <"$share" >"$work/output"
expect 'a word too many' 2 ''
"$program" check '' <"$share" >"$work/output"
expect 'an empty word too many' 2 ''
"$program" check $'\xff' <"$share" >"$work/output"
expect 'a word too many that is not UTF-8' 2 ''
"$program" check </ >"$work/output"
expect 'an input that cannot be read' 4 ''
: >"$work/output"
"$program" check <"$share" >/dev/full
expect 'an output that cannot be written' 5 ''
"$program" check </dev/null >/dev/full
expect 'a refusal that cannot be written' 5 ''
"$program" script more <"$day" >"$work/output"
expect 'a word too many of a script' 2 ''
: >"$work/output"
"$program" script <"$day" >/dev/full
expect 'a script whose output cannot be written' 5 ''
"$program" script </dev/null >"$work/output" 2>"$work/errors"
expect 'a script without a line' 3 'refused line 1' 'line 1, byte 1: EndOfInput'
# Nobody listens at this address.
printf 'nexus 2\nauthority 3 127.0.0.1:1\nend\n' | "$program" script >"$work/output"
expect 'an authority that cannot be reached' 8 ''
"$program" trust more <"$examples/trust/safe/input" >"$work/output"
expect 'a word too many of a question of trust' 2 ''
: >"$work/output"
"$program" trust <"$examples/trust/safe/input" >/dev/full
expect 'an answer that cannot be written' 5 ''
"$program" trust </dev/null >"$work/output" 2>"$work/errors"
expect 'a question of trust without a line' 3 'refused line 1' 'line 1, byte 1: EndOfInput'
# A load reads nothing: its input is a folder, which cannot be read.
"$program" core 0 1 </ >"$work/output"
expect 'a load of one step' 0 'steps 1 idle 0 writes 0 allowed 0 denied 0 length 4'
"$program" core 0 >"$work/output"
expect 'a load without a number of steps' 2 ''
"$program" core 0 01 >"$work/output"
expect 'a number with a zero in front' 2 ''
"$program" core 18446744073709551616 1 >"$work/output"
expect 'a number of 65 bits' 2 ''
"$program" core 0 1000001 >"$work/output"
expect 'a step too many' 2 ''
: >"$work/output"
"$program" core 0 1 >/dev/full
expect 'a load whose line cannot be written' 5 ''
# So does a load on threads. The lines were worked out by examples/drill/line.py, which knows nothing of the program.
"$program" drill 0 1 1 </ >"$work/output"
expect 'a load on threads of one call' 0 'workers 1 requests 8 allowed 1 denied 0 length 6'
for run in first second; do
    "$program" drill 7 8 4000 >"$work/output"
    expect "a load on eight threads, the $run time" 0 'workers 8 requests 32056 allowed 17936 denied 6082 length 8030'
done
"$program" drill 1 64 4000 >"$work/output"
expect 'a largest load on threads' 0 'workers 64 requests 256448 allowed 144222 denied 47902 length 64260'
for words in '7 8' '7 0 1' '7 65 1' '7 1 0' '7 1 4001' '7 1 01' '7 01 1' '07 1 1' '18446744073709551616 1 1' '-7 1 1' '7 1 1 1'; do
    # shellcheck disable=SC2086
    "$program" drill $words >"$work/output"
    expect "a load on threads of the words $words" 2 ''
done
: >"$work/output"
"$program" drill 0 1 1 >/dev/full
expect 'a load on threads whose line cannot be written' 5 ''
"$program" explain more <"$examples/explain/no_goal_is_set/input" >"$work/output"
expect 'a word too many of an explanation' 2 ''
: >"$work/output"
"$program" explain <"$examples/explain/no_goal_is_set/input" >/dev/full
expect 'an explanation that cannot be written' 5 ''
"$program" explain </dev/null >"$work/output" 2>"$work/errors"
expect 'an explanation without a line' 3 'refused line 1' 'line 1, byte 1: EndOfInput'
# As many records as there may be, and one more. Five lines stand before the first.
records() {
    printf 'nexus audit 1\nnexus 2\nprincipal alice pa\n1 alice object f\nend\n'
    yes '1 alice read f - : denied GoalUnset' | head -n "$1"
    echo end
}
records 65536 | "$program" audit >"$work/output"
expect 'as many records as there may be' 0 'audited 65536'
records 65537 | "$program" audit >"$work/output" 2>"$work/errors"
expect 'a record too many' 3 'refused line 65542' 'line 65542, byte 1: BadLine'
# As many principals as a policy may have, and one more; the first line of the policy is the header.
principals() {
    echo 'nexus 2'
    seq -f 'principal p%.0f s' "$1"
    echo end
}
principals 16384 >"$work/policy"
"$program" recover <"$work/policy" | cmp -s - "$work/policy" && echo same >"$work/output"
expect 'as many principals as there may be' 0 same
principals 16385 | "$program" recover >"$work/output" 2>"$work/errors"
expect 'a principal too many' 3 'refused line 16386' 'line 16386, byte 1: BadLine'
{
    principals 17 | sed '$d'
    for k in $(seq 16); do seq -f "1 p$k object o${k}x%.0f" 4096; done
    echo '1 p17 object o'
    echo end
} | "$program" recover >"$work/output" 2>"$work/errors"
expect 'an object too many' 3 'refused line 65555' 'line 65555, byte 1: ObjectsFull'
# A journal with as many entries as it may have: one more is refused, calls are answered, and nothing is lost.
{
    echo 'nexus 2'
    seq -f 'principal p%.0f s' 65
    printf '1 p1 %s\n' 'object f' 'goal read f : true' 'proof read f : proof 2 ; 1 true_i : true ; end'
    seq 4093 | sed 's/.*/1 p1 say p1 : ok/'
    for k in $(seq 2 64); do seq 4096 | sed "s/.*/1 p$k say p$k : ok/"; done
    echo end
} >"$work/policy"
{ cat "$work/policy"; printf '1 %s\n' 'hello p65 s' 'say p65 : ok' 'see 262144' 'call read f 0'; echo '2 hello p1 s'; echo '2 say p1 : ok'; echo '2 call read f 0'; } | "$program" script >"$work/replies"
tail -n +8 "$work/replies" | cmp -s - "$work/policy" && head -n 7 "$work/replies" >"$work/output"
expect 'a full journal' 0 'welcome 2 262144
refused 262144 JournalFull
seen 262144
denied 262144 NoProof
welcome 3 262144
refused 262144 Quota
allowed 262144 0 0'
head -c 67108865 /dev/zero | tr '\0' a >"$work/large"
"$program" check <"$work/large" >"$work/output" 2>"$work/errors"
expect 'an input of one byte too many' 3 'refused size' 'byte 67108865: TooLarge'
"$program" script <"$work/large" >"$work/output" 2>"$work/errors"
expect 'a script of one byte too many' 3 'refused size' 'byte 67108865: TooLarge'
head -c 67108864 "$work/large" >"$work/largest"
"$program" check <"$work/largest" >"$work/output" 2>"$work/errors"
expect 'a largest input' 3 'refused line 1' 'line 1, byte 1: BadLine'

# Deep formulas under limits on the stack and on the address space: the right answer, or status 6 and no output where there is
# no room, and never an end by a signal. Status 127 is the loader's, which needs room of its own.
built=${1:-$examples/../crates/nexus_main/out/nexus_main}
many() { printf "$1%.0s" $(seq "$2"); }
deep() {
    printf 'nexus check 1\nsubject alice\nlabel %s\ngoal %s\nproof 2\n1 label : %s\nend\n' "$1" "$1" "$1"
}
disjuncts="a says (p$(many ' or p' 196))"
brackets="a says $(many '(' 60)p$(many ')' 60)"
parts="a$(many '.b' 500) says p"
for formula in "$disjuncts" "$brackets" "$parts"; do
    deep "$formula" >"$work/deep"
    (ulimit -s 512 && exec "$built" check) <"$work/deep" >"$work/output"
    expect "a stack of 512 KiB for ${formula:0:12}.." 0 allowed
    for room in $(seq 2600 200 5000); do
        (ulimit -v "$room" && exec "$built" check) <"$work/deep" >"$work/output" 2>/dev/null
        status=$?
        if [ "$status" -eq 0 ] && [ "$(cat "$work/output")" = allowed ]; then
            passed=$((passed + 1))
        elif { [ "$status" -eq 6 ] || [ "$status" -eq 127 ]; } && [ ! -s "$work/output" ]; then
            passed=$((passed + 1))
        else
            echo "an address space of $room KiB for ${formula:0:12}..: differs: status $status"
            failed=$((failed + 1))
        fi
    done
done

if ! python3 -c 'import sys; sys.exit(sys.version_info < (3, 9))' 2>/dev/null; then
    echo "serve: skipped, since there is no python3 of 3.9 or later"
elif ! python3 -B "$examples/serve/run.py" "$built"; then
    failed=$((failed + 1))
fi

# Peers that hold workers, what a change that is done has behind it, records of calls, and local sockets.
if ! python3 -c 'import sys; sys.exit(sys.version_info < (3, 9))' 2>/dev/null; then
    echo "patience, lasting, records, local: skipped, since there is no python3 of 3.9 or later"
else
    python3 -B "$examples/patience/run.py" "$built" || failed=$((failed + 1))
    python3 -B "$examples/lasting/run.py" "$built" || failed=$((failed + 1))
    python3 -B "$examples/records/run.py" "$built" || failed=$((failed + 1))
    python3 -B "$examples/local/run.py" "$built" || failed=$((failed + 1))
fi

# Services whose text is kept by a log, and its keeper.
if ! python3 -c 'import sys; sys.exit(sys.version_info < (3, 9))' 2>/dev/null; then
    echo "cluster: skipped, since there is no python3 of 3.9 or later"
else
    python3 -B "$examples/cluster/run.py" "$built" || failed=$((failed + 1))
    etcd=$(command -v etcd || command -v /usr/bin/etcd)
    python3 -B "$examples/../clients/python/test_nexus_log.py" ${etcd:+"$etcd"} || failed=$((failed + 1))
fi

# Labels carried from one service to another.
if ! python3 -c 'import sys; sys.exit(sys.version_info < (3, 9))' 2>/dev/null; then
    echo "peers: skipped, since there is no python3 of 3.9 or later"
elif ! python3 -B "$examples/peers/run.py" "$built"; then
    failed=$((failed + 1))
fi

# Policies of the entries that still matter, and a service that is renewed.
if ! python3 -c 'import sys; sys.exit(sys.version_info < (3, 9))' 2>/dev/null; then
    echo "compact: skipped, since there is no python3 of 3.9 or later"
elif ! python3 -B "$examples/compact/run.py" "$built"; then
    failed=$((failed + 1))
fi

# The commands of README and TOUR as they stand there, which run ./nexus.
if ! python3 -c 'import sys; sys.exit(sys.version_info < (3, 9))' 2>/dev/null; then
    echo "documents: skipped, since there is no python3 of 3.9 or later"
elif ! python3 -B "$examples/documents.py" "$examples/../README.md" "$examples/../docs/TOUR.md"; then
    failed=$((failed + 1))
fi

# The recipes of docs/OPERATING.md, the client for programs, and the manual page; then the client in Go, what stands beside web
# servers, a tunnel, and pictures of proofs.
if ! "$examples/operating/run.sh" "$built"; then
    failed=$((failed + 1))
fi
if ! python3 -c 'import sys; sys.exit(sys.version_info < (3, 9))' 2>/dev/null; then
    echo "clients/python: skipped, since there is no python3 of 3.9 or later"
elif ! python3 -B "$examples/../clients/python/test_nexus_client.py" "$built"; then
    failed=$((failed + 1))
fi
if ! command -v mandoc >/dev/null; then
    echo "man/nexus.1: skipped, since there is no mandoc"
elif ! mandoc -T lint -W warning "$examples/../man/nexus.1"; then
    failed=$((failed + 1))
fi

# The client in Go, what stands beside web servers, a tunnel, and pictures of proofs.
if ! python3 -c 'import sys; sys.exit(sys.version_info < (3, 9))' 2>/dev/null; then
    echo "clients/go, examples/nginx, examples/tunnel, docs/pictures: skipped, since there is no python3 of 3.9 or later"
else
    "$examples/../clients/go/test.sh" "$built" || failed=$((failed + 1))
    python3 -B "$examples/../clients/python/test_nexus_http.py" "$built" || failed=$((failed + 1))
    "$examples/nginx/run.sh" "$built" || failed=$((failed + 1))
    "$examples/tunnel/run.sh" "$built" || failed=$((failed + 1))
    python3 -B "$examples/../clients/python/test_proof_picture.py" || failed=$((failed + 1))
    "$examples/../docs/pictures.sh" --check "$built" || failed=$((failed + 1))
fi

if [ "$failed" -gt 0 ] || [ "$passed" -eq 0 ]; then
    echo "$passed runs pass, $failed differ"
    exit 1
fi
echo "$passed runs pass"
