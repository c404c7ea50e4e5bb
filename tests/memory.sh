#!/usr/bin/env bash
# Refuses each allocation of each command in turn, on a worked example: the command has to end with `no memory`, with
# nothing printed and its file as before, or do all, and rightly. No part of the gate: it wants a C compiler, for
# tests/refuse.c, and a program that takes its memory from the C library.
#
#     tests/memory.sh [COMMAND]     # of all commands where none is given
. "$(dirname "$0")/common.sh"

shim=$work/refuse.so
"${CC:-cc}" -O1 -shared -fPIC -o "$shim" tests/refuse.c -ldl || exit 1

# Runs the program with the allocation of this number refused, and tells the status. Whether there was one is in `refused`.
run_refusing() {
    local number=$1
    shift
    : >"$work/refused"
    timeout 60 env REFUSE="$number" LD_PRELOAD="$shim" "$program" "$@" 9>"$work/refused"
}

was_refused() {
    [ -s "$work/refused" ]
}

# Says whether a file is as another one, or both are not there.
is_as() {
    if [ -e "$2" ]; then cmp -s "$1" "$2"; else [ ! -e "$1" ]; fi
}

# Looks at an end: all was done rightly, or it was `no memory`. A file that `new` began may be there with no bytes.
is_right() {
    local status=$1
    if [ "$status" = "$(cat "$work/wanted_status")" ]; then
        cmp -s "$work/output" "$work/wanted_output" && cmp -s "$work/notes" "$work/wanted_notes" && is_as "$work/home" "$work/after"
    else
        [ "$status" = 5 ] && [ ! -s "$work/output" ] && [ "$(cat "$work/notes")" = 'no memory' ] &&
            { is_as "$work/home" "$work/before" || [ ! -e "$work/before" -a ! -s "$work/home" ]; }
    fi
}

# Puts the home file back.
restore() {
    rm -f "$work/home"
    [ ! -e "$work/before" ] || cp "$work/before" "$work/home"
}

# Refuses each allocation of a command in turn. Its home file is the one named, or none.
refuse_each() {
    local name=$1 home=$2 input=$3 number wanting=0 wrong=0 status
    shift 3
    rm -f "$work/before" "$work/after"
    [ -z "$home" ] || cp "$home" "$work/before"
    restore
    "$program" "$@" <"$input" >"$work/wanted_output" 2>"$work/wanted_notes"
    echo $? >"$work/wanted_status"
    [ ! -e "$work/home" ] || cp "$work/home" "$work/after"
    for ((number = 1; ; number++)); do
        restore
        run_refusing "$number" "$@" <"$input" >"$work/output" 2>"$work/notes"
        status=$?
        was_refused || break
        [ "$status" != 5 ] || wanting=$((wanting + 1))
        is_right "$status" && continue
        wrong=$((wrong + 1))
        [ "$wrong" -gt 3 ] || echo "    allocation $number: status $status, notes '$(head -c 80 "$work/notes")'"
    done
    check "$name (status $(cat "$work/wanted_status")): $((number - 1)) allocations refused in turn, $wanting ends with no memory, $wrong wrong" \
        [ "$wrong" = 0 -a "$wanting" -gt 0 ]
}

# The same of a relay, with one session that says and asks all. What the relay is sent does not depend on memory, so
# the peer has all of the reply, or sees the connection end.
refuse_relay() {
    local port=$1 number wanting=0 wrong=0 status waited relay
    for ((number = 1; ; number++)); do
        cp "$work/ann" "$work/peer"
        : >"$work/output"
        : >"$work/refused"
        timeout 60 env REFUSE="$number" LD_PRELOAD="$shim" "$program" relay $((port + number % 500)) 1 </dev/null >"$work/output" 2>"$work/notes" 9>"$work/refused" &
        relay=$!
        for ((waited = 0; waited < 200; waited++)); do
            [ -s "$work/output" ] || ! kill -0 "$relay" 2>/dev/null || { sleep 0.01; continue; }
            break
        done
        "$program" sync "$work/peer" $((port + number % 500)) 0 </dev/null >/dev/null 2>"$work/peer_notes"
        wait "$relay"
        status=$?
        was_refused || break
        case $status in
        0) [ "$(cat "$work/output")" = ready ] && grep -q '^log ' "$work/notes" && grep -q '^cursor ' "$work/peer_notes" || wrong=$((wrong + 1)) ;;
        5) wanting=$((wanting + 1)) && [ "$(cat "$work/notes")" = 'no memory' ] && cmp -s "$work/ann" "$work/peer" || wrong=$((wrong + 1)) ;;
        *)
            wrong=$((wrong + 1))
            echo "    allocation $number: status $status, notes '$(head -c 80 "$work/notes")'"
            ;;
        esac
    done
    check "relay: $((number - 1)) allocations refused in turn, $wanting ends with no memory, $wrong wrong" \
        [ "$wrong" = 0 -a "$wanting" -gt 0 ]
}

wants() {
    [ -z "$only" ] || [ "$only" = "$1" ]
}

only=${1:-}
put nothing
put odd "$y" "$x" "$section" "$b" "$other_b" "$in_b" "$a" "$b" "$drops_b" "$(letter '7 0' '9 0' '7 7' '' w)"
printf 'add 1 The sea\nput 1 0 It was calm.\n# a note\ncut 1 0 3\nput 1 0 No\\none wa\ncut 1 0 1\nadd 1 First\ndrop 2\n' >"$work/script"
printf 'put 1 0 x\nput 9 0 y\n' >"$work/faulty"
"$program" new "$work/ann" 1 16 </dev/null
"$program" edit "$work/ann" <"$work/script" 2>/dev/null
"$program" take "$work/ann" <"$work/odd" 2>/dev/null
"$program" new "$work/ben" 2 16 </dev/null
printf 'add 1 The land\nput 1 0 Hills.\n' | "$program" edit "$work/ben" 2>/dev/null
cp "$work/ben" "$work/arranged"
printf 'add 2 The sea\nput 2 0 Calm.\nadd 3 The town\n' | "$program" edit "$work/arranged" 2>/dev/null
"$program" move "$work/arranged" 3 1 </dev/null 2>/dev/null
"$program" retitle "$work/arranged" 3 'The shore' </dev/null 2>/dev/null
head -c 300 /dev/zero | tr '\0' '\6' >"$work/bad"
"$program" why "$work/ben" 1 0 5 </dev/null >"$work/reason"

wants show && refuse_each show '' "$work/odd" show
wants show && refuse_each 'show, of a sample' '' samples/two_authors.frames show
wants show && refuse_each 'show, of a bad stream' '' "$work/bad" show
wants new && refuse_each new '' "$work/nothing" new "$work/home" 1 16
wants edit && refuse_each edit "$work/ben" "$work/script" edit "$work/home"
wants edit && refuse_each 'edit, with a faulty line' "$work/ann" "$work/faulty" edit "$work/home"
wants print && refuse_each print "$work/ann" "$work/nothing" print "$work/home"
wants take && refuse_each take "$work/ben" "$work/odd" take "$work/home"
wants why && refuse_each why "$work/ben" "$work/nothing" why "$work/home" 1 0 5
wants check && refuse_each check "$work/ben" "$work/reason" check "$work/home"
wants arrange && refuse_each arrange "$work/arranged" "$work/nothing" arrange "$work/home"
wants moments && refuse_each moments "$work/ann" "$work/nothing" moments "$work/home"
wants move && refuse_each move "$work/arranged" "$work/nothing" move "$work/home" 2 1
wants comment && refuse_each comment "$work/arranged" "$work/nothing" comment "$work/home" 2 0 4 'Calm?'
"$program" comment "$work/arranged" 2 0 4 'Calm?' </dev/null 2>/dev/null
"$program" version "$work/arranged" first </dev/null 2>/dev/null
printf 'put 2 5  So far.\n' | "$program" edit "$work/arranged" 2>/dev/null
wants comments && refuse_each comments "$work/arranged" "$work/nothing" comments "$work/home"
wants remarks && refuse_each remarks "$work/arranged" "$work/nothing" remarks "$work/home"
wants withdraw && refuse_each withdraw "$work/arranged" "$work/nothing" withdraw "$work/home" 1
wants remark && refuse_each remark "$work/arranged" "$work/nothing" remark "$work/home" 'So far' 'Calm?'
wants version && refuse_each version "$work/arranged" "$work/nothing" version "$work/home" second
wants versions && refuse_each versions "$work/arranged" "$work/nothing" versions "$work/home"
wants view && refuse_each view "$work/arranged" "$work/nothing" view "$work/home" first
wants retitle && refuse_each retitle "$work/arranged" "$work/nothing" retitle "$work/home" 2 'The sky'
wants send && refuse_each send "$work/ann" "$work/nothing" send "$work/home"
wants merge && refuse_each merge "$work/ben" "$work/nothing" merge "$work/home" "$work/ann"
port=$((20000 + RANDOM % 12000))
wants relay && refuse_relay $((port + 1))
if wants sync; then
    "$program" relay "$port" 65535 </dev/null >"$work/ready" 2>/dev/null &
    relay=$!
    for ((waited = 0; waited < 100; waited++)); do [ -s "$work/ready" ] && break || sleep 0.1; done
    cp "$work/ben" "$work/known"
    "$program" sync "$work/known" "$port" 0 </dev/null 2>/dev/null
    "$program" sync "$work/ann" "$port" 0 </dev/null 2>/dev/null
    refuse_each sync "$work/ben" "$work/nothing" sync "$work/home" "$port" 0
    kill "$relay"
fi
"$program" bulk 7 4 </dev/null >/dev/null 2>&1 && wants bulk && refuse_each bulk '' "$work/nothing" bulk 7 40

ended
