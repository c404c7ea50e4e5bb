#!/usr/bin/env bash
# Tests what a relay and `sync` do with peers that take their time, with their clocks hastened a hundred times by
# tests/haste.c: the minute that one waits takes 0.6 seconds, and the ten minutes of a session take 6. And thirty such
# peers come at once before an honest one, where the relay's clock is hastened two thousand times. The peers are of
# tests/peer.c, and of bash.
. "$(dirname "$0")/common.sh"

build_c haste || exit 0
build_c peer peer

# A port that is most likely free.
port=$((20000 + RANDOM % 12000))

# The milliseconds since a time.
since() {
    echo $(((${EPOCHREALTIME/./} - $1) / 1000))
}

# Runs the program with its clock hastened so many times.
hastened() {
    HASTE=$1 LD_PRELOAD=$work/haste.so exec timeout 60 "$program" "${@:2}" </dev/null
}

# Starts a relay: its name, how many times its clock is hastened, its port, and of how many sessions. It waits until the
# relay listens.
start_relay() {
    local name=$1 haste=$2
    (hastened "$haste" relay "$3" "$4") >"$work/$name.output" 2>"$work/$name.notes" &
    relay=$!
    wait_for "$work/$name.output"
}

# Serves a peer of tests/peer.c by a relay whose clock is hastened a hundred times, and then an honest one, and writes
# how long it was until that one was answered, and what it was told. Where a file is named, its operations are brought
# to the relay before.
serve_peer() {
    local name=$1 at=$2 says=$3 takes=$4 file=$5 sessions=2 begun peer
    [ -z "$file" ] || sessions=3
    start_relay "$name" 100 "$at" $sessions
    if [ -n "$file" ]; then
        cp "$work/$file" "$work/$name.file"
        "$program" sync "$work/$name.file" "$at" 0 </dev/null 2>"$work/$name.exchange"
    fi
    begun=${EPOCHREALTIME/./}
    "$work/peer" "$at" "$says" "$takes" <"$work/$name" >"$work/$name.peer" &
    peer=$!
    wait_for "$work/$name.peer"
    cp "$work/honest" "$work/$name.honest"
    "$program" sync "$work/$name.honest" "$at" 0 </dev/null 2>"$work/$name.answer"
    echo "$? $(since "$begun")" >"$work/$name.answered"
    wait "$relay"
    echo $? >"$work/$name.ended"
    kill "$peer" 2>/dev/null
}

# Says whether an honest peer was answered so many milliseconds after the slow one came, by a relay that ended well.
answered() {
    local name=$1 least=$2 most=$3 status long
    read -r status long <"$work/$name.answered"
    echo "    after $long milliseconds with status $status, by a relay that ended with $(cat "$work/$name.ended")"
    [ "$status" = 0 ] && [ "$(cat "$work/$name.ended")" = 0 ] && [ "$long" -ge "$least" ] && [ "$long" -le "$most" ]
}

# A section with a counter and a title of so many bytes.
titled() {
    printf '\\1%s\\0\\0\\%03o\\%03o' "$(id 9 "$1")" $(($2 / 256)) $(($2 % 256))
    head -c "$2" /dev/zero | tr '\0' t
}

greeting='H\0\0\0\0'
put silent
put byte_by_byte "$greeting" "$(titled 0 200)" "$(titled 1 480)"
put byte_slowly "$greeting" "$(titled 0 480)"
put goes_on "$greeting" D "$(head -c 2000 /dev/zero | tr '\0' x)"
put sips "$greeting" D
put takes_nothing "$greeting" D
{ printf 'add 1 T\nput 1 0 '; head -c 300000 /dev/zero | tr '\0' x; printf '\n'; } >"$work/much"
"$program" new "$work/large" 1 16 </dev/null
"$program" edit "$work/large" <"$work/much" 2>/dev/null
"$program" new "$work/honest" 2 16 </dev/null
printf 'add 1 T\n' | "$program" edit "$work/honest" 2>/dev/null
served=()
for name in silent byte_by_byte goes_on; do
    port=$((port + 1))
    serve_peer $name $port 10 0 '' &
    served+=($!)
done
port=$((port + 1))
serve_peer sips $port 0 4096 large &
served+=($!)
port=$((port + 1))
serve_peer takes_nothing $port 0 0 large &
served+=($!)
port=$((port + 1))

# A peer whose pauses are shorter than a minute is answered.
start_relay patient 100 "$port" 1
exec {peer}<>"/dev/tcp/127.0.0.1/$port"
for part in 'H\0\0' '\0' '\0D'; do
    sleep 0.35
    printf "$part" >&"$peer"
done
timeout 20 head -c 5 <&"$peer" >"$work/reply"
check 'a peer that pauses for half a minute is answered' [ "$(od -An -tx1 "$work/reply")" = ' 55 00 00 00 00' ]
exec {peer}>&-
wait "$relay"
check 'by a relay that ends well' [ "$?" = 0 ]
port=$((port + 1))

# A relay that is held by a silent peer says nothing to whoever comes after, and takes no more than its queue has.
outside='outside fault\n'
start_relay held 1 "$port" 1
exec {peer}<>"/dev/tcp/127.0.0.1/$port"
: >"$work/output"
begun=${EPOCHREALTIME/./}
(hastened 100 sync "$work/large" "$port" 0) 2>"$work/notes"
compare 'sync gives up a relay that says nothing' $? 4 '' "$outside"
check 'after a minute' [ "$(since "$begun")" -ge 500 -a "$(since "$begun")" -le 5000 ]
queue=()
for ((place = 0; place < 128; place++)); do
    exec {other}<>"/dev/tcp/127.0.0.1/$port"
    queue+=("$other")
done
begun=${EPOCHREALTIME/./}
(hastened 100 sync "$work/large" "$port" 0) 2>"$work/notes"
compare 'sync gives up a relay that takes no connection' $? 4 '' "$outside"
because "manuscript: $port: no answer"
check 'after a minute' [ "$(since "$begun")" -ge 500 -a "$(since "$begun")" -le 5000 ]
for other in "$peer" "${queue[@]}"; do exec {other}>&-; done
wait "$relay"
printf 'cut 1 0 1\n' >"$work/script"
: >"$work/output"
"$program" edit "$work/large" <"$work/script" 2>"$work/notes"
compare 'the file can be edited after that' $? 0 '' 'made 1\n'
port=$((port + 1))

# Thirty peers before an honest one: silent ones, such as send a byte now and then or go on sending after the reply, and
# such as stay. None has more than ten minutes, which are 0.3 seconds here.
start_relay attacked 2000 "$port" 31
begun=${EPOCHREALTIME/./}
peers=()
for turn in {1..8}; do
    for name in silent byte_slowly goes_on takes_nothing; do
        [ ${#peers[@]} -lt 30 ] || break
        "$work/peer" "$port" 15 0 <"$work/$name" >"$work/peer_output" &
        peers+=($!)
        wait_for "$work/peer_output"
        : >"$work/peer_output"
    done
done
: >"$work/output"
"$program" sync "$work/honest" "$port" 0 </dev/null 2>"$work/notes"
compare 'an honest peer is answered after thirty slow ones' $? 0 '' "$(counts 0 1 0 0 0 0)cursor 1\n"
long=$(since "$begun")
check "within thirty times ten minutes: after $((long / 30)) minutes" [ "$long" -le 9000 ]
wait "$relay"
check 'by a relay that ends well' [ "$?" = 0 -a "$(cat "$work/attacked.notes")" = 'log 1' ]
kill "${peers[@]}" 2>/dev/null

wait "${served[@]}"
check 'an honest peer is answered a minute after one that says nothing' answered silent 500 4000
check 'and ten minutes after one that sends a byte a second' answered byte_by_byte 5500 9000
check 'and ten minutes after one that goes on sending after its reply' answered goes_on 5500 9000
check 'and ten minutes after one that takes its reply in slow sips' answered sips 5500 9000
check 'and one to three minutes after one that takes nothing of its reply' answered takes_nothing 500 5000

ended
