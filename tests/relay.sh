#!/usr/bin/env bash
# Tests the relay as a process, on real sockets of this machine: files that are brought together through it, by turns
# and several at once, and peers that say nothing, talk nonsense, break off, or never read what they are answered.
. "$(dirname "$0")/common.sh"

# A port that is most likely free.
port=$((20000 + RANDOM % 12000))

# Starts a relay of so many sessions, and waits until it listens. One that is not over in time is ended.
start_relay() {
    rm -f "$work/relay_output"
    timeout 100 "$program" relay "$port" "$1" </dev/null >"$work/relay_output" 2>"$work/relay_notes" &
    relay=$!
    local waited
    for ((waited = 0; waited < 100; waited++)); do
        [ -s "$work/relay_output" ] && return
        sleep 0.1
    done
}

# Compares how the relay ended, and its last line, with what is wanted.
relay_ends() {
    local name=$1
    wait "$relay"
    local status=$?
    cp "$work/relay_output" "$work/output"
    cp "$work/relay_notes" "$work/notes"
    compare "$name" "$status" 0 'ready\n' "$2"
}

# Brings a file together with the relay, from the cursor on that its last exchange noted.
exchange() {
    local name=$1
    "$program" sync "$work/$name" "$port" "$(cat "$work/$name.cursor")" </dev/null 2>"$work/$name.notes" || echo "$?" >>"$work/$name.failed"
    sed -n 's/^cursor //p' "$work/$name.notes" >"$work/$name.cursor"
}

# A file of the replica with this number, which begins at the log's start.
begin() {
    "$program" new "$work/$1" "$2" 1000 </dev/null
    echo 0 >"$work/$1.cursor"
}

# Opens a session of a peer, as the number in `peer`.
open_peer() {
    exec {peer}<>"/dev/tcp/127.0.0.1/$port"
}

close_peer() {
    exec {peer}>&-
}

put nothing
outside='outside fault\n'
usage='words not understood\n'
try 'port 0' nothing 1 '' "$usage" relay 0 1
try 'a port that is too great' nothing 1 '' "$usage" relay 65536 1
try 'no session' nothing 1 '' "$usage" relay "$port" 0
because "manuscript: relay PORT SESSIONS: SESSIONS is a number from 1 to 65535, without leading zeros, and '0' is none"
try 'a cursor that is no number' nothing 1 '' "$usage" sync "$work/a" "$port" x

# Two authors write apart, and meet at a relay of three sessions: the second session of the first author begins at the
# cursor of its first one, so that nothing comes again.
ann=$work/ann
ben=$work/ben
printf 'add 1 T\nput 1 0 AB\ncut 1 1 1\nput 1 1 C\n' >"$work/ann_script"
printf 'add 1 U\n' >"$work/ben_script"
try 'the first author begins' nothing 0 '' '' new "$ann" 1 16
try 'and writes five operations' ann_script 0 '' 'made 5\n' edit "$ann"
try 'the second one begins' nothing 0 '' '' new "$ben" 2 16
try 'and writes a section of its own' ben_script 0 '' 'made 1\n' edit "$ben"
start_relay 3
try 'the first one brings them to the relay' nothing 0 '' "$(counts 0 5 0 0 0 0)cursor 5\n" sync "$ann" "$port" 0
try 'the second one brings its own, and hears them' nothing 0 '' "$(counts 5 1 0 0 0 0)cursor 6\n" sync "$ben" "$port" 0
try 'the first one hears that of the second' nothing 0 '' "$(counts 1 0 0 0 0 0)cursor 6\n" sync "$ann" "$port" 5
relay_ends 'the relay has all six' 'log 6\n'
try 'the first one prints both' nothing 0 '# T\nAC\n# U\n\n' '' print "$ann"
try 'and so does the second one' nothing 0 '# T\nAC\n# U\n\n' '' print "$ben"
port=$((port + 1))

# Two files by turns, and one exchange after the other.
begin a 1
begin b 2
printf 'add 1 T\n' | "$program" edit "$work/a" 2>/dev/null
start_relay 40
check 'the relay listens' [ -s "$work/relay_output" ]
try 'the port is in use' nothing 4 '' "$outside" relay "$port" 1
because "manuscript: $port: the port is in use"
for ((turn = 1; turn <= 10; turn++)); do
    exchange a
    exchange b
    printf "put 1 0 a$turn\\n" | "$program" edit "$work/a" 2>/dev/null
    printf "put 1 0 b$turn\\n" | "$program" edit "$work/b" 2>/dev/null
done
for ((turn = 1; turn <= 8; turn++)); do
    exchange a
    exchange b
done
exchange a &
exchange b &
wait %2 %3
exchange a
exchange b
relay_ends 'a relay of 40 sessions' "log $("$program" send "$work/a" </dev/null | "$program" show 2>&1 >/dev/null | sed 's/accepted \([0-9]*\),.*/\1/')\n"
"$program" print "$work/a" </dev/null >"$work/text_a"
"$program" print "$work/b" </dev/null >"$work/text_b"
check 'two files print the same' cmp -s "$work/text_a" "$work/text_b"
check 'and no exchange failed' [ ! -e "$work/a.failed" -a ! -e "$work/b.failed" ]
check 'and have all that was written' [ "$(wc -c <"$work/text_a")" -gt 40 ]

# Several at once, and peers that do not keep to the rules.
port=$((port + 1))
names=(c d e f)
number=10
for name in "${names[@]}"; do
    begin "$name" $((number++))
    printf 'add 1 %s\nput 1 0 text of %s\n' "$name" "$name" | "$program" edit "$work/$name" 2>/dev/null
done
put wide '\1'"$(id 9 0)"'\0\0\001\340'"$(head -c 480 /dev/zero | tr '\0' t)"
for _ in {1..9}; do
    cat "$work/wide" "$work/wide" >"$work/wider"
    mv "$work/wider" "$work/wide"
done
start_relay 20
open_peer
close_peer
open_peer
printf 'nonsense' >&"$peer"
head -c 2 <&"$peer" >"$work/output"
printf 'X\1' | cmp -s - "$work/output"
check 'nonsense is answered with a refusal' [ $? = 0 ]
close_peer
open_peer
printf 'H\0\0\0\0\2\0\0' >&"$peer"
close_peer
open_peer
printf 'H\0\0\0\0D' >&"$peer"
sleep 0.2
close_peer
for name in "${names[@]}"; do exchange "$name" & done
open_peer
printf 'H\0\0\0\0' >&"$peer"
for ((times = 0; times < 400; times++)); do cat "$work/wide"; done >&"$peer"
close_peer
open_peer
printf 'H\0\0\0\7D' >&"$peer"
cat <&"$peer" >"$work/output"
close_peer
wait $(jobs -p | grep -v "^$relay$")
for name in "${names[@]}" "${names[@]}"; do exchange "$name"; done
# A connection does not get the number of a closed stream: the notes would go to the relay.
: >"$work/output"
: >"$work/notes"
"$program" sync "$work/c" "$port" 0 </dev/null 2>&-
compare 'a sync whose notes are closed' $? 4 '' ''
"$program" sync "$work/c" "$port" 0 <&- 2>"$work/c.notes"
check 'a sync reads no input' [ "$?" = 0 -a -s "$work/c.notes" ]
all=$(for name in "${names[@]}"; do "$program" send "$work/$name" </dev/null; done | "$program" show 2>&1 >/dev/null | sed 's/accepted \([0-9]*\),.*/\1/')
relay_ends 'a relay of peers that do not keep to the rules' "log $all\n"
for name in "${names[@]}"; do "$program" print "$work/$name" </dev/null >"$work/text_$name"; done
check 'several files print the same' [ "$(cat "$work"/text_[cdef] | sort | uniq -c | awk '{ print $1 % 4 }' | sort -u)" = 0 ]
check 'byte by byte' cmp -s "$work/text_c" "$work/text_f"
check 'and no exchange failed' [ ! -e "$work/c.failed" -a ! -e "$work/d.failed" -a ! -e "$work/e.failed" -a ! -e "$work/f.failed" ]

# What finds no room to wait is dropped, and counted as full. It lies before the cursor that is noted then: an exchange
# that begins there misses it for good, and one that begins at 0 brings it.
port=$((port + 1))
start_relay 6
put pending "$b" "$a" "$d"
put titled "$section"
begin roomy 21
try 'three operations wait for their section' pending 3 '' "$(counts 0 0 3 0 0 0)" take "$work/roomy"
try 'they are brought to the relay' nothing 3 '' "$(counts 0 3 3 0 0 0)cursor 3\n" sync "$work/roomy" "$port" 0
"$program" new "$work/narrow" 22 1 </dev/null
try 'where one may wait two are dropped' nothing 3 '' "$(counts 0 0 1 0 0 2)cursor 3\n" sync "$work/narrow" "$port" 0
try 'the section comes' titled 0 '' "$(counts 4 0 0 0 0 0)" take "$work/roomy"
try 'and is brought to the relay' nothing 0 '' "$(counts 0 1 0 0 0 0)cursor 4\n" sync "$work/roomy" "$port" 3
try 'the cursor after what was dropped misses it' nothing 0 '' "$(counts 2 0 0 0 0 0)cursor 4\n" sync "$work/narrow" "$port" 3
try 'so it is not shown' nothing 0 '# T\nB\n' '' print "$work/narrow"
try 'the cursor 0 brings it' nothing 0 '' "$(counts 2 2 0 0 0 0)cursor 4\n" sync "$work/narrow" "$port" 0
try 'and it is shown' nothing 0 '# T\nADB\n' '' print "$work/narrow"
try 'a cursor beyond the log is refused' nothing 2 '' 'relay refused 3\n' sync "$work/narrow" "$port" 5
relay_ends 'a relay of files that have no room' 'log 4\n'

# After a relay was started anew a cursor of before is refused, or taken where the log is as long again: then what lies
# before it is missed, and the cursor 0 brings it.
port=$((port + 1))
start_relay 4
begin other 23
try 'a relay that is new refuses a cursor of before' nothing 2 '' 'relay refused 3\n' sync "$work/other" "$port" 4
try 'it hears all' nothing 0 '' "$(counts 0 4 0 0 0 0)cursor 4\n" sync "$work/roomy" "$port" 0
try 'and takes a cursor of before' nothing 0 '' "$(counts 0 0 0 0 0 0)cursor 4\n" sync "$work/other" "$port" 4
try 'the cursor 0 brings all' nothing 0 '' "$(counts 4 0 0 0 0 0)cursor 4\n" sync "$work/other" "$port" 0
relay_ends 'a relay that was started anew' 'log 4\n'

# A relay that is stopped and goes on keeps its peer, and so does a sync that waits for the relay.
port=$((port + 1))
start_relay 1
open_peer
printf 'H\0\0\0\0' >&"$peer"
sleep 0.3
stopped=$(pgrep -P "$relay")
kill -STOP "$stopped"
sleep 0.3
kill -CONT "$stopped"
sleep 0.3
printf 'D' >&"$peer"
timeout 20 head -c 5 <&"$peer" >"$work/reply"
check 'a relay that was stopped answers' [ "$(od -An -tx1 "$work/reply")" = ' 55 00 00 00 00' ]
close_peer
relay_ends 'a relay that was stopped' 'log 0\n'
port=$((port + 1))
start_relay 2
open_peer
: >"$work/output"
# The peer's connection is the shell's alone, so that the relay sees it close.
"$program" sync "$work/other" "$port" 0 </dev/null 2>"$work/notes" {peer}>&- &
stopped=$!
sleep 0.3
kill -STOP "$stopped"
sleep 0.3
kill -CONT "$stopped"
sleep 0.3
close_peer
wait "$stopped"
compare 'a sync that was stopped is answered' $? 0 '' "$(counts 0 4 0 0 0 0)cursor 4\n"
relay_ends 'by a relay that it waited for' 'log 4\n'

# A peer that says nothing for a minute is given up, and so is a relay that says nothing.
port=$((port + 1))
start_relay 1
open_peer
if command -v python3 >/dev/null; then
    python3 -c 'import socket, sys, time
s = socket.socket(); s.setsockopt(socket.SOL_SOCKET, socket.SO_REUSEADDR, 1)
s.bind(("127.0.0.1", int(sys.argv[1]))); s.listen(); time.sleep(100)' $((port + 2)) &
    silent=$!
    sleep 0.5
    : >"$work/output"
    timeout 90 "$program" sync "$work/a" $((port + 2)) 0 </dev/null 2>"$work/notes"
    compare 'a relay that says nothing' $? 4 '' "$outside"
    kill "$silent"
else
    echo 'not tried: a relay that says nothing, since there is no python3'
fi
relay_ends 'a relay of a silent peer' 'log 0\n'
close_peer

# Nobody listens.
try 'no relay' nothing 4 '' "$outside" sync "$work/a" $((port + 1)) 0
because "manuscript: $((port + 1)): nobody listens at this port"

ended
