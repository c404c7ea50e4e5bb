#!/usr/bin/env bash
# Tests the built program as a process: every status that `show` can end with, and both of its outputs byte by byte.
#
# Two ends are not tried. Status 6 speaks of replica files, which `show` does not read; and too many operations are
# 4,194,305 that are all held, which takes too long.
. "$(dirname "$0")/common.sh"

put nothing
put titled "$section"
put chapter "$section" "$b" "$a" "$d" "$x" "$y"
put chapter_twice "$y" "$x" "$d" "$a" "$b" "$section" "$section" "$b" "$a" "$d" "$x" "$y"
put hidden "$section" "$b" "$drops_b"
put waiting "$section" "$after_b"
put full "$b" "$after_b" "$section" "$after_b"
put conflict "$section" "$b" "$other_b"
put stray "$in_b" "$section" "$b"
put bad "$section" "$section" '\6'
put bad_first "$(letter '0 0' '9 0' '' '' x)"
put cut "$section" '\1\0\0\0'
put_long long 10000
usage='words not understood\n'
outside='outside fault\n'
chapter='# T\nAXYDB\n'
all=$(counts 6 0 0 0 0 0)

# All was done.
try 'nothing is shown of nothing' nothing 0 '' "$(counts 0 0 0 0 0 0)" show
try 'a section' titled 0 '# T\n\n' "$(counts 1 0 0 0 0 0)" show
try 'a chapter of three authors' chapter 0 "$chapter" "$all" show
try 'with room for one waiting operation' chapter 0 "$chapter" "$all" show 1
try 'with room for all that may wait' chapter 0 "$chapter" "$all" show 1048576
try 'the last frame first, and all twice' chapter_twice 0 "$chapter" "$(counts 6 6 0 0 0 0)" show
try 'a hidden letter' hidden 0 '# T\n\n' "$(counts 3 0 0 0 0 0)" show
try '10,000 letters' long 0 "# T\n$(head -c 10000 /dev/zero | tr '\0' x)\n" "$(counts 10001 0 0 0 0 0)" show
{ head -c 50 "$work/chapter"; sleep 0.2; tail -c +51 "$work/chapter"; } | "$program" show >"$work/output" 2>"$work/notes"
compare 'a stream that comes in parts' $? 0 "$chapter" "$all"

# Where the system counts the writes of programs that a shell waited for, they are few for many letters.
if [ -r /proc/self/io ]; then
    writes=$(bash -c '"$0" show <"$1" >/dev/null 2>&1; sed -n "s/^syscw: //p" /proc/$$/io' "$program" "$work/long")
    tried=$((tried + 1))
    if [ "$writes" -lt 20 ]; then
        echo "ok: $writes writes for 10,000 letters"
    else
        failed=$((failed + 1))
        echo "FAILED: $writes writes for 10,000 letters"
    fi
fi

# The words are no command, and the input stays unread.
try 'no words' chapter 1 '' "$usage"
try 'another word' chapter 1 '' "$usage" print
try 'a word in capitals' chapter 1 '' "$usage" Show
try 'an empty word' chapter 1 '' "$usage" ''
try 'an empty number' chapter 1 '' "$usage" show ''
try 'a number of 0' chapter 1 '' "$usage" show 0
try 'a number that is too great' chapter 1 '' "$usage" show 1048577
try 'a zero in front' chapter 1 '' "$usage" show 01
try 'a sign' chapter 1 '' "$usage" show +1
try 'a blank behind' chapter 1 '' "$usage" show '1 '
try 'words that are too many' chapter 1 '' "$usage" show 1 1
try 'a word that is not UTF-8' chapter 1 '' "$usage" $'\xff'
try 'a number that is not UTF-8' chapter 1 '' "$usage" show $'1\xff'
try 'one word of many is not UTF-8' chapter 1 '' "$usage" show 1 $'\xff'
{ "$program" show 0 2>"$work/notes"; echo "$?" >"$work/status"; cat; } <"$work/chapter" >"$work/output"
compare 'the input stays unread' "$(cat "$work/status")" 1 "$section$b$a$d$x$y" "$usage"

# The stream is no stream of frames.
try 'a bad frame' bad 2 '' 'bad frame at byte 28\n' show
try 'replica 0' bad_first 2 '' 'bad frame at byte 0\n' show
try 'a stream that is cut short' cut 2 '' 'cut short at byte 14\n' show

# Printed, but not all was accepted.
try 'an operation waits' waiting 3 '# T\n\n' "$(counts 1 0 1 0 0 0)" show
try 'no more may wait' full 3 '# T\nBC\n' "$(counts 3 0 0 0 0 1)" show 1
try 'another letter with the identifier' conflict 3 '# T\nB\n' "$(counts 2 0 0 1 0 0)" show
try 'a letter in a letter' stray 3 '# T\nB\n' "$(counts 2 0 0 0 1 0)" show

# The outside fails.
"$program" show <"$work" >"$work/output" 2>"$work/notes"
compare 'a folder as input' $? 4 '' "$outside"
"$program" show <&- >"$work/output" 2>"$work/notes"
compare 'no input' $? 4 '' "$outside"
: >"$work/output"
"$program" show <"$work/chapter" >/dev/full 2>"$work/notes"
compare 'a full device as output' $? 4 '' "$outside"
"$program" show <"$work/chapter" >&- 2>"$work/notes"
compare 'no output' $? 4 '' "$outside"
exec {pipe}> >(exit 0)
wait $!
"$program" show <"$work/chapter" >&"$pipe" 2>"$work/notes"
compare 'a pipe that nobody reads' $? 4 '' "$outside"
exec {pipe}>&-
: >"$work/notes"
"$program" show <"$work/chapter" >"$work/output" 2>/dev/full
compare 'a full device for the notes' $? 4 "$chapter" ''
"$program" show <"$work/chapter" >"$work/output" 2>&-
compare 'no notes' $? 4 "$chapter" ''
: >"$work/output"
"$program" show <"$work/bad" >"$work/output" 2>/dev/full
compare 'a fault that cannot be told keeps its status' $? 2 '' ''
"$program" <"$work/bad" >"$work/output" 2>&-
compare 'words that cannot be answered keep their status' $? 1 '' ''

# Memory is wanting.
try_memory 'too little memory for the operations' long show
many=()
for ((at = 0; at < 10000; at++)); do many+=(w); done
try_memory 'too little memory for the words' chapter "${many[@]}"

# A limit is met: sections of 480 letters, again and again, fill more than a stream may have.
put wide '\1'"$(id 9 0)"'\0\0\001\340'"$(head -c 480 /dev/zero | tr '\0' t)"
for _ in {1..12}; do
    cat "$work/wide" "$work/wide" >"$work/wider"
    mv "$work/wider" "$work/wide"
done
while cat "$work/wide" 2>/dev/null; do :; done | "$program" show >"$work/output" 2>"$work/notes"
compare 'a stream of more than 2,147,483,648 bytes' "${PIPESTATUS[1]}" 7 '' 'too long\n'

ended
