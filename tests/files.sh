#!/usr/bin/env bash
# Tests the commands on replica files, on real files, byte by byte: what they print, note and leave, and what they
# refuse. A file that may not be written is tried as another user, where the tests run as one who may write all.
. "$(dirname "$0")/common.sh"

# The header of a file.
header() {
    printf 'FGMX\\2\\0\\0\\0\\%03o\\0\\0\\0\\%03o' "$1" "$2"
}

# A batch of these frames, behind an open gate. Its word has the tag of runs.
batch() {
    local frames=$1 long
    long=$(printf "$frames" | wc -c)
    printf '\\1\\040\\0\\%03o\\%03o%s' $((long / 256)) $((long % 256)) "$frames"
}

# Says whether a file has these bytes, as escapes.
holds() {
    printf "$2" | cmp -s - "$work/$1"
}

# Writes a script to a file with the name.
script() {
    local name=$1
    shift
    printf '%s\n' "$@" >"$work/$name"
}

put nothing
script nothing_asked
put titled "$section"
script chapter 'add 1 T' 'put 1 0 AB' 'cut 1 1 1' 'put 1 1 C'
s='\1'$(id 1 0)'\0\0\0\001T'
made=$s'\4'$(id 1 1)$(id 1 0)'\0\0\0\2\0\0A\0\0B\3'$(id 1 2)$(letter '1 3' '1 0' '1 1' '1 2' C)
f=$work/f
g=$work/g
all=$(counts 5 0 0 0 0 0)
outside='outside fault\n'
usage='words not understood\n'

# A file is made, edited, printed and sent.
try 'a file is made' nothing 0 '' '' new "$f" 1 16
check 'it has a header and a closed gate' holds f "$(header 1 16)"'\0'
try 'a script is run' chapter 0 '' 'made 5\n' edit "$f"
check 'what it made is one batch' holds f "$(header 1 16)$(batch "$made")"'\0'
try 'the manuscript is printed' nothing 0 '# T\nAC\n' '' print "$f"
try 'its operations are sent' nothing 0 "$made" '' send "$f"
cp "$f" "$work/edited"

# A certificate of the order is printed and checked.
reason='claim 1.1 1.3\ndown 1.1 1.3\nprefix\n'
put reason "$reason"
put reversed 'claim 1.3 1.1\ndown 1.3 1.1\nprefix\n'
try 'why A stands before C' nothing 0 "$reason" '' why "$f" 1 0 1
try 'that is so' reason 0 'yes\n' '' check "$f"
try 'the reverse is not' reversed 0 'no\n' '' check "$f"
try 'no text is no certificate' nothing 0 'no\n' '' check "$f"
try 'a place that is not there' nothing 2 '' 'no such places\n' why "$f" 1 0 2
try 'a section that is not there' nothing 2 '' 'no such places\n' why "$f" 2 0 1
try 'places in the other order' nothing 2 '' 'no such places\n' why "$f" 1 1 0
try 'the section before the first' nothing 1 '' "$usage" why "$f" 0 0 1
because "manuscript: why FILE K P Q: K is a number from 1 to 4294967295, without leading zeros, and '0' is none"
check 'the file stays as it was' cmp -s "$f" "$work/edited"

# Another author takes them in.
try 'another file is made' nothing 0 '' '' new "$g" 2 16
try 'the first is merged' nothing 0 '' "$all" merge "$g" "$f"
try 'both print the same' nothing 0 '# T\nAC\n' '' print "$g"
cp "$g" "$work/merged"
try 'the first is merged once more' nothing 0 '' "$(counts 0 5 0 0 0 0)" merge "$g" "$f"
check 'nothing is saved twice' cmp -s "$g" "$work/merged"
check 'the file that is merged stays as it is' cmp -s "$f" "$work/edited"
try 'a third file is made' nothing 0 '' '' new "$work/h" 3 16
"$program" send "$f" | "$program" take "$work/h" >"$work/output" 2>"$work/notes"
compare 'what one sends another takes' "${PIPESTATUS[1]}" 0 '' "$all"
try 'and prints the same' nothing 0 '# T\nAC\n' '' print "$work/h"
try 'an empty script' nothing_asked 0 '' 'made 0\n' edit "$f"
check 'saves nothing' cmp -s "$f" "$work/edited"
try 'a file merged with itself' nothing 0 '' "$(counts 0 5 0 0 0 0)" merge "$f" "$f"
check 'stays as it is' cmp -s "$f" "$work/edited"

# What waits is kept, and is saved.
new_file() {
    rm -f "$work/$1"
    "$program" new "$work/$1" 1 16 </dev/null >/dev/null 2>&1
}
waits=$(letter '2 0' '9 0' '1 0' '' w)
put waiting "$section" "$waits"
new_file w
try 'an operation waits' waiting 3 '' "$(counts 1 0 1 0 0 0)" take "$work/w"
try 'it is not shown' nothing 0 '# T\n\n' '' print "$work/w"
script put_x 'put 1 0 x'
try 'a counter that a waiting one names is not used' put_x 0 '' 'made 1\n' edit "$work/w"
try 'what waits is sent behind what is accepted' nothing 0 "$section$(letter '1 1' '9 0' '' '' x)$waits" '' send "$work/w"

# Sections are moved and retitled.
new_file moved
script three_sections 'add 1 A' 'add 2 B' 'add 3 C'
sections='\1'$(id 1 0)'\0\0\0\1A\1'$(id 1 1)$(origin 1 0)'\0\0\1B\1'$(id 1 2)$(origin 1 1)'\0\0\1C'
move='\5'$(id 1 3)'\2'$(id 1 2)$(id 1 0)'\1\0\5\0\0\0\1\2'
try 'three sections' three_sections 0 '' 'made 3\n' edit "$work/moved"
try 'the last one is moved to the front' nothing 0 '' 'made 1\n' move "$work/moved" 3 1
check 'the move is a batch of one note' holds moved "$(header 1 16)$(batch "$sections")$(batch "$move")"'\0'
try 'the sections are arranged' nothing 0 '# C\n\n# A\n\n# B\n\n' '' arrange "$work/moved"
try 'and printed as if none was moved' nothing 0 '# A\n\n# B\n\n# C\n\n' '' print "$work/moved"
try 'one gets another title' nothing 0 '' 'made 1\n' retitle "$work/moved" 1 'Two words'
try 'it is arranged under that title' nothing 0 '# Two words\n\n# A\n\n# B\n\n' '' arrange "$work/moved"
cp "$work/moved" "$work/as_moved"
try 'a section that is not there' nothing 2 '' 'no section 4\n' move "$work/moved" 4 1
try 'a place that is not there' nothing 2 '' 'no place 4\n' move "$work/moved" 1 4
try 'a section with no title to change' nothing 2 '' 'no section 4\n' retitle "$work/moved" 4 T
try 'the section before the first is none' nothing 1 '' "$usage" move "$work/moved" 0 1
because "manuscript: move FILE K J: K is a number from 1 to 4294967295, without leading zeros, and '0' is none"
try 'an empty title' nothing 1 '' "$usage" retitle "$work/moved" 1 ''
because 'manuscript: retitle FILE K TITLE: TITLE is empty'
try 'a title of two lines' nothing 1 '' "$usage" retitle "$work/moved" 1 $'a\nb'
try 'a title that is too long' nothing 1 '' "$usage" retitle "$work/moved" 1 "$(printf '%0481d' 0)"
try 'a title that is not UTF-8' nothing 1 '' "$usage" retitle "$work/moved" 1 $'\xff'
try 'two files to arrange' nothing 1 '' "$usage" arrange "$work/moved" "$f"
because 'usage: manuscript arrange FILE'
check 'nothing of these was saved' cmp -s "$work/moved" "$work/as_moved"

# Comments and versions.
new_file noted
script five_letters 'add 1 T' 'put 1 0 ABCDE'
script no_section 'drop 1'
try 'five letters' five_letters 0 '' 'made 6\n' edit "$work/noted"
try 'three of them get a comment' nothing 0 '' 'made 1\n' comment "$work/noted" 1 1 3 'Is it so?'
try 'it is printed' nothing 0 '1 1 4 Is it so?\n' '' comments "$work/noted"
try 'a version gets a name' nothing 0 '' 'made 1\n' version "$work/noted" 'first draft'
try 'the section goes' no_section 0 '' 'made 1\n' edit "$work/noted"
try 'no comment is printed' nothing 0 '' '' comments "$work/noted"
try 'the version is listed' nothing 0 '7 first draft\n' '' versions "$work/noted"
try 'and viewed' nothing 0 '# T\nABCDE\n' '' view "$work/noted" 'first draft'
cp "$work/noted" "$work/as_noted"
try 'another one is not there' nothing 2 '' 'no version second draft\n' view "$work/noted" 'second draft'
try 'a name of 120 bytes is none of a version' nothing 2 '' "no version $(printf '%0120d' 0)\n" view "$work/noted" "$(printf '%0120d' 0)"
try 'a section that is not there' nothing 2 '' 'no section 1\n' comment "$work/noted" 1 0 1 x
try 'a comment on nothing' nothing 1 '' "$usage" comment "$work/noted" 1 0 0 x
because "manuscript: comment FILE K P N TEXT: N is a number from 1 to 4294967295, without leading zeros, and '0' is none"
try 'a comment that is too long' nothing 1 '' "$usage" comment "$work/noted" 1 0 1 "$(printf '%01025d' 0)"
try 'a comment of two lines' nothing 1 '' "$usage" comment "$work/noted" 1 0 1 $'a\nb'
try 'a name that is too long' nothing 1 '' "$usage" version "$work/noted" "$(printf '%0121d' 0)"
because 'manuscript: version FILE NAME: NAME has 121 bytes, and 120 is the most'
try 'an empty name' nothing 1 '' "$usage" view "$work/noted" ''
because 'manuscript: view FILE NAME: NAME is empty'
try 'a name that is not UTF-8' nothing 1 '' "$usage" version "$work/noted" $'\xff'
check 'nothing of these was saved' cmp -s "$work/noted" "$work/as_noted"
try 'the longest name' nothing 0 '' 'made 1\n' version "$work/noted" "$(printf '%0120d' 0)"
try 'is found' nothing 0 '' '' view "$work/noted" "$(printf '%0120d' 0)"

# The last counter is spent.
last='\2\0\0\0\1\377\377\377\377'$(id 9 0)'\0\0\0\0y'
put spent "$section" "$last"
new_file l
try 'an operation with the last counter' spent 0 '' "$(counts 2 0 0 0 0 0)" take "$work/l"
cp "$work/l" "$work/before"
try 'no counter is left' put_x 7 '' 'ids spent: 4294967295\n' edit "$work/l"
check 'the file is as before' cmp -s "$work/l" "$work/before"
script cut_y 'cut 1 0 1'
try 'a cut needs none' cut_y 0 '' 'made 1\n' edit "$work/l"

# What is not whole is not saved.
script bad_line 'put 1 0 x' '# a note' 'put 1 0'
try 'a bad line' bad_line 2 '' 'bad line 3\n' edit "$f"
script no_section 'put 1 0 x' 'drop 2'
try 'no section' no_section 2 '' 'no section at line 2\n' edit "$f"
script out_of_range 'put 1 3 x'
try 'out of range' out_of_range 2 '' 'out of range at line 1\n' edit "$f"
put bad "$section" '\6'
try 'a bad frame' bad 2 '' 'bad frame at byte 14\n' take "$f"
put cut "$section" '\1\0\0\0'
try 'a stream that is cut short' cut 2 '' 'cut short at byte 14\n' take "$f"
head -c 1048577 /dev/zero | tr '\0' '#' >"$work/long"
try 'a script that is too long' long 7 '' 'too long\n' edit "$f"
check 'nothing of these was saved' cmp -s "$f" "$work/edited"

# Files that are none, and such as end earlier.
try 'a file that is not empty is not made' nothing 6 '' 'not empty\n' new "$f" 1 16
check 'and stays as it is' cmp -s "$f" "$work/edited"
put empty
try 'an empty file is made' nothing 0 '' '' new "$work/empty" 1 16
{ printf '\0'; tail -c +2 "$f"; } >"$work/other_mark"
try 'another mark' nothing 6 '' 'not a replica\n' print "$work/other_mark"
try 'another mark, to be merged' nothing 6 '' 'not a replica\n' merge "$f" "$work/other_mark"
try 'the file is judged before the other one' nothing 6 '' 'not a replica\n' merge "$work/other_mark" "$work/none"
: >"$work/output"
"$program" edit "$work/other_mark" <&- 2>"$work/notes"
compare 'and before the input is read' $? 6 '' 'not a replica\n'
"$program" check "$work/other_mark" <&- >"$work/output" 2>"$work/notes"
compare 'of a certificate too' $? 6 '' 'not a replica\n'
{ head -c 13 "$f"; printf '\7'; tail -c +15 "$f"; } >"$work/closed"
try 'a closed gate ends the meaning' nothing 0 '' '' print "$work/closed"
head -c 106 "$f" >"$work/cut_file"
try 'a batch with no byte behind it' nothing 6 '' 'bad batch 0\n' print "$work/cut_file"
check 'the file is as before' cmp -s "$f" "$work/edited"

# The words.
try 'no file' nothing 1 '' "$usage" print
because 'usage: manuscript print FILE'
try 'an empty name' nothing 1 '' "$usage" print ''
try 'two files where one is printed' nothing 1 '' "$usage" print "$f" "$f"
try 'no replica' nothing 1 '' "$usage" new "$work/none" 0 16
try 'a hold of 0' nothing 1 '' "$usage" new "$work/none" 1 0
try 'a hold that is too great' nothing 1 '' "$usage" new "$work/none" 1 1048577
because "manuscript: new FILE REPLICA HOLD: HOLD is a number from 1 to 1048576, without leading zeros, and '1048577' is none"
try 'a replica that is too great' nothing 1 '' "$usage" new "$work/none" 4294967296 16
check 'words that are no command make no file' [ ! -e "$work/none" ]
try 'a file that is not there is not made by an edit' chapter 4 '' "$outside" edit "$work/none"
because "manuscript: $work/none: no such file (manuscript new makes one)"
check 'indeed' [ ! -e "$work/none" ]
try 'a folder' nothing 4 '' "$outside" print "$work"
because "manuscript: $work: a directory, and no file"
try 'the other file is not there' nothing 4 '' "$outside" merge "$f" "$work/none"
because "manuscript: $work/none: no such file"
try 'a folder that is not there' nothing 4 '' "$outside" new "$work/no/file" 1 16
because "manuscript: $work/no/file: no such folder"
mkfifo "$work/pipe"
for command in print send edit take check arrange comments versions; do
    timeout 10 "$program" "$command" "$work/pipe" <"$work/nothing" >"$work/output" 2>"$work/notes"
    compare "a pipe is refused at once: $command" $? 4 '' "$outside"
    because "manuscript: $work/pipe: no regular file"
done
timeout 10 "$program" merge "$f" "$work/pipe" </dev/null >"$work/output" 2>"$work/notes"
compare 'a pipe as the other file' $? 4 '' "$outside"
because "manuscript: $work/pipe: no regular file"
timeout 10 "$program" new "$work/pipe" 1 16 </dev/null >"$work/output" 2>"$work/notes"
compare 'a pipe is not made a file' $? 4 '' "$outside"
# Where no file may grow, the notes cannot be written either.
bash -c 'trap "" XFSZ; ulimit -f 0; exec "$0" new "$1" 1 16' "$program" "$work/unfinished" </dev/null >"$work/output" 2>"$work/notes"
compare 'a file that cannot be written' $? 4 '' ''
check 'is not left behind' [ ! -e "$work/unfinished" ]
: >"$work/unfinished"
bash -c 'trap "" XFSZ; ulimit -f 0; exec "$0" new "$1" 1 16' "$program" "$work/unfinished" </dev/null >"$work/output" 2>"$work/notes"
compare 'an empty file that was there' $? 4 '' ''
check 'stays' [ -e "$work/unfinished" ]
ln -s nowhere "$work/link"
try 'a link that leads nowhere' nothing 4 '' "$outside" new "$work/link" 1 16
because "manuscript: $work/link: a link that leads nowhere"
try 'the greatest replica' nothing 0 '' '' new "$work/greatest" 4294967295 1048576

# Two programs, one file: the first one keeps it, and nothing is lost. Who only reads takes no lock, and is let in.
new_file shared
mkfifo "$work/slowly"
"$program" edit "$work/shared" <"$work/slowly" 2>"$work/first_notes" &
exec {script}>"$work/slowly"
for ((waited = 0; waited < 100; waited++)); do
    readlink /proc/$!/fd/* 2>/dev/null | grep -qxF "$work/shared" && break
    sleep 0.05
done
sleep 0.1
try 'the file is in use' chapter 4 '' "$outside" edit "$work/shared"
because "manuscript: $work/shared: in use by another program"
try 'and is read meanwhile' nothing 0 '' '' print "$work/shared"
try 'and is merged into another' nothing 0 '' "$(counts 0 0 0 0 0 0)" merge "$g" "$work/shared"
printf 'add 1 T\n' >&"$script"
exec {script}>&-
wait $!
check 'who came first ended well' holds first_notes 'made 1\n'
try 'and is in the file' nothing 0 '# T\n\n' '' print "$work/shared"
if command -v flock >/dev/null; then
    exec {reader}<"$f"
    flock "$reader"
    try 'a file that is locked is read' nothing 0 '# T\nAC\n' '' print "$f"
    try 'and is not edited' chapter 4 '' "$outside" edit "$f"
    exec {reader}<&-
else
    echo 'not tried: a file that is locked, since there is no flock'
fi

# Calls of the system between which something happens: the number of the first one of a command that begins so.
number_of() {
    local call=$1
    shift
    AT=0 LD_PRELOAD=$work/calls.so "$program" "$@" <"$work/nothing" >/dev/null 2>&1 9>"$work/calls"
    grep -n "^$call" "$work/calls" | head -n 1 | cut -d: -f1
}

# Starts a command that is stopped as it begins this call. Its number goes to `stopped`.
stop_at() {
    local call=$1 waited
    shift
    AT=$call FAULT=stop LD_PRELOAD=$work/calls.so "$program" "$@" <"$work/nothing" >"$work/output" 2>"$work/notes" \
        9>"$work/calls" &
    stopped=$!
    for ((waited = 0; waited < 200; waited++)); do
        grep -q '^State:.T' "/proc/$stopped/status" && return
        sleep 0.05
    done
}

if build_c calls; then
    # What a file leads to may change between its opening and its lock.
    made=$work/made
    lock=$(number_of flock new "$made" 1 16)
    rm -f "$made"
    stop_at "$lock" new "$made" 1 16
    "$program" new "$made" 2 16 <"$work/nothing" 2>"$work/other_notes"
    check 'a file that another one makes and stops at' [ $? = 0 ]
    "$program" edit "$made" <"$work/chapter" 2>"$work/other_notes"
    check 'is saved to' [ $? = 0 ]
    kill -CONT "$stopped"
    wait "$stopped"
    compare 'and is not empty for who goes on' $? 6 '' 'not empty\n'
    try 'nor is it removed' nothing 0 '# T\nAC\n' '' print "$made"

    rm -f "$made"
    stop_at "$lock" new "$made" 1 16
    rm "$made"
    kill -CONT "$stopped"
    wait "$stopped"
    compare 'a file that is removed before it is locked is none that was made' $? 4 '' "$outside"
    because "manuscript: $made: in use by another program"
    check 'and none is there' [ ! -e "$made" ]

    new_file put_there
    cp "$f" "$made"
    lock=$(number_of flock edit "$made")
    stop_at "$lock" edit "$made"
    mv "$work/put_there" "$made"
    kill -CONT "$stopped"
    wait "$stopped"
    compare 'one that is replaced before it is locked is not saved to' $? 4 '' "$outside"
    because "manuscript: $made: in use by another program"

    # A reader that finds a gate open which another program has opened and not synced yet.
    for command in print send arrange list; do
        { head -c 13 "$work/edited"; printf '\0'; tail -c +15 "$work/edited"; } >"$made"
        AT=0 LD_PRELOAD=$work/calls.so "$program" "$command" "$made" <"$work/nothing" >"$work/closed" 2>"$work/notes" 9>"$work/calls"
        gate=$(grep -n '^pread made 1 at 13' "$work/calls" | cut -d: -f1)
        AT=$gate FAULT=opens LD_PRELOAD=$work/calls.so "$program" "$command" "$made" <"$work/nothing" >"$work/output" \
            2>"$work/notes" 9>"$work/calls"
        check "$command gives what the other one wrote" [ $? = 0 -a "$(wc -c <"$work/output")" -gt "$(wc -c <"$work/closed")" ]
        check "and syncs behind each read" \
            awk '/^pread/ { reads++; getline; if ($1 != "fsync") apart++ } END { exit apart || reads < 3 }' "$work/calls"
    done
    new_file into
    { head -c 13 "$work/edited"; printf '\0'; tail -c +15 "$work/edited"; } >"$made"
    AT=0 LD_PRELOAD=$work/calls.so "$program" merge "$work/into" "$made" <"$work/nothing" 2>"$work/notes" 9>"$work/calls"
    gate=$(grep -n '^pread made 1 at 13' "$work/calls" | cut -d: -f1)
    AT=$gate FAULT=opens LD_PRELOAD=$work/calls.so "$program" merge "$work/into" "$made" <"$work/nothing" >"$work/output" \
        2>"$work/notes" 9>"$work/calls"
    compare 'merge takes in what the other one wrote' $? 0 '' "$all"
    check 'and syncs behind each read of it' \
        awk '/^pread made/ { reads++; getline; if ($0 !~ /^fsync made/) apart++ } END { exit apart || reads < 3 }' "$work/calls"
fi

# One prints in a loop beside one that saves in a loop, 200 letters at a time: no save fails, and each print is the
# manuscript behind one of the saves.
new_file loop
script heading 'add 1 T'
try 'a file to be printed beside saves' heading 0 '' 'made 1\n' edit "$work/loop"
printf 'put 1 0 %s\n' "$(head -c 200 /dev/zero | tr '\0' x)" >"$work/more"
{
    for ((save = 0; save < 20; save++)); do
        "$program" edit "$work/loop" <"$work/more" || exit 1
    done
} >/dev/null 2>&1 &
saver=$!
is_state() {
    local letters=$(($(wc -c <"$work/output") - 5))
    ((letters >= 0 && letters % 200 == 0)) && [ ! -s "$work/notes" ] || return 1
    { printf '# T\n'; head -c "$letters" /dev/zero | tr '\0' x; printf '\n'; } | cmp -s - "$work/output"
}
others=0
for ((prints = 0; prints < 1000; prints++)); do
    "$program" print "$work/loop" </dev/null >"$work/output" 2>"$work/notes" && is_state || others=$((others + 1))
    kill -0 $saver 2>/dev/null || break
done
wait $saver
check 'each save beside prints ended well' [ $? = 0 ]
check 'each print beside saves is one of the states' [ $others = 0 ]
try 'all letters are printed at last' nothing 0 "# T\n$(head -c 4000 /dev/zero | tr '\0' x)\n" '' print "$work/loop"

# Two that save in loops to one file: each save is done, or finds the file in use and changes nothing, and none that was
# done is lost.
new_file both
try 'a file to be saved to by two' heading 0 '' 'made 1\n' edit "$work/both"
save_letters() {
    local letter=$1 saves=$2 status
    script "$letter" "put 1 0 $letter"
    while [ "$saves" -gt 0 ]; do
        "$program" edit "$work/both" <"$work/$letter" >/dev/null 2>"$work/$letter.notes"
        status=$?
        if [ $status = 0 ]; then
            saves=$((saves - 1))
        else
            [ $status = 4 ] && grep -q 'in use by another program' "$work/$letter.notes" || exit 1
        fi
    done
}
save_letters a 50 &
first=$!
save_letters b 50 &
wait $first
check 'each of its saves was done or found the file in use' [ $? = 0 ]
wait $!
check 'and so was each of the other' [ $? = 0 ]
"$program" print "$work/both" </dev/null | tail -n 1 | fold -w 1 | sort | uniq -c | tr -d ' \n' >"$work/letters_of_both"
check 'none that was done is lost' [ "$(cat "$work/letters_of_both")" = 50a50b ]

# The outside fails.
: >"$work/output"
"$program" print "$f" </dev/null >/dev/full 2>"$work/notes"
compare 'a full device as output' $? 4 '' "$outside"
because 'manuscript: standard output: no space left on the device'
"$program" send "$f" </dev/null >/dev/full 2>"$work/notes"
compare 'a full device as output of send' $? 4 '' "$outside"
"$program" arrange "$f" </dev/null >/dev/full 2>"$work/notes"
compare 'a full device as output of arrange' $? 4 '' "$outside"
cp "$f" "$work/small"
head -c 3000 /dev/zero | tr '\0' y >"$work/letters"
{ printf 'put 1 0 '; cat "$work/letters"; printf '\n'; } >"$work/much"
: >"$work/output"
bash -c 'trap "" XFSZ; ulimit -f 1; exec "$0" edit "$1" <"$2"' "$program" "$work/small" "$work/much" >"$work/output" 2>"$work/notes"
compare 'a file that may not grow so far' $? 4 '' "$outside"
try 'reads as before' nothing 0 '# T\nAC\n' '' print "$work/small"
try 'and the edit is made later' much 0 '' 'made 3000\n' edit "$work/small"
: >"$work/output"
"$program" edit "$f" <"$work" >"$work/output" 2>"$work/notes"
compare 'a folder as script' $? 4 '' "$outside"
"$program" take "$f" <&- >"$work/output" 2>"$work/notes"
compare 'no input' $? 4 '' "$outside"
because 'manuscript: standard input: closed'
if command -v python3 >/dev/null; then
    # A pipe that is set not to wait for what comes.
    python3 -c '
import os, subprocess, sys
read, write = os.pipe()
os.set_blocking(read, False)
sys.exit(subprocess.run(sys.argv[1:], stdin=read).returncode)' "$program" take "$f" >"$work/output" 2>"$work/notes"
    compare 'an input that does not wait' $? 4 '' "$outside"
    because 'manuscript: standard input: set not to wait, and not ready; put a pipe or a file in its place'
fi
check 'the file is as before' cmp -s "$f" "$work/edited"
cp "$f" "$work/noted"
: >"$work/notes"
"$program" edit "$work/noted" <"$work/put_x" >"$work/output" 2>/dev/full
compare 'notes that fail' $? 4 '' ''
try 'what was saved before stands' nothing 0 '# T\nxAC\n' '' print "$work/noted"

# A stream that is closed, whose number a file that is opened could get.
cp "$f" "$work/apart"
: >"$work/notes"
"$program" edit "$work/apart" <"$work/put_x" >"$work/output" 2>&-
compare 'no notes' $? 4 '' ''
try 'what was saved before stands' nothing 0 '# T\nxAC\n' '' print "$work/apart"
"$program" edit "$work/apart" <&- >"$work/output" 2>"$work/notes"
compare 'no script' $? 4 '' "$outside"
: >"$work/output"
"$program" print "$work/apart" </dev/null >&- 2>"$work/notes"
compare 'no output' $? 4 '' "$outside"
try 'the file is as before' nothing 0 '# T\nxAC\n' '' print "$work/apart"

# A file that may be read and not written.
as_other=()
chmod 444 "$f"
chmod 755 "$work"
if [ -w "$f" ]; then
    as_other=(setpriv --reuid 65534 --regid 65534 --clear-groups)
    "${as_other[@]}" test -x "$program" 2>/dev/null || as_other=(none)
fi
if [ "${as_other[*]}" != none ]; then
    "${as_other[@]}" "$program" print "$f" </dev/null >"$work/output" 2>"$work/notes"
    compare 'a file that may not be written is printed' $? 0 '# T\nAC\n' ''
    "${as_other[@]}" "$program" edit "$f" <"$work/put_x" >"$work/output" 2>"$work/notes"
    compare 'and not edited' $? 4 '' "$outside"
    because "manuscript: $f: not permitted"
    check 'it is as before' cmp -s "$f" "$work/edited"
else
    echo 'not tried: a file that may not be written, since no other user may run the program'
fi

ended
