#!/usr/bin/env bash
# Tests drafts: `revise` and `list` on small files, the script examples/manuscript-write with editors that are commands,
# and random drafts beside the reader.
. "$(dirname "$0")/common.sh"

writes=$PWD/examples/manuscript-write
f=$work/f.ms
base=$work/base
put nothing
usage='words not understood\n'

# A file with the sections A and B, printed to the base.
begin() {
    rm -f "$f"
    "$program" new "$f" 1 16 <"$work/nothing" >"$work/output" 2>"$work/notes"
    printf 'add 1 A\nadd 2 B\nput 1 0 one two\nput 2 0 three\n' | "$program" edit "$f" >"$work/output" 2>"$work/notes"
    "$program" arrange "$f" <"$work/nothing" >"$base"
    cp "$f" "$work/before"
}

# A draft is revised: its bytes, the status, the notes, and what `arrange` prints then.
revised() {
    begin
    put draft "$2"
    try "$1" draft "$3" '' "$4" revise "$f" "$base"
    try "$1: what is printed then" nothing 0 "$5" '' arrange "$f"
}

same='# A\none two\n# B\nthree\n'
revised 'a draft as printed' "$same" 0 'made 0\n' "$same"
check 'writes nothing' cmp -s "$f" "$work/before"
revised 'a word' '# A\n1 two\n# B\nthree\n' 0 'made 6\n' '# A\n1 two\n# B\nthree\n'
revised 'the sections the other way round' '# B\nthree\n# A\none two\n' 0 'made 1\nsections: 0 added, 0 dropped, 1 moved, 0 retitled\n' '# B\nthree\n# A\none two\n'
revised 'another title' '# A\none two\n# C\nthree\n' 0 'made 1\nsections: 0 added, 0 dropped, 0 moved, 1 retitled\n' '# A\none two\n# C\nthree\n'
begin
put draft '# A\none two\n# N\nx\n# B\nthree\n'
"$program" revise "$f" "$base" <"$work/draft" >"$work/output" 2>"$work/notes"
check 'a section between them takes three operations at most' grep -qx 'made [23]' "$work/notes"
try 'and is printed there' nothing 0 '# A\none two\n# N\nx\n# B\nthree\n' '' arrange "$f"
revised 'a section less' '# B\nthree\n' 0 'made 1\nsections: 0 added, 1 dropped, 0 moved, 0 retitled\n' '# B\nthree\n'
revised 'no line end at the end' '# A\none two\n# B\nthree' 0 'made 0\n' "$same"
check 'writes nothing either' cmp -s "$f" "$work/before"
begin
put draft '# A\none two\n# B\nthree\n# N\n'
"$program" revise "$f" "$base" <"$work/draft" >"$work/output" 2>"$work/notes"
check 'a section with no text takes two operations at most' grep -qx 'made [12]' "$work/notes"
try 'and has an empty line' nothing 0 '# A\none two\n# B\nthree\n# N\n\n' '' arrange "$f"

# What is refused saves nothing.
refused() {
    revised "$1" "$2" 2 "$3" "$same"
    check "$1: the file stays as it was" cmp -s "$f" "$work/before"
}
refused 'an empty draft' '' 'empty draft\n'
refused 'a draft without a title' 'hello\n' 'bad draft at line 1\n'
refused 'an empty title' '# A\none\n# \n' 'bad draft at line 3\n'
refused 'a byte that is not UTF-8' '# A\n\377\n' 'bad draft at line 2\n'
refused 'a title with CR' '# A\nx\n# B\r\ny\n' 'bad draft at line 3\n'
begin
put draft '# A\n'
printf '%s' "$(cat "$base")" >"$work/short"
try 'a base without its last byte' draft 2 '' "base differs at byte $(wc -c <"$work/short")\\n" revise "$f" "$work/short"
(cat "$base" && printf x) >"$work/longer"
try 'a base with a byte more' draft 2 '' "base differs at byte $(wc -c <"$base")\\n" revise "$f" "$work/longer"
try 'an empty base' draft 2 '' 'base differs at byte 0\n' revise "$f" "$work/nothing"
check 'they save nothing' cmp -s "$f" "$work/before"
try 'a base that is not there' draft 4 '' 'outside fault\n' revise "$f" "$work/none"
because "manuscript: $work/none: no such file (manuscript arrange FILE > BASE prints one)"
try 'a file that is not there' draft 4 '' 'outside fault\n' revise "$work/none" "$base"
because "manuscript: $work/none: no such file (manuscript new makes one)"
try 'a file that is no replica' draft 6 '' 'not a replica\n' revise "$base" "$base"
try 'words without a base' draft 1 '' "$usage" revise "$f"
because 'usage: manuscript revise FILE BASE [N] < DRAFT'
printf 'put 2 0 # no title\\n\n' >"$work/titled"
begin
"$program" edit "$f" <"$work/titled" >"$work/output" 2>"$work/notes"
"$program" arrange "$f" <"$work/nothing" >"$base"
cp "$base" "$work/same"
try 'a text that has a line like a title, handed back' same 0 '' 'made 0\n' revise "$f" "$base"

# `list` tells both numbers of a section.
begin
try 'sections are listed' nothing 0 'replica 1, hold 16, accepted 14, waiting 0\n1 7 A\n2 5 B\n' '' list "$f"
"$program" move "$f" 2 1 <"$work/nothing" >"$work/output" 2>"$work/notes"
try 'with their numbers where they were moved' nothing 0 'replica 1, hold 16, accepted 15, waiting 0\n1 (2) 5 B\n2 (1) 7 A\n' '' list "$f"
try 'two files to list' nothing 1 '' "$usage" list "$f" "$f"
because 'usage: manuscript list FILE'

# Two authors revise different paragraphs of a section, and both find both changes.
begin
g=$work/g.ms
rm -f "$g"
"$program" new "$g" 2 16 <"$work/nothing" >"$work/output" 2>"$work/notes"
printf '# A\nfirst\n\nsecond\n' >"$work/draft"
"$program" revise "$f" "$base" <"$work/draft" >"$work/output" 2>"$work/notes"
"$program" merge "$g" "$f" <"$work/nothing" >"$work/output" 2>"$work/notes"
"$program" arrange "$f" <"$work/nothing" >"$base"
sed 's/first/1st/' "$base" | "$program" revise "$f" "$base" >"$work/output" 2>"$work/notes"
sed 's/second/2nd/' "$base" | "$program" revise "$g" "$base" >"$work/output" 2>"$work/notes"
"$program" merge "$f" "$g" <"$work/nothing" >"$work/output" 2>"$work/notes"
"$program" merge "$g" "$f" <"$work/nothing" >"$work/output" 2>"$work/notes"
try 'both changes are there' nothing 0 '# A\n1st\n\n2nd\n' '' arrange "$f"
try 'for both' nothing 0 '# A\n1st\n\n2nd\n' '' arrange "$g"

# The script that opens an editor. Its drafts lie beside the file.
export TMPDIR=$work/scratch MANUSCRIPT=$program
mkdir "$TMPDIR"
draft=$work/.f.ms.draft
write_by() {
    VISUAL=$1 "$writes" "$f" <"$work/nothing" >"$work/output" 2>"$work/notes"
}
# The same, where an answer is given.
answered() {
    printf '%s' "$2" >"$work/answer"
    VISUAL=$1 "$writes" "$f" <"$work/answer" >"$work/output" 2>"$work/notes"
}
# What is left beside the file.
left() {
    echo $(cd "$work" && ls -d .f.ms.* 2>/dev/null)
}
forget() {
    rm -f "$work"/.f.ms.*
}
begin
write_by 'sed -i s/one/1/'
compare 'an editor changes a word' $? 0 '' 'made 6\n'
check 'nothing is left of it' [ -z "$(left)$(ls "$TMPDIR")" ]
try 'what it wrote is saved' nothing 0 '# A\n1 two\n# B\nthree\n' '' arrange "$f"
cp "$f" "$work/before"
write_by true
compare 'an editor that changes nothing' $? 0 '' 'manuscript-write: nothing was changed\n'
check 'leaves the file as it was' cmp -s "$f" "$work/before"
answered 'sed -i s/#/hello/' $'y\n'
check 'a draft that is refused' [ $? = 2 ]
check 'is kept' grep -q 'bad draft at line 1$' "$work/notes"
check 'beside the file' [ "$(left)" = '.f.ms.base .f.ms.draft .f.ms.number' -a "$(head -n 1 "$draft")" = 'hello A' ]
check 'and told' grep -qxF "manuscript-write: not saved. The draft is kept: $draft" "$work/notes"
check 'to save it as it is is no way on' [ "$(grep -c 'manuscript revise' "$work/notes")" = 0 ]
check 'it is not saved' cmp -s "$f" "$work/before"
answered 'sed -i s/hello/#/' ''
check 'it is offered at the next start' grep -q 'a draft of .* was not saved. Go on with it?' "$work/notes"
check 'and where it was mended to what it began with, nothing is left' [ -z "$(left)" ]
answered 'sed -i s/#/hello/' $'y\n'
answered 'sed -i s/1/one/' $'n\n'
check 'one that is not gone on with' [ $? = 0 ]
check 'is kept too' [ "$(left)" = '.f.ms.base.1 .f.ms.draft.1 .f.ms.number.1' -a "$(head -n 1 "$draft.1")" = 'hello A' ]
try 'and a new one was begun' nothing 0 '# A\none two\n# B\nthree\n' '' arrange "$f"
forget
begin
cat >"$work/slow" <<END
#!/bin/sh
# An editor that takes its time: the author changes the file meanwhile, the first time.
[ -e "$work/meanwhile" ] || { echo 'put 2 5  four' | "$program" edit "$f" 2>"$work/meanwhile"; sed -i s/two/2/ "\$1"; }
END
chmod +x "$work/slow"
write_by "$work/slow"
check 'a file that its author changed meanwhile is merged' [ $? = 0 ]
try 'and both changes are saved' nothing 0 '# A\none 2\n# B\nthree four\n' '' arrange "$f"
check 'nothing is left of that' [ -z "$(left)$(ls "$TMPDIR")" ]

write_by false
check 'an editor that fails' [ $? = 1 -a -z "$(left)" ]
write_by "sh -c 'sed -i s/2/two/ \"\$1\"; false' -"
check 'one that fails behind a change' [ $? = 1 -a "$(left)" = '.f.ms.base .f.ms.draft .f.ms.number' ]
write_by true
check 'the change is saved at the next start' [ "$(sed -n '$p' "$work/notes")" = 'made 6' -a -z "$(left)" ]

# A comment that the author makes meanwhile leaves the text as it is, and the editor is opened once.
begin
cat >"$work/comments" <<END
#!/bin/sh
echo >>"$work/opened"
"$program" comment "$f" 1 0 3 why 2>/dev/null && sed -i s/two/2/ "\$1"
END
chmod +x "$work/comments"
write_by "$work/comments"
compare 'a comment that was made meanwhile' $? 0 '' 'made 6\n'
check 'the editor was opened once' [ "$(wc -l <"$work/opened")" = 1 ]

# What another author's file brings meanwhile is kept, and nothing is asked or merged by lines.
begin
g=$work/g.ms
begin_other() {
    rm -f "$g"
    "$program" new "$g" 2 16 <"$work/nothing" && "$program" merge "$g" "$f" <"$work/nothing" 2>"$work/notes"
    echo 'put 1 7  five' | "$program" edit "$g" 2>"$work/notes"
}
begin_other
cat >"$work/brings" <<END
#!/bin/sh
"$program" merge "$f" "$g" 2>/dev/null && sed -i s/one/1/ "\$1"
END
printf '#!/bin/sh\nexit 9\n' >"$work/git"
chmod +x "$work/brings" "$work/git"
PATH=$work:$PATH write_by "$work/brings"
compare 'what came from another author meanwhile' $? 0 '' 'made 6\n'
try 'is kept beside what was written' nothing 0 '# A\n1 two five\n# B\nthree\n' '' arrange "$f"
check 'and nothing is left' [ -z "$(left)$(ls "$TMPDIR")" ]
rm "$work/git"
begin
begin_other
cp "$base" "$work/.f.ms.base"
echo 14 >"$work/.f.ms.number"
sed s/one/1/ "$base" >"$draft"
"$program" revise "$f" "$base" 14 <"$draft" 2>"$work/notes"
"$program" merge "$f" "$g" <"$work/nothing" 2>"$work/notes"
write_by true
check 'a draft that was saved before a machine failed, and others came, is asked about' [ $? = 2 ]
try 'and is not saved twice' nothing 0 '# A\n1 two five\n# B\nthree\n' '' arrange "$f"
forget

# What a machine that failed left: a draft that was saved, one with nothing changed, and one alone.
begin
cp "$base" "$work/.f.ms.base"
sed s/one/1/ "$base" >"$draft"
"$program" revise "$f" "$base" <"$draft" 2>"$work/notes"
write_by true
compare 'a draft that was saved is not offered' $? 0 '' 'manuscript-write: nothing was changed\n'
cp "$base" "$work/.f.ms.base"
cp "$base" "$draft"
ln -s 999999999 "$work/.f.ms.lock"
write_by true
compare 'nor is one with nothing changed' $? 0 '' 'manuscript-write: nothing was changed\n'
try 'and it takes nothing back' nothing 0 '# A\n1 two\n# B\nthree\n' '' arrange "$f"
echo typed >"$draft"
write_by true
check 'one without what it began with is put aside' [ $? = 0 -a "$(cat "$draft.1")" = typed ]
forget

# Two of them at once.
sleep 100 &
ln -s $! "$work/.f.ms.lock"
write_by 'sed -i s/two/2/'
check 'a file that is open in another one' [ $? = 4 ]
check 'is told' grep -q "is open in another manuscript-write, process $!" "$work/notes"
kill $!
forget

# Editors of other systems, and such as go their own ways.
begin
write_by "sed -i '1s/^/\xef\xbb\xbf/; s/one/1/; s/\$/\r/'"
compare 'an editor that writes a mark and carriage returns' $? 0 '' 'made 6\n'
try 'they are taken off' nothing 0 '# A\n1 two\n# B\nthree\n' '' arrange "$f"
printf 'put 2 5 \r\\nfour\n' | "$program" edit "$f" 2>"$work/notes"
write_by 'sed -i s/1/one/'
try 'those of the text stay' nothing 0 '# A\none two\n# B\nthree\r\nfour\n' '' arrange "$f"
write_by rm
check 'an editor that removes the draft' [ $? = 1 ]
check 'is told so' grep -q 'there is no draft any more: rm removed' "$work/notes"
forget
cat >"$work/replaces" <<'END'
#!/bin/sh
sed s/two/2/ "$1" >"$1.tmp" && mv "$1.tmp" "$1"
END
chmod +x "$work/replaces"
write_by "$work/replaces"
check 'one that replaces it' grep -qx 'made 6' "$work/notes"
if command -v script >/dev/null && script -qec true /dev/null </dev/null >/dev/null 2>&1; then
    cat >"$work/leaves" <<'END'
#!/bin/sh
{ sleep 1; sed -i s/three/3/ "$1"; } >/dev/null 2>&1 </dev/null &
END
    chmod +x "$work/leaves"
    { sleep 2; echo y; } | VISUAL=$work/leaves script -qec "'$writes' '$f'" /dev/null >"$work/output" 2>&1
    check 'one that returns at once is waited for' grep -q 'ended at once, with nothing changed' "$work/output"
    check 'and what it saves later is saved' bash -c "'$program' arrange '$f' <'$work/nothing' | grep -q '^3'"
else
    echo 'not tried: an editor that returns at once, since there is no terminal for it'
fi
odd=$work/"-a 'b' \$c"
cp "$f" "$odd"
(cd "$work" && VISUAL='sed -i s/A/Z/' "$writes" "${odd##*/}" <"$work/nothing" >"$work/output" 2>"$work/notes")
check 'an odd name' [ $? = 0 ]
check 'is that of the file' bash -c "'$program' arrange \"\$1\" <'$work/nothing' | grep -q '# Z'" - "$odd"
odd=$work/"Ann's \$book.ms"
cp "$f" "$odd"
printf '#!/bin/sh\necho more >>"$1"\nfalse\n' >"$work/fails"
chmod +x "$work/fails"
VISUAL=$work/fails "$writes" "$odd" <"$work/nothing" >"$work/output" 2>"$work/notes"
check 'a draft of an odd name that was not saved' [ $? = 1 ]
sed -n 's/.*or to save it as it is: manuscript//p' "$work/notes" >"$work/way_on"
check 'the way on can be pasted' sh -c "'$program' $(cat "$work/way_on") 2>'$work/notes'"
check 'and saves it' grep -q '^made ' "$work/notes"
rm -f "$work"/.Ann*
write_by "'none such'"
check 'an editor that is not there' [ $? = 1 -a -z "$(left)" ]

# A draft that looks as if it was cut short is asked about.
begin
cp "$f" "$work/before"
for cut in 'truncate -s 0' "sed -i '/B/,\$d'" 'truncate -s 10'; do
    forget
    answered "$cut" ''
    check "$cut: no answer" [ $? = 2 ]
    [[ $cut != sed* ]] || cp "$work/notes" "$work/named"
    forget
    answered "$cut" $'n\n'
    check "$cut: no" [ $? = 2 ]
    check "$cut: nothing is saved" cmp -s "$f" "$work/before"
done
check 'and the draft is kept' [ "$(left)" = '.f.ms.base .f.ms.draft .f.ms.number' ]
check 'the section that is gone was named' grep -qx '    # B' "$work/named"
forget
answered 'truncate -s -1' ''
check 'a line end that is gone is not asked about' grep -qx 'made 0' "$work/notes"
answered "sed -i '/B/,\$d'" $'y\n'
check 'yes' [ $? = 0 ]
try 'deletes it' nothing 0 '# A\none two\n' '' arrange "$f"

# Sections are known by their titles and texts.
words='one two three four five six seven eight nine ten'
asked() {
    forget
    rm -f "$f"
    "$program" new "$f" 1 16 <"$work/nothing"
    printf "# A\n$words\n# B\nhere is another text\n# B\nand a third one\n# C\n" >"$base"
    "$program" revise "$f" "$work/nothing" <"$base" 2>"$work/notes"
    answered "$1" ''
}
while IFS='|' read -r what editor gone; do
    asked "$editor"
    told=$(sed -n '/sections are gone:$/,/^manuscript-write: delete/s/^    # //p' "$work/notes" | tr '\n' ' ')
    check "$what: ${gone:-nothing} gone" [ "$told" = "${gone:+$gone }" ]
    [ -n "$gone" ] || check "$what: it is saved" grep -q '^made ' "$work/notes"
done <<'ROWS'
a title that was changed|sed -i s/A/Z/|
one that was changed with its text|sed -i -e s/A/Z/ -e s/two/2/|
one of an empty section|sed -i s/C/Z/|
two that were exchanged|sed -i 's/A/@/;s/C/A/;s/@/C/'|
one section in the place of another|sed -i -e s/A/Z/ -e '2s/.*/nothing of that/'|A
one of two with the same title|sed -i '3,4d'|B
one joined to that before it|sed -i '3d'|B
one gone, and another title changed|sed -i -e '1,2d' -e s/C/Z/|A
one with a byte 0 beside it|sed -i -e 's/ten/t\x00n/' -e '5,6d'|B
ROWS
rm -f "$f"
"$program" new "$f" 1 16 <"$work/nothing"
{ echo '# A'; for at in 1 2 3 4 5 6; do echo "$at $words"; done; } >"$base"
"$program" revise "$f" "$work/nothing" <"$base" 2>"$work/notes"
forget
answered "sed -i '4,\$d; s/1/one/'" ''
check 'most of a text that goes' [ $? = 2 ]
check 'is asked about, though its title stays' grep -q 'most of the text is gone: it has [0-9]* bytes' "$work/notes"
forget
answered "sed -i '5,\$d; s/1/one/'" ''
check 'less of it is not' grep -q '^made ' "$work/notes"

# What decides is looked at, and where it fails nothing is deleted.
begin
cp "$f" "$work/before"
mkdir "$work/broken"
for tool in awk wc grep; do
    forget
    printf '#!/bin/sh\nexit 9\n' >"$work/broken/$tool"
    chmod +x "$work/broken/$tool"
    PATH=$work/broken:$PATH answered "sed -i '/B/,\$d'" $'y\ny\n'
    check "a $tool that fails" [ $? = 4 ]
    check 'is told' grep -q 'it could not be found out what was deleted' "$work/notes"
    check 'nothing is deleted' cmp -s "$f" "$work/before"
    check 'and the draft is kept' [ "$(head -n 1 "$draft")" = '# A' ]
    rm "$work/broken/$tool"
done
forget
TMPDIR=$work/none answered "sed -i '/B/,\$d'" ''
check 'no folder for what need not be kept is needed' [ $? = 2 ]
check 'and it is asked all the same' grep -q 'these sections are gone' "$work/notes"

# Marks of contradicting changes, of which each is left alone.
for mark in '<<<<<<< draft' ======= '>>>>>>> the file'; do
    forget
    printf '#!/bin/sh\necho "%s" >>"$1"\n' "$mark" >"$work/marks"
    chmod +x "$work/marks"
    answered "$work/marks" ''
    check "the mark $mark is asked about" [ $? = 2 ]
    check 'and not offered to be saved' [ "$(grep -c 'manuscript revise' "$work/notes")" = 0 ]
    check 'nothing is saved' cmp -s "$f" "$work/before"
done
forget
answered "$work/marks" $'y\n'
check 'one that is text is saved' grep -q 'made [0-9]*$' "$work/notes"
answered 'sed -i s/one/1/' ''
check 'and not asked about again' grep -q '^made ' "$work/notes"

# Two users on one machine.
if command -v setpriv >/dev/null && [ $EUID = 0 ]; then
    write_as_other() {
        VISUAL='sed -i s/one/1/' setpriv --reuid 65534 --regid 65534 --clear-groups "$writes" "$f" <"$work/nothing" >"$work/output" 2>"$work/notes"
    }
    begin
    chmod 777 "$work"
    chmod 666 "$f"
    sleep 100 &
    ln -s $! "$work/.f.ms.lock"
    write_as_other
    check "a file that another user has open" [ $? = 4 ]
    check 'is told' grep -q "is open in another manuscript-write, process $!" "$work/notes"
    check 'the lock stays' [ -L "$work/.f.ms.lock" ]
    kill $!
    forget
    echo typed >"$draft"
    write_as_other
    check 'a draft of another user' [ $? = 4 -a "$(cat "$draft")" = typed ]
    check 'is told' grep -qx "manuscript-write: $draft is another user's, who has not saved it: nothing was opened" "$work/notes"
    forget
    write_as_other
    check 'with none the file is written' grep -q '^made ' "$work/notes"
    chmod 700 "$work"
else
    echo 'not tried: two users, since there is none but one'
fi

# What is interrupted is the editor, and one that goes on is waited for. Where this test runs in the background, the signal
# is ignored, and has to be put back first.
if command -v setsid >/dev/null && env --default-signal=INT true 2>/dev/null; then
    begin
    printf '#!/bin/sh\ntrap "" INT\nkill -INT 0\nsleep 0.2\nsed -i s/one/1/ "$1"\n' >"$work/goes_on"
    chmod +x "$work/goes_on"
    VISUAL=$work/goes_on env --default-signal=INT setsid --wait "$writes" "$f" <"$work/nothing" >"$work/output" 2>"$work/notes"
    compare 'an editor that goes on when it is interrupted' $? 0 '' 'made 6\n'
    printf '#!/bin/sh\nsed -i s/two/2/ "$1"\nkill -INT 0\nsleep 5\n' >"$work/ends"
    chmod +x "$work/ends"
    VISUAL=$work/ends env --default-signal=INT setsid --wait "$writes" "$f" <"$work/nothing" >"$work/output" 2>"$work/notes"
    check 'one that ends' [ $? = 1 ]
    check 'and its draft is kept' grep -q 'not saved. The draft is kept' "$work/notes"
    check 'and nothing else' [ "$(left)$(ls "$TMPDIR")" = '.f.ms.base .f.ms.draft .f.ms.number' ]
    forget
else
    echo 'not tried: an editor that is interrupted, since there is no setsid, or no env that puts a signal back'
fi

# A save that fails behind the last write may be there.
if build_c calls; then
    begin
    {
        echo '#!/bin/sh'
        echo '[ "$1" = revise ] || exec '"'$program'"' "$@"'
        echo "AT=\$(cat '$work/at') FAULT=EIO LD_PRELOAD='$work/calls.so' exec '$program' \"\$@\" 9>>'$work/calls'"
    } >"$work/failing"
    chmod +x "$work/failing"
    begin
    sed 's/one/1/' "$base" >"$work/draft"
    cp "$f" "$work/tried"
    AT=0 LD_PRELOAD=$work/calls.so "$program" revise "$work/tried" "$base" <"$work/draft" 2>/dev/null 9>"$work/calls"
    grep -n '^fsync' "$work/calls" | tail -n 1 | cut -d: -f1 >"$work/at"
    MANUSCRIPT=$work/failing write_by 'sed -i s/one/1/'
    check 'a sync that fails behind the last write' [ $? = 4 ]
    check 'is told to be one that may be saved' grep -q 'it may be saved: .* The draft is kept' "$work/notes"
    forget
fi

# Where the folder of the file is too small, nothing is deleted: twenty sizes, and each with room again while the editor is
# open.
room=$work/room
mkdir "$room"
if mount -t tmpfs -o size=64k none "$room" 2>/dev/null; then
    umount "$room"
    rm -f "$f"
    "$program" new "$f" 1 16 <"$work/nothing"
    { echo 'add 1 A'; echo "put 1 0 $(head -c 24000 /dev/zero | tr '\0' x)"; } | "$program" edit "$f" 2>"$work/notes"
    lost=0
    ended_well=0
    for ((pages = 20; pages <= 40; pages++)); do
        for editor in true "rm -f $room/filler"; do
            mount -t tmpfs -o size=400k none "$room"
            cp "$f" "$room/f.ms"
            head -c $(((100 - pages) * 4096)) /dev/zero >"$room/filler" 2>/dev/null
            VISUAL="$editor #" "$writes" "$room/f.ms" <"$work/nothing" >"$work/output" 2>"$work/notes" &&
                ended_well=$((ended_well + 1))
            cmp -s "$room/f.ms" "$f" || lost=$((lost + 1))
            umount "$room"
        done
    done
    check "no room for the draft: of 42 runs $ended_well went well, and $lost lost a part" \
        [ $lost = 0 -a $ended_well -gt 0 -a $ended_well -lt 42 ]
else
    echo 'not tried: a folder that is too small for a draft, since none can be mounted'
fi

command -v python3 >/dev/null && {
    tests/drafts.py "$program" "$work" "${DRAFTS:-200}" >"$work/told"
    check "$(cat "$work/told")" grep -q '^ok' "$work/told"
    # Everyday drafts beside a co-author: what they cost, and where the other's writing stands after the merge.
    tests/coauthors.py "$program" "$work" "${PAIRS:-100}" >"$work/told"
    while IFS= read -r line; do check "$line" [ "${line#ok}" != "$line" ]; done <"$work/told"
}

ended
