#!/usr/bin/env bash
# Tests the script examples/manuscript-exchange: authors who share a folder, files in it that are refused, a folder that
# is full, and a machine that fails at each step.
. "$(dirname "$0")/common.sh"

exchanges=$PWD/examples/manuscript-exchange
export TMPDIR=$work/scratch MANUSCRIPT=$program
mkdir "$TMPDIR"
put nothing
cd "$work"
share=stick

# A folder of files: one for each author, who wrote a section of an id's own.
begin() {
    local id
    rm -rf "$share" ./*.ms
    mkdir "$share"
    for id in "$@"; do
        "$program" new "file$id.ms" "$id" 100 <nothing
        printf 'add 1 S%s\nput 1 0 Words of %s.\n' "$id" "$id" | "$program" edit "file$id.ms" 2>notes
    done
}

exchange() {
    "$exchanges" "$@" <nothing >output 2>notes
}

# What was said, without the name in front.
said() {
    sed 's/^manuscript-exchange: //' notes
}

shown() {
    "$program" arrange "$1" <nothing
}

# Three authors, each of whom does it twice.
begin 1 2 3
for round in 1 2; do
    for id in 1 2 3; do
        exchange "file$id.ms" "$share"
        check "round $round, author $id" [ $? = 0 ]
        [ $round$id = 11 ] && check 'the first finds nothing, and says nothing' [ ! -s output -a ! -s notes ]
        [ $round$id = 13 ] && check 'what each file gave is told, in the order of their names' cmp -s notes - <<'SAID'
manuscript-exchange: 1.ms: accepted 12, repeated 0, waiting 0, conflict 0, stray 0, full 0
manuscript-exchange: 2.ms: accepted 12, repeated 12, waiting 0, conflict 0, stray 0, full 0
manuscript-exchange: to see again what came: manuscript changes 'file3.ms' 12
SAID
        [ $round$id = 13 ] && check 'and what came is shown' cmp -s <(sort output) <(printf '%s\n' '# {++S1++}{>>1<<}' '# {++S2++}{>>2<<}' '{++Words of 1.++}{>>1<<}' '{++Words of 2.++}{>>2<<}' | sort)
    done
done
for id in 2 3; do
    check "author $id reads what author 1 reads" cmp -s <(shown file1.ms) <(shown "file$id.ms")
done
check 'it is what all three wrote' [ "$(shown file1.ms | sort | tr '\n' ' ')" = '# S1 # S2 # S3 Words of 1. Words of 2. Words of 3. ' ]
check 'the folder has one copy of each' [ "$(ls -A "$share" | tr '\n' ' ')" = '1.ms 2.ms 3.ms ' ]
for id in 1 2 3; do check "that of author $id is the file" cmp -s "$share/$id.ms" "file$id.ms"; done
check 'and others may read it as any new file' [ "$(stat -c %a "$share/1.ms")" = "$(stat -c %a nothing)" ]
touch -d '2 days ago' "$share/1.ms"
exchange file1.ms "$share"
check 'a copy that has all stays as it is' [ "$(find "$share" -name 1.ms -mtime +0)" ]

# What else lies in the folder stays as it is, and a file that is refused is told and does not end it.
begin 1 2 3
exchange file3.ms "$share"
exchange file2.ms "$share"
printf 'x' | dd of="$share/2.ms" bs=1 seek=18 conv=notrunc 2>/dev/null
echo 'no manuscript' >"$share/text.ms"
mkdir "$share/folder.ms"
ln -s nowhere "$share/link.ms"
printf 'a\033[2Jb' >"$share/"$'odd \033[2J\n name.ms'
echo kept >"$share/notes.txt"
echo kept >"$share/.1.ms.kept"
echo kept >"$share/.1.ms.abcdef"
tar -cf before.tar -C "$share" .
exchange file1.ms "$share"
check 'a damaged file: the status is that of the first refusal' [ $? = 6 ]
check 'it is named' grep -qx 'manuscript-exchange: 2.ms is refused: bad batch 0' notes
check 'and its author can mend it' grep -qx 'manuscript-exchange: if 2.ms is another .* that author exchanges again' notes
check 'the next one is taken in' grep -q '^manuscript-exchange: 3.ms: accepted 12, ' notes
check 'a file that is no manuscript' grep -qx 'manuscript-exchange: text.ms is refused: not a replica' notes
check 'a folder' grep -qx 'manuscript-exchange: folder.ms is refused: outside fault' notes
check 'a link that leads nowhere' grep -qx 'manuscript-exchange: link.ms is refused: outside fault' notes
check 'a name with marks that a terminal obeys' grep -qx 'manuscript-exchange: odd ?\[2J? name.ms is refused: not a replica' notes
check 'the own copy is put all the same' cmp -s "$share/1.ms" file1.ms
rm "$share/1.ms"
tar -cf after.tar --mtime=@0 -C "$share" . && mkdir untouched && tar -xf before.tar -C untouched
check 'nothing else is touched' diff -r --no-dereference untouched "$share"
rm -r untouched
touch -d '2 days ago' "$share/.1.ms.abcdef" "$share/.1.ms.kept"
exchange file1.ms "$share"
check 'what a killed run left two days ago is removed' [ ! -e "$share/.1.ms.abcdef" -a -e "$share/.1.ms.kept" ]

# What waits, and what has no room to wait, is told by the status.
begin 1 2
"$program" send file2.ms <nothing | tail -c +16 >late
"$program" new late.ms 7 100 <nothing
"$program" take late.ms <late 2>notes
cp late.ms "$share"
exchange file1.ms "$share"
check 'operations that wait' [ $? = 3 ]
check 'are told' grep -q '^manuscript-exchange: late.ms: accepted 0, repeated 0, waiting 1' notes
"$program" new narrow.ms 9 1 <nothing
exchange narrow.ms "$share"
check 'operations that have no room to wait' [ $? = 3 ]
check 'the reason stands on a line of its own' grep -q '^manuscript: narrow.ms: no more operations may wait' notes
check 'and the counts beside the name' grep -qx 'manuscript-exchange: late.ms: accepted 0, .* full [1-9][0-9]*' notes
rm narrow.ms

# One id in two files.
begin 1 2
cp file1.ms twin.ms
exchange file1.ms "$share"
echo 'put 1 0 Mine. ' | "$program" edit file1.ms 2>notes
cp file1.ms "$share/of_before.ms"
exchange file1.ms "$share"
check 'an older copy of the own file under another name' [ $? = 0 ]
check 'is no cause for a warning' [ "$(said)" = 'of_before.ms: accepted 0, repeated 18, waiting 0, conflict 0, stray 0, full 0' ]
cp file1.ms longer.ms
echo 'put 1 0 More. ' | "$program" edit longer.ms 2>notes
cp longer.ms "$share/of_before.ms"
exchange file1.ms "$share"
check 'a file of the own id that goes on from the own file' [ $? = 0 ]
check 'is warned of' grep -q 'of_before.ms has the replica id 1 as file1.ms has' notes
rm "$share/of_before.ms" longer.ms
# What a folder that is synchronised makes of a copy that was written in on two machines. Its deletions would take words of
# the own file away.
printf 'put 1 0 Yours. \ncut 1 0 7\n' | "$program" edit twin.ms 2>notes
cp twin.ms "$share/1-LAPTOP.ms"
cp file1.ms before.ms
"$program" merge before.ms twin.ms <nothing 2>notes
check 'a file of the own id with other operations takes words away' [ "$(shown before.ms)" != "$(shown file1.ms)" ]
cp file1.ms before.ms
cp file2.ms "$share/2.ms"
exchange file1.ms "$share"
check 'a file of the own id with other operations' [ $? = 6 ]
check 'is refused' grep -q '1-LAPTOP.ms is refused: it has the replica id 1 as file1.ms has, and other operations' notes
check 'what it has is told how to print' grep -q "manuscript arrange 'stick/1-LAPTOP.ms'$" notes
check 'the others are taken in' grep -q '2.ms: accepted 12, ' notes
"$program" merge before.ms file2.ms <nothing 2>notes
check 'the own file loses nothing' [ "$(shown before.ms)" = "$(shown file1.ms)" ]
if mount -t tmpfs -o size=16k none "$TMPDIR" 2>/dev/null; then
    cp twin.ms "$share/1-LAPTOP.ms"
    cp file1.ms before.ms
    head -c 16384 /dev/zero >"$TMPDIR/filler" 2>/dev/null
    exchange file1.ms "$share"
    check 'one that cannot be tried, since there is no room' [ $? = 4 ]
    check 'is refused' grep -q '1-LAPTOP.ms is refused: .* could not be tried on a copy of that' notes
    check 'and takes nothing away' cmp -s file1.ms before.ms
    umount "$TMPDIR"
fi
rm "$share/1-LAPTOP.ms" "$share/2.ms"
echo 'put 1 0 Yours. ' | "$program" edit twin.ms 2>notes
cp "$share/1.ms" before
exchange twin.ms "$share"
check 'another author with the same id does not replace the copy' [ $? = 6 ]
check 'and is told so' grep -q "$share/1.ms stays: it has what twin.ms has not" notes
check 'it stays' cmp -s "$share/1.ms" before
check 'as two files of one id' grep -q 'under the same numbers: two files with the replica id 1 were written in' notes
echo 'no manuscript' >"$share/1.ms"
exchange file1.ms "$share"
check 'a file of another kind with the name of the copy stays' [ $? = 6 -a "$(cat "$share/1.ms")" = 'no manuscript' ]
check 'and is told' [ "$(said)" = "$share/1.ms stays: it is no file of a manuscript. Move it away, and exchange again" ]
: >"$share/1.ms"
exchange file1.ms "$share"
check 'an empty one' [ $? = 6 -a "$(said)" = "$share/1.ms stays: it is empty. Remove it, and exchange again" ]
{ head -c 18 file1.ms; printf x; tail -c +20 file1.ms; } >"$share/1.ms"
exchange file1.ms "$share"
check 'a damaged one' [ $? = 6 -a "$(said)" = "$share/1.ms stays: it is damaged. Move it away, and exchange again" ]
rm "$share/1.ms"
mkdir "$share/1.ms"
exchange file1.ms "$share"
check 'a folder with the name of the copy too' [ $? = 6 -a -z "$(ls -A "$share/1.ms")" ]
check 'and is told' [ "$(said)" = "$share/1.ms stays: it is a folder. Move it away, and exchange again" ]
rmdir "$share/1.ms"
ln -s nowhere "$share/1.ms"
exchange file1.ms "$share"
check 'a link' [ $? = 6 -a "$(said)" = "$share/1.ms stays: it is a link. Move it away, and exchange again" ]
rm "$share/1.ms"
# A file that was restored from a backup.
cp file1.ms backup.ms
echo 'put 1 0 Since. ' | "$program" edit file1.ms 2>notes
cp file1.ms "$share/1.ms"
exchange backup.ms "$share"
check 'a backup' [ $? = 6 ]
check 'is to take in the copy before it is written in' grep -q "write nothing before you take that in: manuscript merge 'backup.ms' '$share/1.ms'" notes
rm backup.ms
# A copy that was made while a save was cut off: it has bytes behind its end that the file has written over.
{ cat file1.ms; printf 'torn'; } >"$share/1.ms"
echo 'put 1 0 More. ' | "$program" edit file1.ms 2>notes
exchange file1.ms "$share"
check 'a copy with the rest of a save that was cut off is replaced' cmp -s "$share/1.ms" file1.ms

# The file lies in the folder itself.
begin 1 2
exchange file2.ms "$share"
cp file1.ms "$share/1.ms"
exchange "$share/1.ms" "$share"
check 'a file that is its own copy' [ $? = 0 ]
check 'takes in the others' grep -q '^manuscript-exchange: 2.ms: accepted 12' notes
mv "$share/1.ms" "$share/book.ms"
exchange "$share/book.ms" "$share"
check 'a file in the folder under another name' [ $? = 0 ]
check 'is not taken into itself' [ "$(said | grep -c .)" = 1 ]
check 'and has a copy beside it' cmp -s "$share/book.ms" "$share/1.ms"

# Odd names.
begin 1
mv file1.ms ./-f\ \'x\$.ms
mkdir -- '-a folder'
for at in 1 2; do exchange "-f 'x\$.ms" '-a folder'; done
check 'names with blanks, quotes and a dash' cmp -s ./-f\ \'x\$.ms './-a folder/1.ms'

# What the words name is not there.
begin 1
exchange file1.ms
check 'one word' [ $? = 1 -a "$(cat notes)" = 'usage: manuscript-exchange FILE FOLDER' ]
exchange file1.ms nowhere
compare 'no such folder' $? 4 '' 'manuscript-exchange: nowhere: no such folder\n'
exchange none.ms "$share"
check 'no such file' [ $? = 4 ]
check 'is told' grep -q 'none.ms: no such file' notes
exchange nothing "$share"
check 'a file that is no manuscript' [ $? = 6 ]
MANUSCRIPT=$work/none exchange file1.ms "$share"
check 'no program' [ $? = 4 ]
check 'they put nothing' [ -z "$(ls -A "$share")" ]

# The file or the folder is taken away in the midst of it, or may not be read or written.
for gone in file1.ms "$share"; do
    begin 1 2
    exchange file2.ms "$share"
    printf '#!/bin/sh\n[ "$1" != merge ] || rm -rf "%s"\nexec "%s" "$@"\n' "$work/$gone" "$program" >takes_away
    chmod +x takes_away
    MANUSCRIPT=$work/takes_away exchange file1.ms "$share"
    check "$gone is taken away meanwhile" [ $? = 4 ]
    check 'it is told so' [ "$(sed -n '$p' notes)" = "manuscript-exchange: $gone is gone: nothing more was taken in, and no copy was put" ]
done
if command -v setpriv >/dev/null && [ $EUID = 0 ]; then
    # As another user, for whom the modes count.
    exchange_as_other() {
        setpriv --reuid 65534 --regid 65534 --clear-groups "$exchanges" "$@" <nothing >output 2>notes
    }
    begin 1 2
    chmod 777 "$work" "$share" "$TMPDIR"
    exchange_as_other file1.ms "$share"
    check 'a file that may not be written' [ $? = 4 ]
    check 'is told' [ "$(said)" = 'file1.ms may not be written, so nothing can be taken in (chmod u+w makes it so)' ]
    chmod 666 file1.ms
    chmod 333 "$share"
    exchange_as_other file1.ms "$share"
    check 'a folder that may not be listed' [ $? = 4 ]
    check 'is told' grep -q "$share can't be listed: may you read it?" notes
    chmod 555 "$share"
    exchange_as_other file1.ms "$share"
    check 'a folder that may not be written' [ $? = 4 ]
    chmod 755 "$work" "$share"
else
    echo 'not tried: what another user may not do, since there is none'
fi

# What a killed run left.
begin 1
mkdir "$TMPDIR/manuscript-exchange.aaaaaa" "$TMPDIR/manuscript-exchange.bbbbbb"
touch -d '2 days ago' "$TMPDIR/manuscript-exchange.aaaaaa"
exchange file1.ms "$share"
check 'a folder of two days ago is removed, and no later one' [ "$(ls "$TMPDIR")" = manuscript-exchange.bbbbbb ]
rmdir "$TMPDIR/manuscript-exchange.bbbbbb"

# A folder that fills up has the old copy, or the new one.
room=$work/room
mkdir "$room"
if mount -t tmpfs -o size=256k none "$room" 2>/dev/null; then
    begin 1 2
    exchange file1.ms "$room"
    cp file1.ms before
    cp file2.ms "$room/2.ms"
    echo "put 1 0 $(head -c 30000 /dev/zero | tr '\0' x)" | "$program" edit file1.ms 2>notes
    head -c 200000 /dev/zero >"$room/filler"
    exchange file1.ms "$room"
    check 'a folder that is full' [ $? = 4 ]
    check 'is told' grep -q "no copy could be put into $room: is there room" notes
    check 'has the old copy' cmp -s "$room/1.ms" before
    check 'and nothing beside it' [ "$(ls -A "$room" | tr '\n' ' ')" = '1.ms 2.ms filler ' ]
    check 'what the others put there is taken in' grep -q '^manuscript-exchange: 2.ms: accepted 12' notes
    rm "$room/filler"
    exchange file1.ms "$room"
    check 'with room again it is put' cmp -s "$room/1.ms" file1.ms
    umount "$room"
else
    echo 'not tried: a folder that fills up, since none can be mounted'
fi

# A machine that fails: the script is killed before and behind each call of a program. The copy is the old or the new one,
# the file loses nothing, and the next run ends well.
mkdir steps
for tool in cat chmod cksum cmp find grep head manuscript mktemp mv rm sed sync tr wc; do
    [ "$tool" = manuscript ] && path=$program || path=$(command -v "$tool")
    cat >"steps/$tool" <<STEP
#!/usr/bin/env bash
# Counts the calls, and kills the script before the one of this number, or behind it.
printf x >>"$work/calls"
made=\$(<"$work/calls")
[ \${#made} != "\$KILL_BEFORE" ] || { kill -9 "\$(<"$work/killed")"; exit; }
"$path" "\$@"
status=\$?
[ \${#made} != "\$KILL_BEHIND" ] || kill -9 "\$(<"$work/killed")"
exit \$status
STEP
    chmod +x "steps/$tool"
done

# Runs the script where the call of one number kills it.
run_steps() {
    : >calls
    KILL_BEFORE=$1 KILL_BEHIND=$2 PATH=$work/steps:$PATH MANUSCRIPT=manuscript \
        sh -c 'echo $$ >killed; exec "$0" "$@"' "$exchanges" file1.ms "$share" <nothing >output 2>notes
}

# The files of the author, the folder and the copy as they were before.
begin 1 2
exchange file1.ms "$share"
exchange file2.ms "$share"
echo 'put 1 0 Later. ' | "$program" edit file1.ms 2>notes
rm -rf first
mkdir first
cp -r file1.ms "$share" first
again() {
    rm -rf "$share" file1.ms
    cp -r first/* .
}
run_steps 0 0
check 'all steps, none of which fails' [ $? = 0 ]
steps=$(wc -c <calls)
shown file1.ms >wanted
cp file1.ms saved
check "there are $steps of them" [ "$steps" -gt 12 ]
odd=0
killed=0
for ((step = 1; step <= steps; step++)); do
    for side in before behind; do
        again
        { if [ $side = before ]; then run_steps $step 0; else run_steps 0 $step; fi; } 2>/dev/null
        [ $? != 137 ] || killed=$((killed + 1))
        cmp -s "$share/1.ms" first/$share/1.ms || cmp -s "$share/1.ms" saved || odd=$((odd + 1))
        cmp -s "$share/2.ms" first/$share/2.ms || odd=$((odd + 1))
        exchange file1.ms "$share" || odd=$((odd + 1))
        cmp -s <(shown file1.ms) wanted && cmp -s "$share/1.ms" file1.ms || odd=$((odd + 1))
    done
done
check "killed $killed times, before and behind each step: $odd odd" [ $odd = 0 -a $killed -ge $steps ]

ended
