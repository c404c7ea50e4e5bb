#!/usr/bin/env bash
# What `make demo` shows: two authors, each with a file, who write apart and at the same place, exchange what they wrote
# by a stream, by a relay and over a crash, and read the same. It works in a folder of its own, which it removes.
set -eu
cd "$(dirname "$0")/.."
here=$PWD
[ -x bin/manuscript ] || { echo "bin/manuscript is not there: make bin/manuscript" >&2; exit 1; }
PATH=$here/bin:$here/examples:$PATH
folder=$(mktemp -d)
trap 'cd /; kill $(jobs -p) 2>/dev/null || true; rm -rf "$folder"' EXIT
cd "$folder"

# A paragraph of the story.
tell() {
    printf '\n%s\n\n' "$*" | fold -s -w 100
}

# A line as one would type it, and what comes of it.
run() {
    printf '    $ %s\n' "$*"
    bash -c "$*" 2>&1 | sed 's/^/    /'
    return "${PIPESTATUS[0]}"
}

# Shows the copies of both, and ends the demo where they differ.
both_read() {
    run 'manuscript arrange ann.ms'
    run 'manuscript arrange ben.ms | cmp - <(manuscript arrange ann.ms) && echo the same bytes'
}

tell 'Ann begins a chapter, and sends it to Ben. A file holds the copy of one author: hers has the number 1, his the number 2.'
run 'manuscript new ann.ms 1 1000'
run "printf 'add 1 The sea\nput 1 0 It was calm.\n' | manuscript edit ann.ms"
run 'manuscript new ben.ms 2 1000'
run 'manuscript send ann.ms > chapter.frames'
run 'manuscript take ben.ms < chapter.frames'

tell 'Both go on without a network, and at the same place: behind the last full stop. Ben changes a word, too.'
run "printf 'put 1 12  Then it blew.\n' | manuscript edit ann.ms"
run "printf 'put 1 12  Nobody minded.\ncut 1 7 4\nput 1 7 quiet\n' | manuscript edit ben.ms"

tell 'Each takes in the frames of the other. What both have already counts as repeated. No sentence is torn: the one of the smaller number stands first.'
run 'manuscript send ann.ms | manuscript take ben.ms'
run 'manuscript send ben.ms | manuscript take ann.ms'
both_read

tell 'Now by a relay, which hands on what it hears. It serves three sessions: Ann tells what she has, Ben tells and hears, and Ann hears what Ben told.'
run "printf 'add 2 The land\nput 2 0 Hills, mostly.\n' | manuscript edit ann.ms"
run "printf 'put 1 0 Listen. \n' | manuscript edit ben.ms"
port=$((20000 + RANDOM % 20000))
printf '    $ manuscript relay %s 3 &\n' "$port"
manuscript relay "$port" 3 >ready 2>log &
relay=$!
for ((waited = 0; waited < 100; waited++)); do [ -s ready ] && break; sleep 0.1; done
sed 's/^/    /' ready
run "manuscript sync ann.ms $port 0"
run "manuscript sync ben.ms $port 0"
run "manuscript sync ann.ms $port 0"
wait "$relay"
sed 's/^/    /' log
both_read

tell 'Ann moves the land in front of the sea, and Ben, who has not heard of it, does so too and gives it another title. One of the moves wins, and the section stands there once.'
run 'manuscript move ann.ms 2 1'
run 'manuscript move ben.ms 2 1'
run "manuscript retitle ben.ms 1 'The hills'"
run 'manuscript merge ann.ms ben.ms'
run 'manuscript merge ben.ms ann.ms'
both_read

tell "Ann's machine breaks down in the midst of an edit of 300 lines. Twenty times: each time a moment later, and each time with kill -9. Her file has to hold all of the edit, or nothing of it, and it has to be readable."
for ((line = 1; line <= 300; line++)); do echo "put 2 0 $line "; done >long.script
cp ann.ms before.ms
cp ann.ms after.ms
start=${EPOCHREALTIME/./}
manuscript edit after.ms <long.script 2>/dev/null
long=$((${EPOCHREALTIME/./} - start))
manuscript print before.ms >before.text
manuscript print after.ms >after.text
nothing=0
all=0
for ((times = 1; times <= 20; times++)); do
    cp before.ms ann.ms
    manuscript edit ann.ms <long.script >/dev/null 2>&1 &
    edit=$!
    printf -v moment '%d.%06d' $((long * times / 16 / 1000000)) $((long * times / 16 % 1000000))
    sleep "$moment"
    kill -9 "$edit" 2>/dev/null || true
    wait "$edit" 2>/dev/null || true
    manuscript print ann.ms >now.text
    if cmp -s now.text before.text; then
        nothing=$((nothing + 1))
    elif cmp -s now.text after.text; then
        all=$((all + 1))
    else
        echo "    a torn file" >&2
        exit 1
    fi
done
printf '    %s times nothing of it was there, %s times all of it, and never a part.\n' "$nothing" "$all"

tell 'She goes on as if nothing had happened: the edit is made again where it was lost, and cut once more, and Ben takes in what she has.'
cp before.ms ann.ms
run 'manuscript edit ann.ms < long.script'
run "printf 'cut 2 0 1092\nput 2 14  And mud.\n' | manuscript edit ann.ms"
run 'manuscript merge ben.ms ann.ms'
both_read

if command -v python3 >/dev/null; then
    tell 'A second program, of some thousand lines of Python, was written from docs/FORMATS.md alone. It reads the same in the same files, and counts the same; the reasons that manuscript gives besides are left out.'
    run 'reader.py arrange ann.ms | cmp - <(manuscript arrange ann.ms) && echo the same bytes'
    run 'manuscript send ben.ms > ben.frames'
    ln -s "$here/samples" samples
    for frames in ben.frames samples/*.frames samples/*/*.frames; do
        run "reader.py show $frames 2>&1 | cmp - <(manuscript show < $frames 2>&1 | grep -v ^manuscript:) && echo the same bytes"
    done
fi
