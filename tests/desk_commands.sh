#!/usr/bin/env bash
# Compares the program in WebAssembly with the native one, command by command: desk_commands.sh [PROGRAM]. `make desk`
# makes the program, dist/manuscript.wasm. Node stands in for a browser, and desk/system.js for the system, as in the
# page. Where there is no such program or no Node, it says so and ends with status 0. It takes some 20 minutes, so it is
# not in the gate.
#
# Not compared are relay and sync, since there are no sockets, and two cases of show.sh, in which a process has too
# little memory for itself. Memory that ends is tried here in another way.
cd "$(dirname "$0")/.." || exit 1
module=${1:-dist/manuscript.wasm}

not_tried() {
    echo "not tried, since there is no $1"
    exit 0
}

[ -f "$module" ] || not_tried "$module"
command -v node >/dev/null || not_tried 'node'
. tests/common.sh
module=$(realpath "$module")
here=$PWD
wasm=$work/bin/manuscript
mkdir "$work/bin" "$work/native" "$work/wasm"
cat >"$wasm" <<END
#!/bin/sh
# The program in WebAssembly as a process. Node does not see which streams are closed, so CLOSED lists them.
(exec 3<&0) 2>/dev/null || CLOSED=0
(exec 3>&1) 2>/dev/null || CLOSED="\$CLOSED 1"
(exec 3>&2) || CLOSED="\$CLOSED 2"
export CLOSED
exec node --experimental-wasm-memory64 --no-warnings '$here/desk/node.mjs' '$module' "\$@"
END
chmod +x "$wasm"
compared=0
differed=0

# Runs one of the two programs in its folder. Words of the form NAME=VALUE before it set variables for it.
run_in() {
    local kind=$1
    shift
    (cd "$work/$kind" && exec env "$@") <"$work/input" >"$work/$kind.output" 2>"$work/$kind.notes" 9>"$work/$kind.calls"
    echo $? >"$work/$kind.status"
}

# Whether both ended in the same way: status, output, diagnostics, files, and the calls of the system, where they are
# recorded.
is_same() {
    local part
    for part in status output notes calls; do
        cmp -s "$work/native.$part" "$work/wasm.$part" || return 1
    done
    diff -r "$work/native" "$work/wasm" >/dev/null
}

in_short() {
    echo "$(cat "$work/$1.status") $(head -c 99 "$work/$1.notes")"
}

judge() {
    compared=$((compared + 1))
    is_same && return
    differed=$((differed + 1))
    [ "$differed" -gt 9 ] || echo "    differs: $*: $(in_short wasm) and not $(in_short native)"
}

# Runs a command in both folders. The program in WebAssembly has its files as byte arrays, as in a page.
both() {
    run_in native "$program" "$@"
    run_in wasm ARRAYS=1 "$wasm" "$@"
    judge "$@"
}

# The same with this input, as printf writes it.
both_read() {
    printf "$1" >"$work/input"
    shift
    both "$@"
    : >"$work/input"
}

# Each command, done and refused. The input of each is what its line has before the bar.
: >"$work/input"
while IFS='|' read -r input words; do
    eval "both_read '$input' $words"
done <<'END'
|
|no
|show 0
|print
|new a.ms 1 100
|new a.ms 1 100
|new b.ms 2 1
|new c.ms 0 1
|new folder/c.ms 1 1
|new / 1 1
|print /
|print missing.ms
|edit missing.ms
\x23 a\nb\n|edit a.ms
add 1 The sea\nadd 2 The land\nput 1 0 It was \xc3\xa4 calm.\n|edit a.ms
put 2 0 Dry\\\\nand \xf0\x9f\x91\x8d\xf0\x9f\x8f\xbd wide\n|edit a.ms
put 9 0 x\n|edit a.ms
put 1 99 x\n|edit a.ms
put 1 0 \xff\n|edit a.ms
|edit a.ms
|print a.ms
|arrange a.ms
|list a.ms
|send a.ms
|merge b.ms a.ms
|merge b.ms a.ms
|merge b.ms b.ms
|merge b.ms missing.ms
|merge missing.ms a.ms
|retitle b.ms 1 "The quiet sea"
|retitle b.ms 7 T
|retitle b.ms 1 "$(printf %0480d 0)"
|retitle b.ms 1 "$(printf %0481d 0)"
|retitle b.ms 1 $'"'\xff'"'
|move b.ms 2 1
|move b.ms 2 1
|move b.ms 3 1
|comment b.ms 1 3 4 "why?"
|comment b.ms 2 0 2 "$(printf %01024d 0)"
|comment b.ms 2 0 2 "$(printf %01025d 0)"
|comment b.ms 9 0 2 x
|comments b.ms
|version b.ms first
|version b.ms ""
cut 1 0 3\n|edit b.ms
drop 2\n|edit b.ms
|comments b.ms
|versions b.ms
|view b.ms first
|view b.ms second
|arrange b.ms
|list b.ms
|why b.ms 1 0 1
|why b.ms 1 0 99
no certificate|check b.ms
claim 1.2 1.3\ndown 1.2 1.3\nprefix\n|check a.ms
|merge a.ms b.ms
|arrange a.ms
\\1\\0|show
\\9|show 7
\\1\\0|take a.ms
|show
|bulk 7 1000
|bulk 8 20000
|bulk 7 0
END

# Random drafts: what `arrange` prints is changed and saved by `revise`, and the other author takes it in.
: >"$work/draft"
for turn in {1..60}; do
    file=$([ $((turn % 2)) = 0 ] && echo a.ms || echo b.ms)
    other=$([ $file = a.ms ] && echo b.ms || echo a.ms)
    "$program" arrange "$work/native/$file" <"$work/input" >"$work/native/base"
    cp "$work/native/base" "$work/wasm/base"
    awk -v seed=$turn 'BEGIN { srand(seed) }
        NR > 1 && rand() < (/^# / ? 0.1 : 0.3) { next }
        { print }
        rand() < 0.25 { print "line " seed " " rand() " \303\244 \360\237\221\215" }
        rand() < 0.05 { print "# Section " seed }' "$work/native/base" >"$work/draft"
    cp "$work/draft" "$work/input"
    both revise $file base
    : >"$work/input"
    both merge $other $file
    both arrange $other
done
check "commands, done and refused, and drafts: $compared compared, $differed differed" [ $differed = 0 ]

# The streams of the samples, and their files.
begun=$compared
for frames in samples/two_authors.frames samples/oosterwick/all.frames samples/vectors/*.frames; do
    cp "$frames" "$work/input"
    both show
done
for kind in native wasm; do
    PATH=$([ $kind = native ] && dirname "$program" || dirname "$wasm"):$PATH \
        samples/oosterwick/make.sh "$work/$kind" >"$work/$kind.output" 2>"$work/$kind.notes"
    echo $? >"$work/$kind.status"
done
judge the sample of three authors
cp samples/version_1.ms "$work/native/old.ms"
cp samples/version_1.ms "$work/wasm/old.ms"
: >"$work/input"
for file in ann.ms ben.ms cleo.ms old.ms; do
    for command in print arrange list send comments versions; do both $command $file; done
    both merge a.ms $file
done
check "the samples: $((compared - begun)) compared" [ $differed = 0 ]

# Each call of the system that a command makes fails in each way, in both programs. Both have to make the same calls.

# The ways in which a call fails, or does less.
ways_of() {
    case $1 in
    getentropy*) echo EIO ;;
    open*) echo EACCES EMFILE EROFS ENOSPC EINTR ;;
    stat*) echo EACCES ENOENT EIO ;;
    flock*) echo EAGAIN ENOLCK EINTR ;;
    fsync*) echo EIO ENOSPC EINVAL EROFS EINTR ;;
    unlink*) echo EIO EINTR ;;
    pread* | 'read '*) echo EIO EINTR part ;;
    pwrite* | 'write '*) echo EIO ENOSPC EINTR none part full ;;
    esac
}

restore() {
    rm -rf "$work/native" "$work/wasm"
    cp -r "$work/case" "$work/native"
    cp -r "$work/case" "$work/wasm"
}

both_faulty() {
    local at=$1 fault=$2
    shift 2
    restore
    run_in native AT="$at" FAULT="$fault" LD_PRELOAD="$work/calls.so" "$program" "$@"
    run_in wasm AT="$at" FAULT="$fault" "$wasm" "$@"
    judge "call $at, $fault:" "$@"
}

try_calls() {
    local input=$1 number=0 call way
    shift
    printf "$input" >"$work/input"
    both_faulty 0 '' "$@"
    cp "$work/native.calls" "$work/base_calls"
    while IFS= read -r call; do
        number=$((number + 1))
        for way in $(ways_of "$call"); do both_faulty $number $way "$@"; done
    done <"$work/base_calls"
}

begun=$compared
if build_c calls; then
    rm -rf "$work/case"
    mkdir "$work/case"
    "$program" new "$work/case/home" 1 16 <"$work/input"
    printf 'add 1 T\nadd 2 U\nput 1 0 ABCD\n' | "$program" edit "$work/case/home" 2>"$work/notes"
    "$program" new "$work/case/other" 2 16 <"$work/input"
    printf 'add 1 V\nput 1 0 EF\n' | "$program" edit "$work/case/other" 2>"$work/notes"
    "$program" arrange "$work/case/home" <"$work/input" >"$work/case/base"
    try_calls '' edit
    try_calls "$section$b" show
    try_calls '' new fresh 1 16
    try_calls 'put 1 1 x\ncut 1 0 1\n' edit home
    try_calls '' print home
    try_calls "$section$b" take home
    try_calls '' send home
    try_calls '' merge home other
    try_calls '' move home 2 1
    try_calls '# U\n\n# T\nABxCD\n' revise home base
    try_calls '' comment home 1 0 1 x
    try_calls '' view home none
    try_calls '' bulk 7 4
    check "calls of the system that fail: $((compared - begun)) compared" [ $differed = 0 ]
fi

# Where memory ends, the program says so and prints nothing. Where it does not, the program ends as the native one does.
begun=$compared
put_long long 5000
: >"$work/input"
ends=0
for ((bytes = 1100000; bytes < 8000000; bytes += 300000)); do
    restore
    cp "$work/long" "$work/input"
    run_in native "$program" show
    run_in wasm MEMORY=$bytes "$wasm" show
    if [ "$(cat "$work/wasm.status")" = 5 ]; then
        ends=$((ends + 1))
        printf 5 >"$work/native.status"
        printf 5 >"$work/wasm.status"
        : >"$work/native.output"
        echo 'no memory' >"$work/native.notes"
    fi
    judge "show with $bytes bytes of memory"
done
check "memory that ends: $((compared - begun)) compared, $ends of them without enough" [ $ends -gt 0 -a $differed = 0 ]

# The room for the files of a page can end too, and a file can be in use.
restore
printf 'put 1 0 %0500d\n' 0 >"$work/input"
run_in wasm ARRAYS=1 ROOM=700 "$wasm" edit home
compare_wasm() {
    cp "$work/wasm.output" "$work/output"
    cp "$work/wasm.notes" "$work/notes"
    compare "$1" "$(cat "$work/wasm.status")" "$2" "$3" "$4"
}
compare_wasm 'a store that is full' 4 '' 'outside fault\n'
: >"$work/input"
run_in wasm ARRAYS=1 "$wasm" arrange home
compare_wasm 'what was saved before stands' 0 '# T\nABCD\n# U\n\n' ''
run_in wasm ARRAYS=1 ROOM=10 "$wasm" new fresh 3 16
check 'a file that could not be made is not left behind' [ ! -e "$work/wasm/fresh" ]
run_in wasm ARRAYS=1 IN_USE=home "$wasm" move home 2 1
compare_wasm 'a file that is in use' 4 '' 'outside fault\n'
because 'manuscript: home: in use by another program'
run_in wasm ARRAYS=1 "$wasm" relay 47119 1
compare_wasm 'a relay, where there are no sockets' 4 '' 'outside fault\n'
because 'manuscript: 47119: Address family not supported by protocol (os error 97)'
run_in wasm ARRAYS=1 "$wasm" sync home 47119 0
compare_wasm 'an exchange, where there are no sockets' 4 '' 'outside fault\n'
because 'manuscript: 47119: Address family not supported by protocol (os error 97)'

# The heap alone, compiled by the toolchain's clang.
clang=$(dirname "$(realpath "$(command -v "${RT:-rt}" || echo /)")")/../toolchain/bin/clang
if [ -x "$clang" ]; then
    ln -s "$(realpath "$clang")" "$work/wasm-ld"
    "$clang" --target=wasm64-unknown-unknown -mcpu=lime1 -O3 --no-default-config -ffreestanding -fno-builtin \
        -c desk/heap.c -o "$work/heap.o" &&
        "$work/wasm-ld" -mwasm64 --no-entry --export-all -o "$work/heap.wasm" "$work/heap.o" &&
        node --experimental-wasm-memory64 --no-warnings tests/desk/heap.mjs "$work/heap.wasm" 10000 >"$work/told"
    check "the heap alone: $(cat "$work/told")" [ -s "$work/told" ]
else
    echo 'not tried: the heap alone, since there is no toolchain'
fi

# The tests of the native program, which know each output to the byte. The words after a script's name are its tests
# that cannot pass here.
run_script() {
    local name=$1 seen=$work/$1.log others
    shift
    TRIED_PROGRAM=$wasm bash "tests/$name" >"$seen" 2>/dev/null
    grep '^FAILED: ' "$seen" >"$work/failures"
    others=$work/failures
    for known in "$@"; do
        grep -vF "FAILED: $known:" "$others" >"$others.next"
        mv "$others.next" "$others"
    done
    cat "$others"
    sed -n 's/^not tried/    not tried/p' "$seen"
    check "$name: $(grep -c '^ok: ' "$seen") as wanted; cannot be seen here: $#" [ ! -s "$others" ]
    [ -n "$(tail -n 1 "$seen" | grep ' tried, ')" ] || check "$name came to its end" false
}

# Fewer random cases than the native program is tried with, since each command starts a process of Node.
export DRAFTS=${DRAFTS:-20} STREAMS=${STREAMS:-20} HISTORIES=${HISTORIES:-2}
run_script show.sh 'too little memory for the operations' 'too little memory for the words'
run_script files.sh
run_script drafts.sh
run_script samples.sh

echo "$compared commands were compared with the native program, and $differed differed"
ended
