#!/usr/bin/env bash
# Runs each command on a small and on a large input, and counts the blocks of memory that it takes and gives back: at
# its end it must have as many with the one as with the other, so the nodes of its manuscripts are all freed. No part of
# the gate: it wants a C compiler, for tests/frees.c, and a program that takes its memory from the C library.
#
#     tests/frees.sh
. "$(dirname "$0")/common.sh"

shim=$work/frees.so
"${CC:-cc}" -O1 -shared -fPIC -o "$shim" tests/frees.c -ldl || exit 1

# Makes inputs of a size: a script with so many passages, each put before all others and so a node of its own; a file
# with a section alone, and one with the passages too; its frames; another author's new file, and one with both authors'
# passages.
make_inputs() {
    local size=$1 passages=$2 line
    { for ((line = 1; line <= passages; line++)); do echo "put 1 0 ab$line"; done; } >"$work/$size.script"
    "$program" new "$work/$size.ann" 1 16 </dev/null
    echo 'add 1 T' | "$program" edit "$work/$size.ann" 2>/dev/null
    cp "$work/$size.ann" "$work/$size.empty"
    "$program" edit "$work/$size.ann" <"$work/$size.script" 2>/dev/null
    "$program" send "$work/$size.ann" </dev/null >"$work/$size.frames"
    "$program" new "$work/$size.ben" 2 16 </dev/null
    cp "$work/$size.ben" "$work/$size.new"
    "$program" take "$work/$size.ben" <"$work/$size.frames" 2>/dev/null
    "$program" edit "$work/$size.ben" <"$work/$size.script" 2>/dev/null
}

# Runs the program with its blocks counted: how many it took, and how many it has at its end, are in `taken` and `held`.
# The home file is one of its own.
count_blocks() {
    local home=$1 input=$2 status
    shift 2
    cp "$home" "$work/home"
    : >"$work/counts"
    timeout 60 env LD_PRELOAD="$shim" "$program" "$@" <"$input" >/dev/null 2>"$work/notes" 9>"$work/counts"
    status=$?
    read -r taken held <"$work/counts" && [ "$status" = 0 ] || taken=0 held="unknown, at status $status,"
}

# Compares what is held with a small and with a large input. In each word `SIZE` stands for the size and `TURNS` for a
# number that goes with it. With the large one at least 1,000 blocks more must be taken, so that there is what to free.
compare_held() {
    local name=$1 home=$2 input=$3 small_taken small_held
    shift 3
    local small=("${@//SIZE/small}") large=("${@//SIZE/large}")
    count_blocks "$work/${home//SIZE/small}" "$work/${input//SIZE/small}" "${small[@]//TURNS/40}"
    small_taken=$taken
    small_held=$held
    count_blocks "$work/${home//SIZE/large}" "$work/${input//SIZE/large}" "${large[@]//TURNS/4000}"
    check "$name: of $small_taken blocks $small_held are left, and of $taken blocks $held" \
        [ "$held" = "$small_held" -a "$taken" -gt $((small_taken + 1000)) ]
}

: >"$work/nothing"
make_inputs small 20
make_inputs large 1500
compare_held show nothing SIZE.frames show
compare_held print SIZE.ann nothing print "$work/home"
compare_held edit SIZE.empty SIZE.script edit "$work/home"
compare_held take SIZE.new SIZE.frames take "$work/home"
compare_held send SIZE.ann nothing send "$work/home"
compare_held merge SIZE.ann nothing merge "$work/home" "$work/SIZE.ben"
compare_held bulk nothing nothing bulk 7 TURNS

ended
