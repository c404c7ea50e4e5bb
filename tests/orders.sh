#!/usr/bin/env bash
# Shows streams in many orders, and cut off after each byte: every order and every repeat prints the same, and a stream
# that ends within a frame is refused with the place where that frame begins.
. "$(dirname "$0")/common.sh"

declare -A named=()
run_rows names <tests/rows/names.txt

# What `show` prints of a stream, its notes and its status.
shown() {
    printf -- "$1" | "$program" show 2>&1
    echo "${PIPESTATUS[1]}"
}

# One of the orders of some frames, by its number.
ordered() {
    local number=$1 left=("${@:2}") at
    stream=
    while [ ${#left[@]} -gt 0 ]; do
        at=$((number % ${#left[@]}))
        number=$((number / ${#left[@]}))
        stream+=${named[${left[at]}]}
        left=("${left[@]:0:at}" "${left[@]:at+1}")
    done
}

# Shows so many orders of some frames, whose numbers lie so far apart.
try_orders() {
    local name=$1 count=$2 step=$3 text=$4 number others=0 wanted
    shift 4
    wanted=$(printf "$text$(counts $# 0 0 0 0 0)0")
    for ((number = 0; number < count; number++)); do
        ordered $((number * step)) "$@"
        [ "$(shown "$stream")" = "$wanted" ] || others=$((others + 1))
    done
    check "$name: $count orders, of which $others print another text" [ "$others" = 0 ]
}

try_orders 'three authors and two deletes' 1000 40 '# T\nAXY\n' S B A D X Y DROP_D DROP_B
try_orders 'four letters at one place' 120 1 '# T\nPQVZ\n' S P Q Z V
try_orders 'two passages, each typed forwards' 120 1 '# T\nabxy\n' S LOWER_A LOWER_B SMALL_X Y_BEHIND_X
try_orders 'two passages, each typed backwards' 120 1 '# T\nabxy\n' S SMALL_B A_BEFORE_B SMALL_Y X_BEFORE_Y

# Every order of a stream, with all of it once more in another order.
chapter=(S B A D X Y)
wanted=$(printf "# T\nAXYDB\n$(counts 6 6 0 0 0 0)0")
others=0
for ((number = 0; number < 720; number++)); do
    ordered "$number" "${chapter[@]}"
    once=$stream
    ordered $((number / 2)) "${chapter[@]}"
    [ "$(shown "$once$stream")" = "$wanted" ] || others=$((others + 1))
done
check "every order, and all once more: $others print another text" [ "$others" = 0 ]

# The stream cut off after each byte.
ordered 0 "${chapter[@]}"
printf "$stream" >"$work/chapter"
others=0
for ((length = 0; length < $(wc -c <"$work/chapter"); length++)); do
    for begin in 0 14 36 66 96 134; do
        [ "$begin" -gt "$length" ] || frame=$begin
    done
    seen=$({ head -c "$length" "$work/chapter" | "$program" show 2>&1; echo "${PIPESTATUS[1]}"; } | grep -v '^manuscript: ')
    if [ "$frame" = "$length" ]; then
        [[ $seen == *$'\n0' ]]
    else
        [ "$seen" = "cut short at byte $frame"$'\n2' ]
    fi || others=$((others + 1))
done
check "a stream cut off after each byte: $others end in another way" [ "$others" = 0 ]

ended
