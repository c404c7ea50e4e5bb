# What the tests of the built program share. A test sources it, and ends with `ended`.
set -u
cd "$(dirname "${BASH_SOURCE[0]}")/.."
program=${TRIED_PROGRAM:-$PWD/bin/manuscript}
[ -x "$program" ] || {
    echo "$program is not there: make bin/manuscript" >&2
    exit 1
}
work=$(mktemp -d)
trap 'rm -rf "$work"' EXIT
tried=0
failed=0

# Frames, as escapes that printf reads. An identifier is a replica and a counter below 256.

id() {
    printf '\\0\\0\\0\\%03o\\0\\0\\0\\%03o' "$1" "$2"
}

# An origin: an identifier, or nothing for the start or the end of the text.
origin() {
    if [ $# = 0 ]; then printf '\\0'; else printf '\\1%s' "$(id "$1" "$2")"; fi
}

# A letter: its identifier, its section, its left and its right origin, and what it is.
letter() {
    printf '\\2%s%s%s%s\\0\\0%s' "$(id $1)" "$(id $2)" "$(origin $3)" "$(origin $4)" "$5"
}

section='\1'$(id 9 0)'\0\0\0\001T'
b=$(letter '1 0' '9 0' '' '' B)
a=$(letter '1 1' '9 0' '' '1 0' A)
d=$(letter '2 0' '9 0' '' '1 0' D)
x=$(letter '3 0' '9 0' '1 1' '1 0' X)
y=$(letter '2 1' '9 0' '1 1' '2 0' Y)
after_b=$(letter '1 1' '9 0' '1 0' '' C)
other_b=$(letter '1 0' '9 0' '' '' z)
in_b=$(letter '2 0' '1 0' '' '' c)
drops_b='\3'$(id 1 0)

# Puts the frames into a file with the name.
put() {
    local name=$1
    shift
    printf "$(printf '%s' "$@")" >"$work/$name"
}

# A section with so many letters, each typed behind the one before.
put_long() {
    local name=$1 count=$2 at frames frame
    frames=$section$(letter '1 0' '9 0' '' '' x)
    for ((at = 1; at < count; at++)); do
        printf -v frame '\\2\\0\\0\\0\\1\\0\\0\\%03o\\%03o\\0\\0\\0\\011\\0\\0\\0\\0\\1\\0\\0\\0\\1\\0\\0\\%03o\\%03o\\0\\0\\0x' \
            $((at / 256)) $((at % 256)) $(((at - 1) / 256)) $(((at - 1) % 256))
        frames+=$frame
    done
    printf "$frames" >"$work/$name"
}

# The line of counts: accepted, repeated, waiting, conflict, stray and full ones.
counts() {
    printf 'accepted %s, repeated %s, waiting %s, conflict %s, stray %s, full %s\\n' "$@"
}

# Compares what was seen with what is wanted: the status, the output and the notes, both as escapes. The reason that may
# stand in front of the notes, a line or what is told of all commands, goes to `cause`.
compare() {
    local name=$1 seen=$2 status=$3
    sed -n '1{/^manuscript: /p;/^usage: /{/ COMMAND /!p;};}; /^usage: .* COMMAND /,/^The scripts /p' "$work/notes" >"$work/cause"
    [ ! -s "$work/cause" ] || sed -i "1,$(wc -l <"$work/cause")d" "$work/notes"
    printf "$4" >"$work/wanted_output"
    printf "$5" >"$work/wanted_notes"
    tried=$((tried + 1))
    if [ "$seen" = "$status" ] && cmp -s "$work/output" "$work/wanted_output" && cmp -s "$work/notes" "$work/wanted_notes"; then
        echo "ok: $name"
    else
        failed=$((failed + 1))
        echo "FAILED: $name: status $seen and not $status, output '$(head -c 80 "$work/output")', notes '$(head -c 80 "$work/notes")'"
    fi
}

# Compares the line in front of the notes that were last compared with what is wanted.
because() {
    local line
    line=$(cat "$work/cause")
    check "because: $1" [ "$line" = "$1" ]
}

# Runs the program on a file, with the words behind what is wanted.
try() {
    local name=$1 input=$2 status=$3 output=$4 notes=$5
    shift 5
    "$program" "$@" <"$work/$input" >"$work/output" 2>"$work/notes"
    compare "$name" $? "$status" "$output" "$notes"
}

# Runs the program where it has so many KiB of memory, from little to much. Ends without memory have to be seen, and
# each has to say so.
try_memory() {
    local name=$1 input=$2 seen=0 wrong=0 kilobytes status
    shift 2
    for ((kilobytes = 2400; kilobytes <= 8000; kilobytes += 200)); do
        # The shell that is limited needs memory for the words itself: it takes more before, and has that to use.
        bash -c ': "$@" "$@" "$@"; ulimit -v "$0"; exec "$@"' "$kilobytes" "$program" "$@" \
            <"$work/$input" >"$work/output" 2>"$work/notes"
        status=$?
        if [ $status = 5 ]; then
            seen=$((seen + 1))
            [ "$(cat "$work/notes"; echo .)" = $'no memory\n.' ] && [ ! -s "$work/output" ] || wrong=$((wrong + 1))
        fi
    done
    tried=$((tried + 1))
    if [ $seen -gt 0 ] && [ $wrong = 0 ]; then
        echo "ok: $name"
    else
        failed=$((failed + 1))
        echo "FAILED: $name: $seen ends with status 5, $wrong of them with other outputs"
    fi
}

# The bytes of a column of a table, as escapes: each {NAME} is what stands for it.
spelled() {
    local text=$1
    while [[ $text =~ \{([A-Z_]+)\} ]]; do
        text=${text//"${BASH_REMATCH[0]}"/"${named[${BASH_REMATCH[1]}]}"}
    done
    spelling=$text
}

# The diagnostics of a column: a line each, of which that of counts leaves out those that are 0.
diagnostics() {
    local kind found=()
    spelled "$1"
    [ -z "$spelling" ] || spelling+='\n'
    [[ $spelling =~ ^(accepted|repeated|waiting|conflict|stray|full)' ' ]] || return
    for kind in accepted repeated waiting conflict stray full; do
        [[ $spelling =~ $kind' '([0-9]+) ]] && found+=("${BASH_REMATCH[1]}") || found+=(0)
    done
    spelling=$(counts "${found[@]}")
}

# Runs the row of a command in the folder of the tables: its words, its status, its input, its output and its notes.
run_row() {
    local title=$1 row=("${@:2}") words=() word
    for word in ${row[0]}; do
        [ "$word" != "''" ] || word=
        printf -v word "$word"
        words+=("$word")
    done
    spelled "${row[2]-}"
    printf -- "$spelling" >"$work/input"
    (cd "$work/rows" && exec "$program" "${words[@]}") <"$work/input" >"$work/output" 2>"$work/notes"
    word=$?
    spelled "${row[3]-}"
    local output=$spelling
    diagnostics "${row[4]-}"
    compare "$title: ${row[0]}" "$word" "${row[1]}" "$output" "$spelling"
}

# Runs the rows of a table, one after another. A row has columns between bars, of bytes as printf reads them:
#
#     COMMAND ARGUMENT.. | STATUS | INPUT | OUTPUT | DIAGNOSTICS
#     file NAME | BYTES       from here on the file has these bytes
#     left NAME | BYTES       here it must have these, or with no bar those that it was given
#     name NAME | BYTES       below, {NAME} stands for these bytes
#
# Arguments have one blank between them, and '' is an empty one. Blanks at the ends of a column do not count. A line that
# begins with # is a remark.
run_rows() {
    local title=$1 line row column words number=0
    declare -gA given=()
    while IFS= read -r line; do
        number=$((number + 1))
        [[ $line =~ [^\ ] && $line != '#'* ]] || continue
        row=()
        while [[ $line == *'|'* ]]; do
            row+=("${line%%|*}")
            line=${line#*|}
        done
        row+=("$line")
        for column in "${!row[@]}"; do
            [[ ${row[column]} =~ ^\ *(.*[^\ ])\ *$ ]] && row[column]=${BASH_REMATCH[1]} || row[column]=
        done
        words=${row[0]#* }
        case ${row[0]} in
        'name '*)
            spelled "${row[1]}"
            named[$words]=$spelling
            ;;
        'file '*)
            spelled "${row[1]}"
            given[$words]=$spelling
            printf -- "$spelling" >"$work/rows/$words"
            ;;
        'left '*)
            [ ${#row[@]} = 2 ] && spelled "${row[1]}" || spelling=${given[$words]}
            printf -- "$spelling" >"$work/wanted_file"
            check "$title, line $number: what is left of $words" cmp -s "$work/rows/$words" "$work/wanted_file"
            ;;
        *) run_row "$title, line $number" "${row[@]}" ;;
        esac
    done
}

# Says that something was seen, or not.
check() {
    local name=$1
    shift
    tried=$((tried + 1))
    if "$@"; then
        echo "ok: $name"
    else
        failed=$((failed + 1))
        echo "FAILED: $name"
    fi
}

# Waits until a file has bytes, for ten seconds at most.
wait_for() {
    local waited
    for ((waited = 0; waited < 1000; waited++)); do
        [ ! -s "$1" ] || return 0
        sleep 0.01
    done
    return 1
}

# Builds tests/NAME.c, to stand before the C library, as NAME.so, or with a second word as a program of its own. Where
# there is no C compiler, or the tried program does not run by itself on this machine, it says so.
build_c() {
    command -v "${CC:-cc}" >/dev/null || {
        echo 'not tried, since there is no C compiler'
        return 1
    }
    [ $# -gt 1 ] || head -c 4 "$program" | grep -q ELF || {
        echo 'not tried, since nothing can stand before the C library of this program'
        return 1
    }
    if [ $# = 1 ]; then
        "${CC:-cc}" -O1 -shared -fPIC -o "$work/$1.so" "tests/$1.c" -ldl || exit 1
    else
        "${CC:-cc}" -O1 -o "$work/$2" "tests/$1.c" || exit 1
    fi
}

ended() {
    echo "$tried tried, $failed failed"
    [ $failed = 0 ]
}
