#!/usr/bin/env bash
# Makes the mistakes of tests/reasons.txt, one after another in one folder, and compares all that stands on standard error,
# and the status, with what the table has. Each mistake but a few is told by a reason and a diagnostic.
#
#     tests/reasons.sh [FILE]     # writes what it saw to FILE
. "$(dirname "$0")/common.sh"
table=$PWD/tests/reasons.txt
words=$PWD/crates/manuscript_cli/src/words.rt
seen=$work/seen

mkdir "$work/bin" "$work/folder"
ln -s "$program" "$work/bin/manuscript"
ln -s "$program" "$work/bin/book"
PATH=$work/bin:$PATH
export PORT=$((20000 + RANDOM % 12000))
cd "$work/folder"

# Runs a line of the table in the folder.
run_line() {
    timeout 60 bash -c "$1" <"$work/nothing" >/dev/null 2>"$work/notes"
}

put nothing
rows=0
alone=
while IFS= read -r line; do
    case $line in
    '    '*) continue ;;
    '% '*)
        run_line "${line#% }" || echo "    failed: $(cat "$work/notes")" >>"$work/odd"
        echo "$line"
        ;;
    '$ '*)
        run_line "${line#\$ }"
        status=$?
        rows=$((rows + 1))
        [ "$(wc -l <"$work/notes")" -gt 1 ] || alone+="${line#\$ }; "
        echo "$line"
        sed "s/\<$PORT\>/PORT/g; s/^/    /" "$work/notes"
        echo "    $status"
        ;;
    *) echo "$line" ;;
    esac
done <"$table" >"$seen"
[ $# = 0 ] || cp "$seen" "$OLDPWD/$1"
check "$rows mistakes are told as the table has it" diff -u --label tests/reasons.txt "$table" --label 'what was seen' "$seen"
check 'they are 80 at least' [ $rows -ge 80 ]
check "each has a reason in front of the diagnostic: $alone" [ -z "$alone" ]
check 'the files of the table are made' [ ! -s "$work/odd" ]

# What is told of all commands fits a screen, and has each of them.
manuscript help 2>"$work/notes" <"$work/nothing"
check 'the help fits a screen' [ "$(wc -l <"$work/notes")" -le 24 -a "$(wc -L <"$work/notes")" -le 80 ]
for command in $(sed -n 's/^ *"\([a-z]*\)".* => .*/\1/p' "$words" | sort -u); do
    check "the help tells $command" grep -qE "[ ,] *$command( [A-Z[]|$)" "$work/notes"
    check "$command alone tells its form" bash -c "manuscript $command x x x x x x x <'$work/nothing' 2>&1 | grep -qE '^usage: manuscript $command( |$)'"
done

ended
