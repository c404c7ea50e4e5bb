#!/usr/bin/env bash
# Kills the built program while it saves to a file: as it begins each of its calls of the system in turn, which are
# counted by tests/calls.c, and at 300 random moments. The file has to give what it gave before, or what the command
# makes of it, and after an end with status 0 what the command makes; and the command has to end well later. It edits a
# file of version 2 and one of version 1, moves a section of a third one, and revises a fourth.
#
#     tests/kill.sh [SEED]     # the random moments follow from the seed, 1 where none is given
RANDOM=${1:-1}
. "$(dirname "$0")/common.sh"

file=$work/file
{ for ((line = 1; line <= 300; line++)); do echo "put 1 0 abc$line"; done; } >"$work/script"
"$program" new "$work/version_2" 1 16 </dev/null
printf 'add 1 T\nput 1 0 old\n' | "$program" edit "$work/version_2" 2>/dev/null
cp samples/version_1.ms "$work/version_1"
"$program" new "$work/sections" 1 16 </dev/null
printf 'add 1 A\nadd 2 B\n' | "$program" edit "$work/sections" 2>/dev/null

# What is done with a file: the command's words behind its name, in front of and behind the file; and what tells of it.
saving=(edit)
telling=print

# From here on the file is this one, before it is edited.
begin_with() {
    cp "$work/$1" "$work/before"
    cp "$work/before" "$work/after"
    "$program" "${saving[0]}" "$work/after" "${saving[@]:1}" <"$work/script" 2>/dev/null
    "$program" "$telling" "$work/before" </dev/null >"$work/text_before"
    "$program" "$telling" "$work/after" </dev/null >"$work/text_after"
    old=0
    new=0
    wrong=0
}

# Looks at the file after an end with this status.
look() {
    local status=$1 text=$work/text
    if ! "$program" "$telling" "$file" </dev/null >"$text" 2>/dev/null; then
        wrong=$((wrong + 1))
    elif cmp -s "$text" "$work/text_after"; then
        new=$((new + 1))
    elif [ "$status" != 0 ] && cmp -s "$text" "$work/text_before"; then
        old=$((old + 1))
        "$program" "${saving[0]}" "$file" "${saving[@]:1}" <"$work/script" 2>/dev/null &&
            "$program" "$telling" "$file" </dev/null | cmp -s - "$work/text_after" || wrong=$((wrong + 1))
    else
        wrong=$((wrong + 1))
    fi
}

# As it begins each of its calls of the system.
kill_at_each_call() {
    local call status
    for ((call = 1; call <= 100; call++)); do
        cp "$work/before" "$file"
        AT=$call FAULT=kill LD_PRELOAD=$work/calls.so "$program" "${saving[0]}" "$file" "${saving[@]:1}" \
            <"$work/script" >/dev/null 2>&1 9>"$work/calls" &
        wait $! 2>/dev/null
        status=$?
        look "$status"
        [ "$status" = 137 ] || break
    done
    check "$1, killed at each of its $((call - 1)) calls: $old times all is as before, $new times all is there, $wrong times else" \
        [ "$wrong" = 0 -a "$call" -gt 10 -a "$call" -lt 100 -a "$old" -gt 0 -a "$new" -gt 1 ]
}

# At random moments, up to one and a half times the time that the command takes. No program is started to wait for them.
exec {never}<> <(:)
kill_at_moments() {
    local killed=0 start=${EPOCHREALTIME/./} long times pause status
    cp "$work/before" "$file"
    "$program" "${saving[0]}" "$file" "${saving[@]:1}" <"$work/script" 2>/dev/null
    long=$((${EPOCHREALTIME/./} - start))
    for ((times = 1; times <= 100; times++)); do
        cp "$work/before" "$file"
        "$program" "${saving[0]}" "$file" "${saving[@]:1}" <"$work/script" >/dev/null 2>&1 &
        printf -v pause '0.%06d' $(((RANDOM * 32768 + RANDOM) % (long * 3 / 2)))
        read -rt "$pause" -u "$never"
        kill -9 $! 2>/dev/null
        wait $! 2>/dev/null
        status=$?
        [ "$status" != 137 ] || killed=$((killed + 1))
        look "$status"
    done
    check "$1, killed at $killed of 100 moments: $old times all is as before, $new times all is there, $wrong times else" \
        [ "$wrong" = 0 -a "$killed" -gt 0 ]
}

"$program" new "$work/book" 1 16 </dev/null
{ printf 'add 1 A\nadd 2 B\n'; sed 's/^put 1/put 2/' "$work/script"; } | "$program" edit "$work/book" 2>/dev/null
"$program" arrange "$work/book" </dev/null >"$work/base"

for name in version_2 version_1 sections book; do
    case $name in
    sections)
        saving=(move 2 1)
        telling=arrange
        ;;
    book)
        saving=(revise "$work/base")
        sed 's/abc/cab/g; s/^# A/# C/' "$work/base" >"$work/script"
        ;;
    esac
    if build_c calls; then
        begin_with "$name"
        kill_at_each_call "$name"
    fi
    begin_with "$name"
    kill_at_moments "$name"
done

ended
