#!/usr/bin/env bash
# Runs scripts of one line that has another byte at one place, or none there: the line is refused exactly where it has
# none of the forms of a line. And scripts and titles that are as long as may be, and one byte longer.
[ ! -w /dev/shm ] || export TMPDIR=/dev/shm # where many syncs cost little
. "$(dirname "$0")/common.sh"
LC_ALL=C

# The forms of the lines below, which have numbers of two digits.
first='[1-9][0-9]?'
number='(0|[1-9][0-9]?)'
text='([^\\]|\\n|\\\\)+'
form="^(|#.*|add $first [^"$'\r'"]+|put $first $number $text|cut $first $number $number|drop $first)$"

"$program" new "$work/f" 1 16 </dev/null
for line in 'add 1 Ti' 'put 1 0 a\n\\b' 'cut 10 2 3' 'drop 10' '# n'; do
    others=0
    for ((at = 0; at < ${#line}; at++)); do
        for byte in '' ' ' 0 1 9 - + '\' n $'\r' '#' a; do
            odd=${line:0:at}$byte${line:at+1}
            seen=$(printf '%s' "$odd" | "$program" edit "$work/f" 2>&1 | tail -n 1)
            if [[ $odd =~ $form ]]; then
                [ "$seen" != 'bad line 1' ]
            else
                [ "$seen" = 'bad line 1' ]
            fi || others=$((others + 1))
        done
    done
    check "'$line' with another byte: $others times judged in another way" [ "$others" = 0 ]
done

"$program" new "$work/g" 1 16 </dev/null
head -c 1048576 /dev/zero | tr '\0' '\n' >"$work/longest"
try 'the longest script' longest 0 '' 'made 0\n' edit "$work/g"
echo >>"$work/longest"
try 'one byte more' longest 7 '' 'too long\n' edit "$work/g"
printf 'add 1 %0481d\n' 0 >"$work/title"
try 'a title that is one byte too long' title 2 '' 'bad line 1\n' edit "$work/g"
printf 'add 1 %0480d\n' 0 >"$work/title"
try 'the longest title' title 0 '' 'made 1\n' edit "$work/g"

ended
