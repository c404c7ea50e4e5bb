#!/usr/bin/env bash
# What `make bench` shows: how long the commands take on this machine, in seconds of the processor, as a table.
#
#     examples/bench.sh [LETTERS..]     # 10,000 and 100,000 where none is given
set -eu
cd "$(dirname "$0")/.."
here=$PWD
[ -x bin/manuscript ] || { echo "bin/manuscript is not there: make bin/manuscript" >&2; exit 1; }
PATH=$here/bin:$PATH
folder=$(mktemp -d)
trap 'cd /; rm -rf "$folder"' EXIT
cd "$folder"
[ $# -gt 0 ] || set -- 10000 100000
TIMEFORMAT='%U %S'

# A row: what is done, and how long a shell line takes. Where it fails there is no row.
row() {
    local what=$1 times
    if times=$({ time bash -c "$2" >/dev/null 2>&1; } 2>&1); then
        awk -v what="$what" '{ printf "| %s | %.2f |\n", what, $1 + $2 }' <<<"$times"
    fi
}

# A script that puts so many letters at once, one that types them behind one another, and one that puts each in front.
put_script() {
    printf 'put 1 0 '
    head -c "$1" /dev/zero | tr '\0' x
    echo
}

type_script() {
    local at
    for ((at = 0; at < $1; at++)); do echo "put 1 $at x"; done
}

front_script() {
    yes 'put 1 0 x' | head -n "$1"
}

# A script that writes a book of so many letters, in 100 sections of lines of some ten words.
book_script() {
    awk -v letters="$1" 'BEGIN {
        count = split("the sea was calm and blue then it blew nobody minded what the wind did", words, " ")
        srand(7)
        for (section = 1; section <= 100; section++) {
            printf "add %d Chapter %d\nput %d 0 ", section, section, section
            for (long = 0; long < letters / 100; long += length(word) + 1) {
                word = words[int(rand() * count) + 1]
                printf "%s%s", word, rand() < 0.1 ? "\\n" : " "
            }
            print ""
        }
    }'
}

# Drafts of what is printed: ten words are others, or all letters, or two sections stand in each other's place.
change_words() {
    awk '!/^# / && ++line % 1500 == 40 && changed++ < 10 { sub(/[a-z]+/, "changed") } { print }' base
}

change_letters() {
    sed '/^# /!y/abcdefghijklmnopqrstuvwxyz/bcdefghijklmnopqrstuvwxyza/' base
}

exchange_sections() {
    awk '/^# / { at++ } { texts[at] = texts[at] $0 "\n" }
        END { for (k = 1; k <= at; k++) printf "%s", texts[k == 11 ? 61 : k == 61 ? 11 : k] }' base
}

processor=$(sed -n 's/^model name[^:]*: //p' /proc/cpuinfo 2>/dev/null | head -n 1)
echo "On ${processor:-this processor}, $(getconf _NPROCESSORS_ONLN) of them, of which one is used:"
echo
echo '| what | seconds |'
echo '|---|---|'
row 'the sample of three authors, 11,937 operations: `show`' "manuscript show <$here/samples/oosterwick/all.frames"
for letters; do
    manuscript new ann.ms 1 1000
    echo 'add 1 T' | manuscript edit ann.ms 2>/dev/null
    cp ann.ms typed.ms
    manuscript new ben.ms 2 1000
    manuscript send ann.ms | manuscript take ben.ms 2>/dev/null
    put_script "$letters" >put
    row "a text of $letters letters at once: \`edit\`" 'manuscript edit ann.ms <put'
    row "that text: \`print\`" 'manuscript print ann.ms'
    manuscript send ann.ms >frames
    row "its frames: \`show\`" 'manuscript show <frames'
    manuscript edit ben.ms <put 2>/dev/null
    row "the text of another author, as long and at the same place: \`merge\`" 'manuscript merge ben.ms ann.ms'
    type_script $((letters / 10)) >typed
    row "$((letters / 10)) letters typed one by one, a line of a script each: \`edit\`" 'manuscript edit typed.ms <typed'
    front_script $((letters / 10)) >front
    row "$((letters / 10)) letters put one by one in front of the text of $letters: \`edit\`" 'manuscript edit ann.ms <front'
    row "a manuscript of $letters turns: \`bulk\`" "manuscript bulk 7 $letters"
    rm -f ann.ms ben.ms typed.ms
done
manuscript new book.ms 1 1000
book_script 1000000 | manuscript edit book.ms 2>/dev/null
manuscript arrange book.ms >base
row 'a book of 1,000,000 letters in 100 sections: `arrange`' 'manuscript arrange book.ms'
row 'what it said at half of that: `past`' 'manuscript past book.ms 500000'
row 'what came since then: `changes`' 'manuscript changes book.ms 500000'
row 'who wrote what: `authors`' 'manuscript authors book.ms'
change_words >ten
exchange_sections >exchanged
change_letters >retyped
for draft in 'ten:a draft of that book with ten words changed' 'exchanged:with two sections exchanged' 'retyped:with all letters changed'; do
    cp book.ms revised.ms
    row "${draft#*:}: \`revise\`" "manuscript revise revised.ms base <${draft%%:*}"
done
