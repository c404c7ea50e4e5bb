#!/usr/bin/env bash
# Large manuscripts, each within a minute: the summary of a million turns, whose numbers another program computed, a
# text of 300,000 letters that one author puts at once and another takes in, scripts of many lines in one section, emoji,
# Hangul, flags and marks without a space between them, passages that overlap themselves at very many places, drafts of as
# many letters as a file holds and more, deletes that wait for their letters, a certificate of many steps, texts of 100,000
# letters that come in six orders, and batches of each power of two up to the longest.
. "$(dirname "$0")/common.sh"

# Whether what a command printed is what was wanted.
look() {
    local what=$1 wanted=$2 got=$3
    tried=$((tried + 1))
    if [ "$got" != "$wanted" ]; then
        failed=$((failed + 1))
        printf '%s: wanted\n%s\ngot\n%s\n' "$what" "$wanted" "$got"
    fi
}

summary() {
    printf 'operations %s\nscalars %s\nsum %s\nequal' "$1" "$2" "$3"
}

look 'a hundred thousand turns' "$(summary 100001 75312 1319072258)" "$(timeout 60 "$program" bulk 7 100000 </dev/null)"
look 'a million turns' "$(summary 1000001 749956 1281050096)" "$(timeout 60 "$program" bulk 7 1000000 </dev/null)"

letters=$(head -c 300000 /dev/zero | tr '\0' a)
for number in 1 2; do
    "$program" new "$work/$number" "$number" 16 </dev/null
done
printf 'add 1 T\nput 1 0 %s\n' "$letters" >"$work/script"
look 'a long put' 'made 300001' "$(timeout 60 "$program" edit "$work/1" <"$work/script" 2>&1)"
timeout 60 "$program" send "$work/1" </dev/null >"$work/frames"
look 'taken in elsewhere' 'accepted 300001, repeated 0, waiting 0, conflict 0, stray 0, full 0' "$(timeout 60 "$program" take "$work/2" <"$work/frames" 2>&1)"
for number in 1 2; do
    look "printed by $number" "$(printf '# T\n%s' "$letters")" "$(timeout 60 "$program" print "$work/$number" </dev/null)"
done

# All of it deleted, by one cut.
look 'a long cut' 'made 300000' "$(printf 'cut 1 0 300000\n' | timeout 60 "$program" edit "$work/1" 2>&1)"
look 'nothing left' '# T' "$(timeout 60 "$program" print "$work/1" </dev/null)"

# Scripts of many lines in one section. Each line costs the part of the text that it touches, and not the section: 20,000
# puts in front of 300,000 letters, and 20,000 times a word that is put and cut again, whose letters all stay there hidden.
"$program" new "$work/3" 3 16 </dev/null
{
    printf 'add 1 T\nput 1 0 %s\n' "$letters"
    for ((line = 0; line < 20000; line++)); do echo 'put 1 0 b'; done
} >"$work/script"
look 'puts in front of a long text' 'made 320001' "$(timeout 60 "$program" edit "$work/3" <"$work/script" 2>&1)"
"$program" new "$work/4" 4 16 </dev/null
{
    echo 'add 1 T'
    for ((line = 0; line < 20000; line++)); do printf 'put 1 0 nineteen letters ok\ncut 1 0 19\n'; done
} >"$work/script"
look 'words that were cut again' 'made 760001' "$(timeout 60 "$program" edit "$work/4" <"$work/script" 2>&1)"

# So many scalars of several bytes, a line of a script each, with no space between them.
for scalar in 😀 한; do
    rm -f "$work/5"
    "$program" new "$work/5" 5 16 </dev/null
    LC_ALL=C awk -v scalar="$scalar" 'BEGIN {
        print "add 1 T"
        for (line = 0; line < 40000; line++) print "put 1 " line " " scalar
    }' >"$work/script"
    look "lines of $scalar" 'made 40001' "$( (ulimit -t 10 && "$program" edit "$work/5") <"$work/script" 2>&1)"
done

# Flags, and letters with a mark, with no space between them, and letters at the end of 400,000 others, a line of a script
# each, at three sizes: each reads the parts of the text that it touches, and one path of the tree in which they stand.
put_each() {
    LC_ALL=C awk -v from="$1" -v count="$2" -v cluster="$3" 'BEGIN {
        for (line = 0; line < count; line++) print "put 1 " (from + line) " " cluster
    }'
}
for cluster in 🇫🇷 $'e\xcc\x81'; do
    for count in 10000 20000 40000; do
        rm -f "$work/5"
        "$program" new "$work/5" 5 16 </dev/null
        { echo 'add 1 T'; put_each 0 "$count" "$cluster"; } >"$work/script"
        look "$count lines of $cluster" "made $((2 * count + 1))" "$( (ulimit -t 5 && "$program" edit "$work/5") <"$work/script" 2>&1)"
    done
done
han=$(head -c 200000 /dev/zero | tr '\0' a | sed 's/a/字/g')
for count in 13750 27500 55000; do
    rm -f "$work/5"
    "$program" new "$work/5" 5 16 </dev/null
    printf 'add 1 T\nput 1 0 %s\n' "$han" | "$program" edit "$work/5" 2>/dev/null
    printf 'put 1 0 %s\n' "$han" | "$program" edit "$work/5" 2>/dev/null
    put_each 400000 "$count" 字 >"$work/script"
    look "$count letters behind 400000" "made $count" "$( (ulimit -t 5 && "$program" edit "$work/5") <"$work/script" 2>&1)"
done

# Passages of 100,000 letters in a text of a million, that overlap themselves at each letter, at every other one, and that
# stand nowhere though nearly all of them does at each letter.
repeated() {
    yes "$1" | head -n "$2" | tr -d '\n'
}
remarked() {
    local word=$1 passage=$2 wanted=$3
    rm -f "$work/7"
    "$program" new "$work/7" 7 16 </dev/null
    { printf 'add 1 T\nput 1 0 '; repeated "$word" $((1000000 / ${#word})); echo; } >"$work/script"
    "$program" edit "$work/7" <"$work/script" 2>/dev/null
    (ulimit -t 5 && "$program" remark "$work/7" "$passage" x) </dev/null >"$work/output" 2>"$work/notes"
    compare "a passage of $word: $wanted" $? 2 '' "passage $wanted\n"
}
remarked a "$(repeated a 100000)" 'found 900001 times'
remarked ab "$(repeated ab 50000)" 'found 450001 times'
remarked a "$(repeated a 99999)b" 'not found'

# Drafts of one section with so many letters: as many as a file holds, one more, and a hundred million. The last two are
# refused without being compared with the text, in a few times the memory of the draft.
drafted() {
    local letters=$1 status=$2 notes=$3
    rm -f "$work/8"
    "$program" new "$work/8" 8 16 </dev/null
    "$program" arrange "$work/8" </dev/null >"$work/base"
    { echo '# T'; yes 'so much and more' | head -c "$letters"; } >"$work/draft"
    (ulimit -t 10 && ulimit -v 500000 && "$program" revise "$work/8" "$work/base") <"$work/draft" >"$work/output" 2>"$work/notes"
    compare "a draft of $letters letters" $? "$status" '' "$notes"
}
drafted 4194303 0 'made 4194304\nsections: 1 added, 0 dropped, 0 moved, 0 retitled\n'
drafted 4194304 7 'too many: 0\n'
drafted 100000000 7 'too many: 0\n'

# Deletes that are pending, in no order, until the letters that they name come as runs of 1,000. Those that leave in one
# run move the others once.
pending() {
    printf "$section"
    LC_ALL=C awk -v count="$1" '
        function bytes(number) { printf "%c%c%c%c", number / 16777216, number / 65536 % 256, number / 256 % 256, number % 256 }
        BEGIN {
            for (at = 0; at < count; at++) { printf "\3"; bytes(7); bytes(at * 7919 % count) }
            for (at = 0; at < count; at += 1000) {
                printf "\4"; bytes(7); bytes(at); bytes(9); bytes(0)
                if (at) { printf "\1"; bytes(7); bytes(at - 1) } else printf "%c", 0
                printf "%c%c%c", 0, 3, 232
                for (letter = 0; letter < 1000; letter++) printf "%c%cx", 0, 0
            }
        }'
}
for count in 25000 50000 100000 200000; do
    pending "$count" >"$work/frames"
    (ulimit -t 10 && "$program" show 1048576) <"$work/frames" >"$work/output" 2>"$work/notes"
    compare "$count pending deletes" $? 0 '# T\n\n' "$(counts $((2 * count + 1)) 0 0 0 0 0)"
done

# A certificate of 32,500 steps. Each step compares two letters by their right origins, which are those that the next one
# compares. The left origins take turns, so that the chains are short; in front of them is a chain of so many letters.
crossed() {
    LC_ALL=C awk -v pairs="$1" -v chain="$2" '
        function bytes(number) { printf "%c%c%c%c", number / 16777216, number / 65536 % 256, number / 256 % 256, number % 256 }
        function origin(replica, at) { if (replica) { printf "\1"; bytes(replica); bytes(at) } else printf "%c", 0 }
        function scalar(replica, at, left, from, right, name) {
            printf "\2"; bytes(replica); bytes(at); bytes(9); bytes(0); origin(left, from); origin(right, at - 1)
            printf "%c%c%s", 0, 0, name
        }
        BEGIN {
            for (at = 0; at < chain; at++) scalar(8, at, at ? 8 : 0, at - 1, 0, "c")
            first = chain ? 8 : 0
            scalar(7, 0, first, chain - 1, 0, "z")
            for (at = 0; at < pairs; at++) {
                left = at % 2 ? first : 7
                from = at % 2 ? chain - 1 : 0
                scalar(1, at, left, from, at ? 2 : 0, at == pairs - 1 ? "x" : "a")
                scalar(2, at, left, from, at ? 1 : 0, at == pairs - 1 ? "y" : "a")
            }
        }'
}
for chain in 0 32500; do
    rm -f "$work/6"
    { printf "$section"; crossed 32500 "$chain"; } >"$work/frames"
    "$program" new "$work/6" 6 16 </dev/null
    "$program" take "$work/6" <"$work/frames" 2>/dev/null
    places=$("$program" print "$work/6" </dev/null | LC_ALL=C awk 'NR == 2 { print index($0, "x") - 1, index($0, "y") - 1 }')
    (ulimit -t 5 && "$program" why "$work/6" 1 $places) </dev/null >"$work/certificate" 2>"$work/notes"
    look "the steps of a long certificate behind $chain letters" 32500 "$(grep -c claim "$work/certificate")"
    look 'and it is valid' yes "$( (ulimit -t 5 && "$program" check "$work/6") <"$work/certificate" 2>&1)"
done

# The frames of 100,000 letters, each directly behind the start or one that came before it, and the text that they make.
# Two authors take turns: so no letter joins the run of another, but for a few at random, and each is a node of the tree.
typed() {
    local order=$1 text=$2
    printf "$section"
    LC_ALL=C awk -v order="$order" -v text="$text" '
        function bytes(number) { printf "%c%c%c%c", number / 16777216, number / 65536 % 256, number / 256 % 256, number % 256 }
        function id(letter) { bytes(1 + letter % 2); bytes(int(letter / 2)) }
        function origin(letter) { if (letter) { printf "\1"; id(letter) } else printf "%c", 0 }
        function scalar(letter) { return 97 + letter % 26 }

        # Behind which letter a new one comes. 0 is the start of the text.
        function place(letter) {
            if (order == "in front") return 0
            if (order == "at the end") return letter - 1
            if (order == "behind the first") return letter > 1
            if (order == "before the last") return letter > 2 ? letter - 1 : 0
            if (order == "in the middle") return letter % 2 ? letter - 1 : letter - 2
            state = (state * 1664525 + 1013904223) % 4294967296
            return int(state / 4294967296 * letter)
        }

        BEGIN {
            behind[0] = 0
            for (letter = 1; letter <= 100000; letter++) {
                left = place(letter)
                printf "\2"; id(letter); bytes(9); bytes(0); origin(left); origin(behind[left])
                printf "%c%c%c", 0, 0, scalar(letter)
                behind[letter] = behind[left]
                behind[left] = letter
            }
            for (letter = behind[0]; letter; letter = behind[letter]) printf "%c", scalar(letter) >text
        }'
}

# None of these orders makes the tree of a text a chain: each takes a second or two of the processor, where a chain takes
# many minutes.
for order in 'in front' 'at the end' 'behind the first' 'before the last' 'in the middle' 'at random'; do
    typed "$order" "$work/text" >"$work/frames"
    (ulimit -t 10 && "$program" show) <"$work/frames" >"$work/output" 2>"$work/notes"
    compare "letters $order" $? 0 "# T\n$(cat "$work/text")\n" "$(counts 100001 0 0 0 0 0)"
done

# So many sections, each behind the one before, with titles of 480 letters: their frames have 493 bytes, and 501 each behind
# the first.
titled() {
    LC_ALL=C awk -v count="$1" '
        function bytes(number) { printf "%c%c%c%c", number / 16777216, number / 65536 % 256, number / 256 % 256, number % 256 }
        BEGIN {
            title = sprintf("%480s", "")
            gsub(/ /, "a", title)
            for (at = 0; at < count; at++) {
                printf "\1"; bytes(9); bytes(at)
                if (at) { printf "\1"; bytes(9); bytes(at - 1) } else printf "%c", 0
                printf "%c%c%c%s", 0, 1, 224, title
            }
        }'
}

# Takes in so many of them as one batch, and says whether all went into the file.
take_batch() {
    local count=$1
    titled "$count" >"$work/frames"
    rm -f "$work/batch"
    "$program" new "$work/batch" 1 16 </dev/null
    timeout 60 "$program" take "$work/batch" <"$work/frames" >"$work/output" 2>"$work/notes"
}

# Memory is there for a batch of each size, up to the longest that a file takes.
for ((power = 9; power <= 28; power++)); do
    count=$((1 + ((1 << power) - 493) / 501))
    take_batch "$count"
    compare "a batch of up to 2^$power bytes" $? 0 '' "$(counts "$count" 0 0 0 0 0)"
    timeout 60 "$program" send "$work/batch" </dev/null | cmp -s - "$work/frames"
    check 'and all of it is there' [ $? = 0 ]
done
take_batch $((count + 1))
compare 'a batch that is too long' $? 7 '' 'batch too long\n'
because "manuscript: $work/batch: one save holds 256 MiB at most; merge an older copy or take an earlier stream first, and then the rest"

ended
