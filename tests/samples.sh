#!/usr/bin/env bash
# Makes the samples anew from their scripts, and compares them with what stands in the repository: the frames, and the
# text that each author reads. Where there is python3, the small reader in another language has to read the same.
. "$(dirname "$0")/common.sh"

samples=$PWD/samples
reader=$PWD/examples/reader.py
PATH=${program%/*}:$PATH
oosterwick=$samples/oosterwick

# Makes a file of what a command prints.
printed() {
    local name=$1
    shift
    "$@" >"$work/$name" 2>"$work/$name.notes" </dev/null
}

# What `show` and the reader make of a stream.
both_show() {
    local name=$1 frames=$2
    manuscript show <"$frames" >"$work/shown" 2>"$work/shown.notes"
    echo $? >"$work/shown.status"
    python3 "$reader" show "$frames" >"$work/read" 2>"$work/read.notes"
    echo $? >"$work/read.status"
    check "the reader shows $name, as the program" cmp -s "$work/shown" "$work/read"
    check '    and notes the same' cmp -s <(grep -v '^manuscript: ' "$work/shown.notes") "$work/read.notes"
    check '    and ends with the same status' cmp -s "$work/shown.status" "$work/read.status"
}

mkdir "$work/made"
"$oosterwick/make.sh" "$work/made" >"$work/make.log" 2>&1
check 'the sample of three authors is made' [ $? = 0 ]
check 'its text is the one that is kept' cmp "$work/made/manuscript.txt" "$oosterwick/manuscript.txt"
check 'and so are its frames' cmp "$work/made/all.frames" "$oosterwick/all.frames"
for author in ann ben cleo; do
    printed "$author" manuscript print "$work/made/$author.ms"
    check "$author reads the same" cmp -s "$work/$author" "$oosterwick/manuscript.txt"
done
manuscript show <"$oosterwick/all.frames" >"$work/shown" 2>"$work/notes"
check 'the frames are shown as the text' cmp -s "$work/shown" "$oosterwick/manuscript.txt"

# A file as version 1 wrote it: it is printed, saved to, and printed again; what stood there stays.
cp "$samples/version_1.ms" "$work/old.ms"
printed old_text manuscript print "$work/old.ms"
check 'a file of version 1 is printed' [ "$(head -n 1 "$work/old_text")" = '# The sea' ]
echo 'put 1 0 Xy' | manuscript edit "$work/old.ms" >"$work/notes" 2>&1
check '    and saved to' [ "$(cat "$work/notes")" = 'made 2' ]
printed new_text manuscript print "$work/old.ms"
check '    and printed again' [ "$(sed 's/^Xy//' "$work/new_text")" = "$(cat "$work/old_text")" ]
size=$(wc -c <"$samples/version_1.ms")
check '    and its header and old batches stay' cmp -s -n $((size - 1)) "$samples/version_1.ms" "$work/old.ms"

if command -v python3 >/dev/null; then
    printed read python3 "$reader" print "$work/old.ms"
    check 'the reader prints it, as the program' cmp -s "$work/read" "$work/new_text"
    manuscript send "$work/old.ms" >"$work/sent"
    printed read python3 "$reader" send "$work/old.ms"
    check '    and sends what it holds' cmp -s "$work/read" "$work/sent"
    for author in ann ben cleo; do
        printed read python3 "$reader" print "$work/made/$author.ms"
        check "the reader prints the file of $author" cmp -s "$work/read" "$oosterwick/manuscript.txt"
        manuscript send "$work/made/$author.ms" >"$work/sent"
        printed read python3 "$reader" send "$work/made/$author.ms"
        check '    and sends what it holds' cmp -s "$work/read" "$work/sent"
    done
    # A file with a comment on two sections, a version, a move and a title.
    cp "$work/made/ann.ms" "$work/noted.ms"
    while IFS='|' read -ra word; do
        manuscript "${word[0]}" "$work/noted.ms" "${word[@]:1}" 2>>"$work/notes" </dev/null || echo "${word[0]}" >>"$work/refused"
    done <<'END'
comment|1|0|5|Why here?
comment|2|3|9|a <b> & more
version|first draft
move|2|1
retitle|1|Wind & <weather>
END
    echo 'cut 1 2 4' | manuscript edit "$work/noted.ms" 2>>"$work/notes"
    check 'comments, a version, a move and a title are made' [ ! -e "$work/refused" ]
    printed arranged manuscript arrange "$work/noted.ms"
    for report in arrange comments versions; do
        printed told manuscript "$report" "$work/noted.ms"
        printed read python3 "$reader" "$report" "$work/noted.ms"
        check "    and the reader answers $report, as the program" cmp -s "$work/read" "$work/told"
    done
    printed told manuscript view "$work/noted.ms" 'first draft'
    printed read python3 "$reader" view "$work/noted.ms" 'first draft'
    check '    and view' cmp -s "$work/read" "$work/told"
    for places in '1 0 1' '1 2 9' '2 5 30' '1 9 2'; do
        printed told manuscript why "$work/noted.ms" $places
        printed read python3 "$reader" why "$work/noted.ms" $places
        check "    and why $places" cmp -s "$work/read" "$work/told"
    done
    cp "$work/made/ben.ms" "$work/merged.ms"
    printed read python3 "$reader" merge "$work/merged.ms" "$work/noted.ms"
    printed told manuscript merge "$work/merged.ms" "$work/noted.ms"
    check '    and notes of merge' cmp -s "$work/read.notes" "$work/told.notes"
    printed page.html python3 examples/page.py "$work/noted.ms"
    check '    and the page has the text of arrange' python3 tests/page.py "$work/page.html" "$work/arranged"
    check '    and page.py tells its form' [ "$(python3 examples/page.py --help | sed -n 3p)" = '    page.py FILE [OTHER..] > page.html' ]
    accepted=$(manuscript list "$work/noted.ms" </dev/null | sed -n '1s/.*accepted \([0-9]*\),.*/\1/p')
    printed since.html python3 examples/page.py --since "$accepted" "$work/noted.ms"
    check '    and marks nothing since now' [ "$(grep -c '<ins\|class="gone"' "$work/since.html")" = 0 ]
    printed since.html python3 examples/page.py --since 0 "$work/noted.ms"
    check '    and all since the beginning' [ "$(grep -o '<h2[^>]*><ins>' "$work/since.html" | wc -l)" = "$(grep -c '^# ' "$work/arranged")" ]
    both_show 'the sample of three authors' "$oosterwick/all.frames"
    both_show 'the sample stream of two authors' "$samples/two_authors.frames"
    put cut "$section" "$b" "$y"
    head -c 60 "$work/cut" >"$work/cut_short"
    both_show 'a stream that is cut short' "$work/cut_short"
    put bad "$section" "$b" '\2\0\0\0\0'
    both_show 'a stream with a bad frame' "$work/bad"
    put odd "$y" "$section" "$b" "$other_b" "$in_b" "$a" "$b" "$drops_b"
    both_show 'operations that wait, clash, stray and come twice' "$work/odd"
    check 'the program meets the test vectors' python3 tests/vectors.py "$program"
    check 'the reader and the program agree on odd streams and files' \
        python3 tests/odd_streams.py "$program" 1 "${STREAMS:-200}"
    check 'and on certificates in hostile histories' python3 tests/odd_certificates.py "$program" 1 "${HISTORIES:-12}"
fi

ended
