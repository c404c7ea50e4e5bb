#!/usr/bin/env bash
# Runs each line that a reader may paste from the documents, and compares what comes with what stands behind it.
#
#     tests/pasted.sh [FILE..]     # README.md, GUIDE.md, FORMATS.md, WHY.md, manuscript.1 and manuscript-write.1 where none is given
#
# A session is an indented block (of the manual: a literal one) that begins with a dollar sign: lines with one are run,
# in order, in one shell and one folder for each document, and what stands behind a line is what it prints, with what
# it notes. The port of the documents is any port.
. "$(dirname "$0")/common.sh"

# The lines of the sessions of a document in Markdown.
sessions_of_page() {
    awk '
        /^    / || (/^$/ && inside) { line = substr($0, 5); if (!inside) { inside = 1; runs = line ~ /^\$ / } if (runs) print line; next }
        { inside = 0 }' "$1"
}

# The lines of the sessions of a manual page.
sessions_of_manual() {
    awk '/^\.Bd -literal/ { inside = 1; next } /^\.Ed/ { inside = 0 } inside' "$1" |
        sed 's/^\\&//; s/\\-/-/g; s/\\(aq/'"'"'/g; s/\\(dq/"/g; s/\\e/\\/g'
}

# A session without its empty lines in front of a line that is run and at its end.
without_gaps() {
    awk '/^$/ { gaps++; next } { if ($0 !~ /^\$ /) for (; gaps > 0; gaps--) print ""; gaps = 0; print }'
}

# The shell that runs the lines of a session, and tells each line before it is run.
shell_of() {
    local line
    echo 'exec 2>&1'
    while IFS= read -r line; do
        [[ $line == '$ '* ]] || continue
        printf "printf '%%s\\\\n' %q\n" "$line"
        printf '%s\n' "${line:2}" | sed "s/47113/$port/g"
    done
}

# Runs the sessions of a document in a folder of their own.
run_page() {
    local page=$1 name=${1##*/}
    case $page in
    *.md) sessions_of_page "$page" ;;
    *) sessions_of_manual "$page" ;;
    esac | without_gaps >"$work/$name.wanted"
    shell_of <"$work/$name.wanted" >"$work/$name.sh"
    mkdir "$work/$name.folder"
    (cd "$work/$name.folder" && PATH=${program%/*}:$here/examples:$PATH timeout 120 bash "$work/$name.sh" >"$work/$name.seen" </dev/null)
    # A page has the reasons in front of all its diagnostics, or leaves them out.
    if grep -q '^manuscript: ' "$work/$name.wanted"; then cat "$work/$name.seen"; else grep -v '^manuscript: ' "$work/$name.seen"; fi |
        without_gaps >"$work/$name.told"
    check "$page: $(grep -c '^\$ ' "$work/$name.wanted") lines print what stands behind them" \
        diff "$work/$name.wanted" "$work/$name.told"
    check "$page has lines to paste" [ -s "$work/$name.wanted" ]
}

here=$PWD
port=$((20000 + RANDOM % 20000))
[ $# -gt 0 ] || set -- README.md docs/GUIDE.md docs/FORMATS.md docs/WHY.md docs/manuscript.1 docs/manuscript-write.1
for page; do run_page "$page"; done

ended
