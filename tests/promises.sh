#!/usr/bin/env bash
# Looks that each clause that docs/PROMISES.md names stands in the file where it is said to stand.
#
# A reference is a file below crates/, and behind its colon functions or definitions of it, with clauses or fields in
# brackets. Of a function with no brackets nothing is looked for but the function.
set -euo pipefail
cd "$(dirname "$0")/.."
page=${1:-docs/PROMISES.md}

# One line for each name in the lists: the file, the function or definition, and the clause or a dash.
references() {
    awk '
        /^- `/ {
            depth = 0
            file = item = ""
            text = $0
            while (match(text, /`[^`]*`|\(|\)/)) {
                token = substr(text, RSTART, RLENGTH)
                text = substr(text, RSTART + RLENGTH)
                name = substr(token, 2, RLENGTH - 2)
                if (token == "(") depth = 1
                else if (token == ")") depth = 0
                else if (name ~ /^[a-z_]+\/.*\.(rt|antt)$/) { file = name; item = ""; depth = 0 }
                else if (file == "") continue
                else if (depth && item != "") print file, item, name
                else { item = name; print file, item, "-" }
            }
        }' "$page"
}

# The text of a function up to the next one, or of a definition up to the next empty line.
text_of() {
    case $1 in
    *.rt) awk -v start="fn $2[<(]" '$0 ~ start { inside = 1; print; next } /(^| )fn [a-z]/ { inside = 0 } inside' "crates/$1" ;;
    *) awk -v start="^(unfoldable |abbrev |pub |record |data )*$2( |\$)" '$0 ~ start { inside = 1 } /^$/ { inside = 0 } inside' "crates/$1" ;;
    esac
}

has_clause() {
    case $1 in
    *.rt) grep -q "ensures $3 {" ;;
    *) grep -q "^  pub $3 :" ;;
    esac
}

looked=0
missing=0
while read -r file item clause; do
    looked=$((looked + 1))
    if [ ! -f "crates/$file" ]; then
        echo "$page: crates/$file is not there"
    elif [ -z "$(text_of "$file" "$item")" ]; then
        echo "$page: crates/$file has no $item"
    elif [ "$clause" != - ] && ! text_of "$file" "$item" | has_clause "$file" "$item" "$clause"; then
        echo "$page: $item of crates/$file has no clause $clause"
    else
        continue
    fi
    missing=$((missing + 1))
done < <(references)

echo "$looked names looked for, $missing not there"
[ "$looked" -gt 100 ] && [ "$missing" = 0 ]
