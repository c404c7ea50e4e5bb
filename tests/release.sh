#!/usr/bin/env bash
# Tests what is made for others: the archive and its links, installing and removing, the completions, the Debian package
# and the manual pages. All is made in a copy of what it needs, so that nothing is proved or left.
. "$(dirname "$0")/common.sh"

here=$PWD
copy=$work/copy
mkdir -p "$copy/bin" "$copy/crates/manuscript/src"
cp -r Makefile crates.txt HANDLES README.md CHANGELOG.md LICENSE docs examples release samples "$copy"
mkdir "$copy/desk"
cp desk/README.md "$copy/desk"
cp crates/manuscript/src/usage.rt "$copy/crates/manuscript/src"
find "$copy" -exec touch -d '1 hour ago' {} +
cp "$program" "$copy/bin/manuscript"
cd "$copy"
quietly() {
    "$@" >"$work/output" 2>&1 || { cat "$work/output"; return 1; }
}

# The archive, in an empty folder.
check 'an archive is made' quietly make dist
archive=$(ls dist/*.tar.gz)
mkdir "$work/empty"
tar -C "$work/empty" -xzf "$archive"
cd "$work/empty"/*
check 'it has one folder, of its name' [ "$(ls "$work/empty")" = "$(basename "$archive" .tar.gz)" ]
check 'its checksums hold' quietly sha256sum -c SHA256SUMS
check 'they are of all files' [ "$(find . -type f | wc -l)" = "$(($(wc -l <SHA256SUMS) + 1))" ]
check 'its program runs' [ "$(bin/manuscript show <samples/two_authors.frames 2>/dev/null | head -n 1 | cut -c 1-2)" = '# ' ]
check 'and its scripts do' [ "$(PATH=$PWD/bin:$PATH manuscript-exchange 2>&1)" = 'usage: manuscript-exchange FILE FOLDER' ]
needed=$(sed -n 's/^needs the GNU C library \([0-9.]*\) or newer.*/\1/p' INSTALL)
check "it says which C library it needs: ${needed:-none}" [ -n "$needed" ]
check 'and that is the greatest that the program names' [ "$(printf '%s\n' "$needed" $(grep -ao 'GLIBC_[0-9.]*' bin/manuscript | sed 's/GLIBC_//') | sort -V | tail -n 1)" = "$needed" ]

# The anchors of a page: each heading in small letters, with no signs and with dashes for blanks.
anchors() {
    sed -n 's/^##* //p' "$1" | tr '[:upper:]' '[:lower:]' | sed 's/[^a-z0-9 _-]//g; s/ /-/g'
}

# Whether each link of a page leads to a file, and to a heading of it where it names one.
leads_somewhere() {
    local target page=$1 wrong=0
    while IFS= read -r target; do
        case $target in
        http*:* | mailto:*) continue ;;
        \#*) file=$page ;;
        *) file=$(dirname "$page")/${target%%#*} ;;
        esac
        if ! [ -e "$file" ] || { [[ $target == *'#'* ]] && ! anchors "$file" | grep -qxF -- "${target#*#}"; }; then
            echo "$page leads to $target"
            wrong=1
        fi
    done < <(grep -o '](\([^)]*\))' "$page" | sed 's/^](//; s/)$//')
    return $wrong
}
pages=0
while IFS= read -r page; do
    pages=$((pages + 1))
    leads_somewhere "$page" || failed=$((failed + 1))
done < <(find . -name '*.md')
check "the links of $pages pages lead somewhere" [ $failed = 0 -a $pages -gt 5 ]
cd "$copy"
cp "$archive" "$work/first.tar.gz"
touch README.md
check 'it is made again' quietly make dist
check 'with the same bytes' cmp "$archive" "$work/first.tar.gz"

# Installing, below a name with blanks and quotes, and removing.
prefix="$work/a place/of 'mine'"
check 'it is installed' quietly make install PREFIX="$prefix"
check 'the program is there' cmp -s "$prefix/bin/manuscript" bin/manuscript
for script in manuscript-write manuscript-exchange; do
    check "$script is there, and a page of it" [ -x "$prefix/bin/$script" -a -s "$prefix/share/man/man1/$script.1" ]
done
: >"$prefix/bin/other"
check 'it is removed' quietly make uninstall PREFIX="$prefix"
check 'and nothing is left but what others put there' [ "$(cd "$prefix" && find . -mindepth 1 | LC_ALL=C sort | tr '\n' ' ')" = './bin ./bin/other ' ]
check 'it is installed below another root' quietly make install DESTDIR="$work/root of all" PREFIX=/usr
check 'and is there' [ -x "$work/root of all/usr/bin/manuscript" ]
check 'it is removed from there' quietly make uninstall DESTDIR="$work/root of all" PREFIX=/usr
check 'and nothing is left' [ -z "$(find "$work/root of all/usr" -mindepth 1)" ]

# What bash offers.
offered() {
    bash -c 'cd "$1"; . "$2"; shift 2; COMP_WORDS=("$@"); COMP_CWORD=$(($# - 1)); _manuscript 2>/dev/null; echo "${COMPREPLY[@]}"' \
        - "$work/shelf" "$copy/bin/completions/manuscript" "$@"
}
mkdir "$work/shelf" "$work/shelf/folder"
: >"$work/shelf/ann.ms"
: >"$work/shelf/base.txt"
check 'the shell offers commands' [ "$(offered manuscript ver)" = 'version versions' ]
check 'a file' [ "$(offered manuscript print '')" = 'folder ann.ms' ]
check 'the file of another author' [ "$(offered manuscript merge ann.ms '')" = 'folder ann.ms' ]
check 'a base' [ "$(offered manuscript revise ann.ms b)" = base.txt ]
check 'no number' [ -z "$(offered manuscript relay '')" ]
check 'nothing behind the last word' [ -z "$(offered manuscript print ann.ms '')" ]
check 'nothing for a word that is no command' [ -z "$(offered manuscript frob '')" ]
check 'fish is told of each command' [ "$(grep -c use_subcommand bin/completions/manuscript.fish)" = "$(($(offered manuscript '' | wc -w)))" ]
if command -v fish >/dev/null; then check 'fish reads it' fish -n bin/completions/manuscript.fish; fi

# A Debian package.
if command -v dpkg-deb >/dev/null; then
    check 'a Debian package is made' quietly make deb
    package=$(ls dist/*.deb)
    cp "$package" "$work/first.deb"
    mkdir "$work/unpacked"
    dpkg-deb -x "$package" "$work/unpacked"
    check 'it has the program' cmp -s "$work/unpacked/usr/bin/manuscript" bin/manuscript
    check 'as root has it' [ "$(dpkg-deb -c "$package" | awk '$2 != "root/root"' | wc -l)" = 0 ]
    check 'it names the C library' [ "$(dpkg-deb -f "$package" Depends)" = "libc6 (>= $needed)" ]
    check 'it is made again with the same bytes' bash -c "make deb >/dev/null 2>&1 && cmp -s '$package' '$work/first.deb'"
else
    echo 'not tried: a Debian package, since there is no dpkg-deb'
fi

# The manual pages.
cd "$here"
for page in docs/*.1; do
    if command -v mandoc >/dev/null; then
        check "$page is read without a warning" quietly mandoc -T lint -W warning "$page"
    elif command -v groff >/dev/null; then
        check "$page is read without a warning" [ -z "$(groff -ww -mdoc -Tutf8 "$page" 2>&1 >/dev/null)" ]
    fi
    check "$page stands in the list of what is installed" grep -q "^644 $page " release/files.txt
done

# What the program says of itself.
cd "$here"
put nothing
"$program" about <"$work/nothing" >"$work/output" 2>"$work/notes"
check 'the program tells what it is' [ $? = 0 -a ! -s "$work/notes" -a "$(wc -l <"$work/output")" = 3 ]
version=$(sed -n 's/^## \([^ ]*\).*/\1/p' CHANGELOG.md | head -n 1)
check 'and its version' [ "$(head -n 1 "$work/output")" = "manuscript $version, of Petreltombac" ]
check 'and what it was proved with' grep -qF "$(sed -n 's/^proved with //p' "$work/output") " README.md

ended
