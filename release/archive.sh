#!/usr/bin/env bash
# Makes the archive for those who have no toolchain, dist/petreltombac-VERSION.tar.gz: the program, its scripts, manual
# pages and completions as they are installed, the documents, the samples and checksums. The same sources make the same
# bytes. A link of a document that leads to a file that is not in the archive becomes plain text.
#
#     release/archive.sh VERSION
set -euo pipefail
cd "$(dirname "$0")/.."
name=petreltombac-${1:?a version}
top=dist/$name

rm -rf "$top"
release/install.sh "$top"
install -D -m 644 -t "$top" README.md CHANGELOG.md LICENSE
install -D -m 644 -t "$top/docs" docs/*.md docs/*.png
install -D -m 644 -t "$top/desk" desk/README.md
install -D -m 755 -t "$top/examples" examples/reader.py examples/page.py
while IFS= read -r sample; do
    install -D -m 644 "$sample" "$top/$sample"
done < <(find samples -type f)

cat >"$top/INSTALL" <<TEXT
The program bin/manuscript runs on Linux on x86-64 processors with SSE4.2, and
needs the GNU C library $(release/needs.sh bin/manuscript) or newer (ldd --version tells which there is).
The scripts beside it need sh and the usual tools; those in examples need
Python 3.10 or newer.

It runs from where it is unpacked. To install it, copy the folders bin and
share into a folder such as ~/.local:

    cp -r bin share ~/.local/

To see that all came whole:

    sha256sum -c SHA256SUMS

Begin with docs/GUIDE.md.
TEXT

# Makes links that lead nowhere in the archive plain text.
while IFS= read -r page; do
    folder=$(dirname "$page")
    while IFS= read -r target; do
        [ -n "$target" ] && [ ! -e "$folder/${target%%#*}" ] || continue
        quoted=$(printf '%s' "$target" | sed 's/[].[*^$|\\]/\\&/g')
        sed -i "s|\[\([^]]*\)\]($quoted)|\1|g" "$page"
    done < <(grep -o '](\([^)#][^):]*\))' "$page" | sed 's/^](//; s/)$//' | sort -u)
done < <(find "$top" -name '*.md')

cd "$top"
find . -type f | sed 's|^\./||' | LC_ALL=C sort | xargs -d '\n' sha256sum >../SHA256SUMS
mv ../SHA256SUMS .
cd ..
tar --sort=name --mtime=@0 --owner=0 --group=0 --numeric-owner --mode=go=rX,u+rw -c "$name" | gzip -n -9 >"$name.tar.gz"
rm -r "$name"
sha256sum "$name.tar.gz"
