#!/usr/bin/env bash
# Makes a Debian package of what is installed, dist/petreltombac_VERSION_amd64.deb. It needs dpkg-deb. The same sources
# make the same bytes.
#
#     release/deb.sh VERSION
set -euo pipefail
cd "$(dirname "$0")/.."
version=${1:?a version}
command -v dpkg-deb >/dev/null || {
    echo 'there is no dpkg-deb' >&2
    exit 1
}
mkdir -p dist
top=$(mktemp -d)
trap 'rm -rf "$top"' EXIT
chmod 755 "$top"
release/install.sh "$top/usr"
install -D -m 644 LICENSE "$top/usr/share/doc/petreltombac/copyright"
install -D -m 644 -t "$top/usr/share/doc/petreltombac" CHANGELOG.md docs/GUIDE.md docs/FORMATS.md docs/WHY.md
gzip -n -9 "$top"/usr/share/man/man1/*.1 "$top/usr/share/doc/petreltombac/CHANGELOG.md"
mkdir "$top/DEBIAN"
cat >"$top/DEBIAN/control" <<CONTROL
Package: petreltombac
Version: $version
Architecture: amd64
Maintainer: the authors of Petreltombac <petreltombac@localhost>
Section: editors
Priority: optional
Depends: libc6 (>= $(release/needs.sh bin/manuscript))
Suggests: git, python3 (>= 3.10)
Installed-Size: $(du -sk --apparent-size "$top/usr" | cut -f 1)
Description: offline editor for a manuscript of several authors
 Two or three people write one book, each on a computer of their own. When they
 exchange files, their texts become one: nobody has to resolve a conflict, and
 what two of them wrote at the same place stays whole. The program is proved to
 do what its specification says.
CONTROL
find "$top" -exec touch -h -d @0 {} +
SOURCE_DATE_EPOCH=0 dpkg-deb --root-owner-group --build "$top" "dist/petreltombac_${version}_amd64.deb"
