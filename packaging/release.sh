#!/usr/bin/env bash
# Makes the directory release/ with everything that a release page needs, of the last commit: the
# programs and the library for Linux on x86-64, the Debian packages, the source, what changed, and
# the checksums. The same commit gives the same files, byte by byte. What only a publisher knows and
# hasn't filled in is listed. With --ready, only checks that there can be a release.
set -eu -o pipefail
umask 022
export LC_ALL=C
cd "$(dirname "$0")/.."
version=$(packaging/version.sh --released)
changes=$(git status --porcelain)
if [ -n "$changes" ]; then
  echo 'release: commit first: what is not committed would be in some of the files alone' >&2
  exit 1
fi
dpkg-checkbuilddeps -I

# lacks FILE WORDS WHAT: says what only a publisher knows, if these words still stand in its place.
lacks() { ! grep -qF -e "$2" "$1" || echo "release: $1 has no $3 yet: it has \"$2\"" >&2; }
lacks debian/control '@unifdef.invalid>' 'maintainer'
lacks debian/changelog '@unifdef.invalid>' 'maintainer'
lacks README.md 'No packages are published' 'address of the packages'
lacks README.md "from Rattle's makers" 'address of the kit'
lacks README.md 'where you got this repository' 'address for bugs'
[ "${1:-}" != --ready ] || exit 0
name=unifdef-$version-linux-x86_64
rm -rf release
mkdir release
stage=$(mktemp -d)
trap 'rm -rf "$stage"' EXIT
SOURCE_DATE_EPOCH=$(git log -1 --format=%ct)
export SOURCE_DATE_EPOCH

# What `make install` and `make install-lib` install under /usr/local, as a directory of this name.
# The module for Python is beside the other data, as no version of Python is known.
"${MAKE:-make}" -s -o unifdef -o unifdef-tree -o lib/libunifdef.a install install-lib \
  DESTDIR="$stage/all" PREFIX=/usr/local PYTHONDIR=/usr/local/share/unifdef/python
mv "$stage/all/usr/local" "$stage/$name"
tar --sort=name --owner=0 --group=0 --numeric-owner --mtime="@$SOURCE_DATE_EPOCH" --format=ustar \
  -C "$stage" -cf - "$name" | gzip -9n > "release/$name.tar.gz"

mv "$(packaging/dist.sh)" release
DEBDIR=release debian/rules clean binary
debian/rules clean
awk '/^## / { n++ } n == 1' CHANGELOG.md > release/NOTES.md
(cd release && sha256sum -- * > "$stage/sums" && mv "$stage/sums" SHA256SUMS)
ls release
