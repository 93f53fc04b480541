#!/bin/sh
# Makes unifdef-VERSION.tar.gz of the last commit: a directory that builds by itself.
set -eu
cd "$(dirname "$0")/.."
fail() { echo "dist: $1" >&2; exit 1; }
command -v git > /dev/null || fail 'git is not there'
[ -e .git ] ||
  fail 'a tarball is made of a commit, and this directory is not under version control'
version=$(packaging/version.sh)
committed=$(git show HEAD:CHANGELOG.md | sed -n 's/^## \([0-9][^ ]*\).*/\1/p' | head -n 1)
[ "$committed" = "$version" ] ||
  fail "the last commit has the version $committed, so commit $version first"
[ -z "$(git status --porcelain)" ] || echo 'dist: changes that are not committed are left out' >&2
work=$(mktemp -d)
trap 'rm -rf "$work"' EXIT
git archive --format=tar --prefix="unifdef-$version/" --output="$work/tar" HEAD
gzip -9n < "$work/tar" > "$work/gz"
cat "$work/gz" > "unifdef-$version.tar.gz"
echo "unifdef-$version.tar.gz"
