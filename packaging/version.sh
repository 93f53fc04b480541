#!/usr/bin/env bash
# Prints the version: the first heading of CHANGELOG.md with a number has it, as "## 1.0-dev". Fails
# if a file or the commit's tag doesn't agree on it. With --released, it also fails if that heading
# isn't one of a release, as "## 1.0 (2026-12-01)".
set -u
cd "$(dirname "$0")/.." || exit 1
result=0

wrong() {
  echo "version: $1" >&2
  result=1
}

# has FILE LINE: checks that a file has a line, however it is indented.
has() { sed 's/^ *//' "$1" | grep -qxF -e "$2" || wrong "$1 has no line $2"; }

read -r _ version date < <(grep -m 1 '^## [0-9]' CHANGELOG.md)
[ -n "${version:-}" ] || { wrong 'CHANGELOG.md has none'; exit 1; }
for manual in docs/*.[13]; do
  has "$manual" ".Os unifdef $version"
done
grep -q "^\*\*Status\*\*: ${version}[,;]" README.md || wrong "README.md has no status $version"
number=${version%-dev}
IFS=. read -r major minor <<< "$number"
has lib/unifdef.h "#define UNIFDEF_VERSION $((major * 10000 + minor * 100))"
has lib/unifdef.h "#define UNIFDEF_VERSION_STRING \"$version\""
has lib/python/unifdef/__init__.py "__version__ = \"$version\""
has crates/unifdef_tree_cli/src/main.rt "const VERSION: &str = \"unifdef-tree $version\";"
has packaging/unifdef2 "echo 'unifdef2 $version'"
# 1.0~dev comes before 1.0.
has debian/changelog "unifdef-proved (${version/-/\~}) unstable; urgency=medium"
code=crates/unifdef_c/src/version.rt
numbers=$(sed -n 's/^pub(crate) const [A-Z]*: u16 = \([0-9]*\);/\1/p' "$code" | paste -sd .)
[ "$numbers" = "$number" ] || wrong "$code has the version $numbers"
# In a tarball there is no commit, and a repository around it has tags of its own.
for tag in $([ ! -e .git ] || git tag --points-at HEAD 2> /dev/null | grep '^v[0-9]'); do
  [ "$tag" = "v$version" ] || wrong "the tag $tag isn't v$version"
done
released='^[0-9.]+ \([0-9]{4}-[0-9]{2}-[0-9]{2}\)$'
if [ "${1:-}" = --released ] && [[ ! "$version $date" =~ $released ]]; then
  wrong "$version isn't released yet: the heading in CHANGELOG.md is to be as 1.0 (2026-12-01)"
fi
echo "$version"
exit "$result"
