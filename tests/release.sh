#!/usr/bin/env bash
# Makes the files of a release in two clones of the last commit, and runs what is in the tarball of
# the programs. The heading of CHANGELOG.md has a date there.
#
# The clones get what is built here. The second one has another path, umask and time zone.
source "$(dirname "$0")/checks.sh"
needs git dh lib/libunifdef.a
[ -e .git ] || { skip all 'this is no repository'; exit; }
[ -z "$(git status --porcelain)" ] || skip 'what is not committed' 'a release is of a commit'
text=$'#ifdef A\nx\n#endif'
first=$work/first second="$work/another directory/second"

# clone_to DIRECTORY FROM: clones the last commit, with what is built here.
clone_to() {
  git clone -qs "$2" "$1" && cp -p unifdef unifdef-tree "$1" && cp -Pp lib/libunifdef.* "$1/lib"
}

# head_with HEADING: makes a commit in the first clone, with this heading of CHANGELOG.md.
head_with() {
  sed -i "0,/^## [0-9]/s/^## [0-9].*/## $1/" "$first/CHANGELOG.md"
  git -C "$first" -c user.name=They -c user.email=they@localhost commit -qa --allow-empty -m it
}

# version_is VERSION: gives all other files in the first clone this version.
version_is() {
  (cd "$first" && git grep -lF -e "$version" README.md docs lib packaging crates/unifdef_tree_cli |
    xargs sed -i "s/${version//./\\.}/$1/" && sed -i "1s/(.*)/($1)/" debian/changelog)
}

# ready: tries whether there can be a release.
ready() {
  head_with "$released (2026-12-01)"
  "$first/packaging/release.sh" --ready 2>&1
}

# publish: fills in what only a publisher knows, each in its place.
publish() {
  sed -i 's/@unifdef\.invalid>/@localhost>/' "$first"/debian/{control,changelog}
  sed -i "s/No packages are published/Packages are at localhost/; s/from Rattle's makers/localhost/
    s/where you got this repository/at localhost/" "$first/README.md"
}

# refuses HEADING: there must be no release with this heading, and nothing is proved for one.
refuses() {
  local says="version: ${1%% *} isn't released yet: the heading in CHANGELOG.md is to be as 1.0"
  head_with "$1"
  check "$1" grep -qxF "$says (2026-12-01)" <<< "$("$first/packaging/release.sh" 2>&1)"
  check "$1: no directory" test ! -e "$first/release"
  check "$1: nothing is proved" same 0 \
    "$("$make" -s -j8 -C "$first" release RT=no-such-command 2>&1 | grep -c no-such-command)"
}

# make_elsewhere DIRECTORY: makes the release in a clone, for another user and another time zone.
make_elsewhere() { (umask 077 && TZ=Asia/Tokyo "$1/packaging/release.sh"); }

check 'a clone' clone_to "$first" .
released=${version%-dev}
refuses "$released-dev (2026-12-01)"
check 'a release in all files' version_is "$released"
refuses "$released (not released yet)"
check 'what only a publisher knows' same "$(ready)" "$(lines \
  'release: debian/control has no maintainer yet: it has "@unifdef.invalid>"' \
  'release: debian/changelog has no maintainer yet: it has "@unifdef.invalid>"' \
  'release: README.md has no address of the packages yet: it has "No packages are published"' \
  "release: README.md has no address of the kit yet: it has \"from Rattle's makers\"" \
  'release: README.md has no address for bugs yet: it has "where you got this repository"')"
publish
check 'all is filled in' same "$(ready; echo $?)" 0
check 'release' "$first/packaging/release.sh"
check 'another clone' clone_to "$second" "$first"
check 'release elsewhere' make_elsewhere "$second"
check 'the same files' diff -r "$first/release" "$second/release"
cd "$first/release" || exit 1
check 'files' same "$(ls)" \
  "$(lines NOTES.md SHA256SUMS libunifdef{-dev,1}"_${released}_amd64.deb" \
    "python3-unifdef_${released}_all.deb" unifdef-"$released"{-linux-x86_64,}.tar.gz \
    unifdef-{proved,tree}"_${released}_amd64.deb")"
check 'checksums' sha256sum --quiet -c SHA256SUMS
check 'checksums of all' same "$(wc -l < SHA256SUMS)" 8
check 'what changed' same "$(grep '^## ' NOTES.md)" "## $released (2026-12-01)"
echo '//' >> "$second/lib/unifdef.h"
check 'a change that is not committed' same "$("$second/packaging/release.sh" 2>&1; echo $?)" \
"release: commit first: what is not committed would be in some of the files alone
1"

directory=$work/unpacked/unifdef-$released-linux-x86_64
mkdir "$work/unpacked"
check 'unpacks' tar -C "$work/unpacked" -xzf "unifdef-$released-linux-x86_64.tar.gz"
echo "$text" > "$work/a.c"
check 'unifdef' same "$("$directory/bin/unifdef" -DA "$work/a.c"; echo $?)" $'x\n1'
check 'unifdef-tree' same "$("$directory/bin/unifdef-tree" -q -DA "$work/a.c"; cat "$work/a.c")" x
check 'Python' same "$released" "$(PYTHONPATH=$directory/share/unifdef/python \
  LD_LIBRARY_PATH=$directory/lib python3 -Bc \
  'import unifdef; print(*unifdef.version(), sep=".")')"

# built WORD..: builds a C program by these words, and runs it.
built() {
  "${cc[@]}" -o "$work/filter" "$first/lib/examples/filter.c" "$@" &&
    same "$(LD_LIBRARY_PATH=$directory/lib "$work/filter" -DA <<< "$text")" x
}
check 'C, with the archive' built -I "$directory/include" "$directory/lib/libunifdef.a"
if has pkg-config; then
  export PKG_CONFIG_PATH=$directory/lib/pkgconfig
  read -ra flags <<< "$(pkg-config --define-prefix --cflags --libs unifdef)"
  check 'C, by pkg-config' same "${flags[*]}" "-I$directory/include -L$directory/lib -lunifdef"
  check 'C, with the shared library' built "${flags[@]}"
else
  lacks pkg-config unifdef.pc
fi
finish
