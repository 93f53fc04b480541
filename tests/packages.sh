#!/usr/bin/env bash
# Installs and uninstalls the programs in directories of its own, and tries packages and tarball.
source "$(dirname "$0")/checks.sh"
text='#ifdef A\nx\n#endif\n'

# works_in WHAT DIRECTORY: checks the installed programs and manuals.
works_in() {
  local manual file=$work/a.c
  printf '%b' "$text" > "$file"
  check "$1: runs" same "$("$2/bin/unifdef" -DA "$file"; echo $?)" $'x\n1'
  check "$1: over a tree" same "$("$2/bin/unifdef-tree" -DA "$file" 2>&1; cat "$file")" \
    $'unifdef-tree: 1 changed, 0 unchanged, 0 faulty\nunifdef-tree: 2 lines removed\nx'
  check "$1: the version" same "$("$2/bin/unifdef-tree" -V)" "unifdef-tree $version"
  check "$1: the version of unifdef2" same "$("$2/bin/unifdef2" -V)" "unifdef2 $version"
  printf '#ifndef A\n#endif\nx\n' > "$file"
  check "$1: for programs that use 2.x" same $'1\nx' \
    "$(PATH="$2/lib/unifdef2:$PATH" unifdef "$file" -o "$file" -DA; echo $?; cat "$file")"
  for manual in "$2"/share/man/man1/unifdef{,-tree,2}.1*; do
    check "$1: ${manual##*/}" shows "$manual"
  done
}

# make_with TARGET WORD..: runs make over what is built.
make_with() { "$make" -s -o unifdef -o unifdef-tree "$@"; }

# Installs into a directory with spaces, and uninstalls.
target="$work/a directory/with spaces" prefix='/opt/my tools'
check install make_with install DESTDIR="$target" PREFIX="$prefix"
works_in install "$target$prefix"
check 'install: files' same "$(cd "$target$prefix" && files_in . -type f)" \
  "$(lines bin/unifdef{,-tree,2} share/bash-completion/completions/unifdef{,-tree,2} \
    share/doc/unifdef/{LICENSE,PROVED.md} share/fish/vendor_completions.d/unifdef{-tree,,2}.fish \
    share/man/man1/unifdef{-tree,,2}.1 share/zsh/site-functions/_unifdef{,-tree,2})"

# A file of somebody else stays, and so does a directory that others use.
documents="$target$prefix/share/doc/unifdef"
touch "$documents/theirs"
check uninstall make_with uninstall DESTDIR="$target" PREFIX="$prefix"
check 'uninstall: files' same "$(files_in "$target" ! -type d)" "$documents/theirs"
rm "$documents/theirs"
check 'uninstall: again' make_with uninstall DESTDIR="$target" PREFIX="$prefix"
check 'uninstall: the directory' test ! -e "$documents"

# What is built is installed without the kit.
absent=no-such-command
check 'install: without the kit' "$make" -s install DESTDIR="$target" PREFIX=/usr RT=$absent
check 'install: the kit that is not there' same $'make: Rattle\'s command no-such-command\ncp -a' \
  "$("$make" -s kit RT=$absent 2>&1 | grep -o "^make: .*$absent\|cp -a")"

# A kit that is named from here, a directory that can't be written, and a machine without /proc.
kit=$work/kit
ln -s "$(type -P true)" "$kit"
named() { "$make" -n -W HANDLES unifdef RT="$1" | sed -n "s/.*RT='\(.*\)' tools.*/\1/p"; }
said_after() { unshare -m sh -c "$1 && cd '$here' && $2" 2>&1 | head -n 1; }
check 'RT by a relative path' same "$(named "$(realpath -s --relative-to=. "$kit")")" "$kit"
if unshare -m true 2> /dev/null; then
  check 'a read-only directory' same "make: $here cannot be written: build in a copy of it" \
    "$(said_after 'mount --bind -o ro . .' "$make -s kit RT=$kit")"
  check 'no /proc' same 'unproved: /proc is not mounted, where the program is found while it runs' \
    "$(said_after 'umount -l /proc' 'tools/unproved.sh unifdef_cli none')"
else
  skip 'a read-only directory, no /proc' 'nothing can be mounted here'
fi

# Under -j, one program is proved after the other.
mkdir -p "$work/alone"/{crates,tools}
cp Makefile HANDLES crates.txt "$work/alone"
printf '#!/bin/sh\necho begins\nsleep 1\necho ends\n' > "$work/alone/tools/prove.py"
chmod +x "$work/alone/tools/prove.py"
check 'make -j8' same $'begins\nends\nbegins\nends' \
  "$("$make" -s -k -j8 -C "$work/alone" unifdef unifdef-tree RT="$kit" 2> /dev/null)"

# Installs before a released program on PATH.
mkdir -p "$work/first/bin" "$work/second"
printf '#!/bin/sh\necho "Version: unifdef-2.10" >&2\n' > "$work/second/unifdef"
chmod +x "$work/second/unifdef"
ln -s "$(command -v grep)" "$work/second/grep"
warned() { PATH=$1 packaging/warn.sh "$work/first/bin" 2>&1 | grep -c 'comes before the released'; }
warned_install() {
  PATH="$work/first/bin:$work/second:$PATH" make_with install PREFIX="$work/first" 2>&1 |
    grep -c "comes before the released $work/second/unifdef"
}
check 'install: warns' same "$(warned_install)" 1
check 'install: warns of one' same "$(warned "$work/first/bin:$work/second")" 1
check 'install: no warning after it' same "$(warned "$work/second:$work/first/bin")" 0
check 'install: no warning elsewhere' same "$(warned "$work/second")" 0

# The tarball has the files that are under version control.
if git rev-parse HEAD > /dev/null 2>&1; then
  unpacked=$work/unifdef-$version
  check dist "$make" -s dist
  check 'dist: unpacks' tar xzf "unifdef-$version.tar.gz" -C "$work"
  check 'dist: files' same "$(cd "$unpacked" && files_in . ! -type d)" \
    "$(git ls-tree -r --name-only HEAD | sort)"
  check 'dist: its version' same "$("$unpacked/packaging/version.sh")" "$version"
  check 'dist: its pages and scripts' "$unpacked/tools/lint.sh"
  check 'dist: make' "$make" -n -C "$unpacked" all install
  git clone -qs . "$work/clone"
  cp packaging/dist.sh "$work/clone/packaging"
  printf '#!/bin/sh\necho 0.9\n' > "$work/clone/packaging/version.sh"
  check 'dist: a version without a commit' same "$("$work/clone/packaging/dist.sh" 2>&1)" \
    "dist: the last commit has the version $version, so commit 0.9 first"
  check 'dist: no tarball then' test ! -e "$work/clone/unifdef-0.9.tar.gz"
elif has git; then
  skip 'the tarball' 'this is no repository'
else
  lacks git 'the tarball'
fi

# What is wrong if there is no tarball: no git, or no repository.
mkdir -p "$work/no git" "$work/no repository"
ln -s "$(type -P dirname)" "$work/no git"
cp -R packaging "$work/no repository"
check 'dist: without git' same "$(PATH="$work/no git" packaging/dist.sh 2>&1; echo $?)" \
  $'dist: git is not there\n1'
check_by git 'dist: without a repository' \
  same "$("$work/no repository/packaging/dist.sh" 2>&1; echo $?)" \
"dist: a tarball is made of a commit, and this directory is not under version control
1"

# The Debian packages.
if makes_packages; then
  new_root
  is_installed() { in_root -s "$1" | grep -qx 'Status: install ok installed'; }
  check 'deb: installs' in_root -i "${packages[@]:0:2}"
  check 'deb: is known' is_installed unifdef-proved
  works_in deb "$root/usr"
  check 'deb: goes away' in_root --purge unifdef-proved unifdef-tree
  check 'deb: leaves nothing' same "$(files_in "$root" ! -type d ! -path "$root/var/*")" ''

  # Beside a package with the name and the files of Debian's unifdef.
  theirs=$work/theirs
  mkdir -p "$theirs/DEBIAN" "$theirs/usr/bin" "$theirs/usr/share/man/man1"
  touch "$theirs/usr/bin/unifdef" "$theirs/usr/share/man/man1/unifdef.1.gz"
  lines 'Package: unifdef' 'Version: 2.12-1' 'Architecture: all' \
    'Maintainer: nobody <nobody@localhost>' 'Description: theirs' > "$theirs/DEBIAN/control"
  check 'deb: theirs' dpkg-deb --root-owner-group --build "$theirs" "$work/theirs.deb"
  check 'deb: beside unifdef' in_root -i "$work/theirs.deb" "${packages[0]}"
  check 'deb: both are there' eval 'is_installed unifdef && is_installed unifdef-tree'
  check 'deb: runs beside unifdef' same "$("$root/usr/bin/unifdef-tree" -V)" "unifdef-tree $version"
  check 'deb: in place of unifdef' in_root -i "${packages[1]}"
  check 'deb: unifdef is away' eval '! is_installed unifdef && is_installed unifdef-proved &&
    is_installed unifdef-tree'
fi
finish
