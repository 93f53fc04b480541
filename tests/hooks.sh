#!/usr/bin/env bash
# Runs the hooks of .pre-commit-hooks.yaml as pre-commit does: their entry, the options of a user,
# and then names of files. Their expression for these names must be the default patterns.
source "$(dirname "$0")/checks.sh"
needs ./unifdef-tree
mkdir "$work/bin" "$work/src" "$work/names"
ln -s "$here/unifdef-tree" "$work/bin"
export PATH=$work/bin:$PATH
cd "$work/src" || exit 1

# field ID FIELD: prints a field of a hook.
field() {
  awk -v id="$1" -v field="$2:" '$1 == "-" { it = $3 }
    it == id && $1 == field { sub(/^[^:]*: */, ""); print }' "$here/.pre-commit-hooks.yaml"
}

# gives ID STATUS OUTPUT TEXT: runs a hook with -UVMS on two files, one of them with this text.
gives() {
  local words
  printf '%b' "$4" > a.c
  printf 'int b;\n' > b.h
  read -ra words <<< "$(field "$1" entry)"
  [ "$(field "$1" language)" != script ] || words[0]=$here/${words[0]}
  check "$1 on $4" same "$("${words[@]}" -UVMS -- a.c b.h 2>&1; echo "status $?")" "$3status $2"
}

fault=$'unifdef: a.c: 1: Inappropriate #endif\n'
gives unifdef-tree 0 '' 'int a; // VMS\n'
gives unifdef-tree 1 '' '#ifdef VMS\nx\n#endif\ny\n'
check 'unifdef-tree changes a file' same "$(cat a.c)" y
gives unifdef-tree 2 "$fault" '#endif\n'
gives unifdef-gone 0 '' 'int a; // VMS\n#ifdef X\n#endif\n'
gives unifdef-gone 1 $'a.c:1: #if VMS || X\n' '#if VMS || X\n#endif\n'
gives unifdef-gone 1 $'--- a.c\n+++ a.c\n@@ -1,2 +0,0 @@\n-#ifdef VMS\n-#endif\n' \
  '#ifdef VMS\n#endif\n'
check 'unifdef-gone changes nothing' same "$(cat a.c)" $'#ifdef VMS\n#endif'
gives unifdef-gone 1 "$fault" '#endif\n'

# The expression of the program's default patterns, which must choose the files that it does.
wanted=$(sed -n '/USUAL: /,/^];/s/^ *b"\*\.\(.*\)",$/\1/p' "$here/crates/ud_tree/src/patterns.rt" |
  sed 's/[.+]/\\&/g' | paste -s -d '|')
for it in a.c a.h A.C A.H a.cc B.CC b.cpp B.CPP b.c++ b.h++ b.hxx b.inl b.tcc b.c.in b.hpp.in \
  b.hxx.in b.in x.ino x.mm x.m y.y .c c; do
  printf '#ifdef VMS\n#endif\n' > "$work/names/$it"
done
cd "$work/names" || exit 1
chosen=$(unifdef-tree -n -q -UVMS -- . | sed -n 's/^--- //p' | sort)
for id in unifdef-tree unifdef-gone; do
  expression=$(field "$id" files | tr -d "'")
  check "$id: files" same "$expression" "\\.($wanted)\$"
  found=$(find . -type f -printf '%f\n' | grep -E -e "$expression" | sort)
  check "$id: chosen files" same "$found" "$chosen"
done
finish
