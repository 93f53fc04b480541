# Which files the rules of -g choose.

# left_in WORD: the files of the tree t that have this word.
left_in() { grep -rl "$1" t | sort | tr '\n' ' '; }

test_rules() {
  fresh
  mkdir -p t/old t/lib
  put t/{a.c,old/b.c,old/f.h,lib/c.xs,d.def,e.tpl} '#ifdef VMS\nx\n#endif\ny\n'
  run 1 -q -r -UVMS -g '!old' -- t
  says_only
  holds_that same "$(left_in VMS)" 't/d.def t/e.tpl t/old/b.c t/old/f.h '
  run 1 -r -UVMS -g '+*.def' -g '!old' -- t
  says_only '1 changed, 2 unchanged, 0 faulty' '3 lines removed' \
    '0 conditions still name a symbol' '1 file of other names names a symbol, as t/e.tpl'
  prints 't/e.tpl: is not processed, and names a symbol'
  holds_that same "$(left_in VMS)" 't/e.tpl t/old/b.c t/old/f.h '
  run 1 -r -UVMS -g '*.tpl' t
  says_only '1 changed, 0 unchanged, 0 faulty' '3 lines removed' \
    '0 conditions still name a symbol' '2 files of other names name a symbol, as t/old/b.c'
  prints 't/old/b.c: is not processed, and names a symbol
t/old/f.h: is not processed, and names a symbol'
  holds_that same "$(left_in VMS)" 't/old/b.c t/old/f.h '
  run 1 -q -UVMS -g '!b.c' t/old
  holds_that same "$(left_in VMS)" 't/old/b.c '
  run 1 -q -UVMS -g '!old' t/old
  holds_that same "$(left_in VMS)" ''
}

# unmatched RULES STATUS WORD..: a run says of these rules, in this order, that they matched
# nothing.
unmatched() {
  run "${@:2}"
  holds_that same "$(without_match < "$work/err" | tr '\n' ' ')" "$1"
}
without_match() { sed -n 's/^unifdef-tree: -g \(.*\) matched nothing$/\1/p'; }

test_unmatched_rules() {
  fresh
  mkdir -p t/old/sub t/lib
  put t/{a.c,lib/b.c,old/c.c,old/sub/d.c} "$text"
  ln -s a.c t/link
  run 1 -n -DA -g '!thrid' -g '+*.def' -g '!old/' t
  says_only '2 would change, 0 unchanged, 0 faulty' '8 lines removed' \
    "-g '!thrid' matched nothing" "-g '+*.def' matched nothing"
  unmatched '' 1 -DA -q -g '!thrid' t
  put t/{a.c,lib/b.c,old/c.c,old/sub/d.c} "$text"
  # A later rule may decide otherwise.
  unmatched '' 1 -n -DA -g '!a.c' -g '!*.c' -g '+[!x].c' t
  # Rules that choose files, or leave out directories alone.
  unmatched "'+old' 'lib' '!a.c/' '!link/' " \
    1 -n -DA -g '+old' -g lib -g '*.c' -g '!a.c/' -g '!link/' t
  unmatched '' 1 -n -DA -g '!link' -g '+li*' t
  # By the path below the one that was named, unless a directory is left out.
  unmatched "'!t/old' '!sub' " 1 -n -DA -g '!t/old' -g '!old' -g '!sub' t
  unmatched "'!old/c.c' " 1 -n -DA -g '!old/c.c' -g '!sub/d.c' t/old t/lib
  unmatched "'!c.c' " 1 -n -DA -g '!c.c' t/old/c.c
  unmatched "'!it'\\''s' '!a\\x0ab' " 1 -n -DA -g "!it's" -g $'!a\nb' t
  # Not after an error of the walk, nor of paths from the input.
  put t/$'\xff.c' "$text"
  unmatched '' 2 -n -DA -g '!thrid' t
  printf 't/a.c\0' > "$work/list"
  input=$work/list unmatched '' 1 -n -DA -g '!thrid' -0
}

# tells 'FILE ..' STATUS OPTION..: a run lists and counts these files of other names, and changes
# none of them.
tells() {
  local files line=''
  read -ra files <<< "$1"
  case ${#files[@]} in
    0) ;;
    1) line="1 file of other names names a symbol, as ${files[0]}" ;;
    *) line="${#files[@]} files of other names name a symbol, as ${files[0]}" ;;
  esac
  find t -type f ! -name '*.c' -exec cat {} + > "$work/before"
  run "$2" -x2 -r -UA "${@:3}"
  holds_that same "$(sed -n '/ of other names/s/^unifdef-tree: //p' "$work/err")" "$line"
  holds_that same "$(sed -n 's/: is not processed, and names a symbol$//p' "$work/out" | xargs)" "$1"
  find t -type f ! -name '*.c' -exec cat {} + > "$work/after"
  holds_that cmp -s "$work/before" "$work/after"
}

test_other_names() {
  fresh
  mkdir -p t/sub t/old t/.git
  put t/a.c '#ifdef A\n#endif\n'
  tells '' 0 t
  put t/b.x '# ! /bin/sh\n  #\t ifdef A isn'"'"'t /*\n'
  tells t/b.x 0 t
  tells t/b.x 0 -n t
  tells t/b.x 0 -p -B -k -UB t/sub t t/a.c
  tells t/b.x 0 t/a.c t
  # If it is chosen, it has an error: its section doesn't end.
  tells '' 2 t/b.x t
  tells '' 2 -g '+b.x' t
  tells '' 0 -g '!b.*' t
  tells '' 0 -q t
  tells '' 0 -UB -iUC t/a.c
  # The names of others don't count, nor what isn't a condition or has the name in part.
  put t/{.git/c.x,old/c.x} '#if A\n'
  ln -s b.x t/l.x
  cat > t/d.x << 'EOT'
#define A
#else A
#iff A
#if AB || B_A
x #if A
#if B \
 A
EOT
  tells t/b.x 0 -g '!old' t
  # Only files that are text up to byte 8,192 are read.
  { printf '%08191d' 0; printf '\0\n#if A\n'; } > t/e.x
  tells t/b.x 0 -g '!old' t
  { printf '%08192d' 0; printf '\0\n#if A\n'; } > t/e.x
  tells 't/b.x t/e.x' 0 -g '!old' t
  put t/.x '// #if A\n/*\n#elifndef A\n'
  tells 't/.x t/b.x t/e.x' 0 -g '!old' t
  tells 't/.x t/b.x t/e.x t/old/c.x' 0 t
  # Paths of the input have no other names beside them.
  find t -name a.c -print0 > "$work/list"
  input=$work/list tells '' 0 -0
  says '0 conditions still name a symbol'
}

# chooses NAMES WORD..: of a fresh tree with ${files[@]}, a run changes these, in this order.
chooses() {
  local name changed=''
  rm -rf t
  for name in "${files[@]}"; do
    mkdir -p "t/$name"
    rmdir "t/$name"
    put "t/$name" "$text"
  done
  run 1 -q -DA "${@:2}"
  for name in "${files[@]}"; do
    [ "$(cat "t/$name")" != yes ] || changed+="$name "
  done
  holds_that same "$changed" "$1"
}

test_chosen_files() {
  local all='old/a.c lib/old/a.c lib/new/a.c lib/a.c old.c/a.c '
  local files=({a.c,a.x,b.x,S.S,s.s,y.y,l.l,m.m,mm.mm,x.xs,p.pgc,d.def,i.inc,t.trm})
  fresh
  chooses 'a.c S.S y.y l.l m.m mm.mm x.xs p.pgc ' t
  chooses 'a.x b.x ' -g '*.x' t
  chooses 'a.c a.x b.x ' -g '+*.c' -g '*.x' t
  chooses 'b.x ' -g '*.x' -g '!a*' t
  chooses 'a.c a.x ' -g '!*' -g '+a.*' t
  chooses 'a.x ' -g '!a*' -g 'a.x' t
  chooses 'a.c mm.mm x.xs p.pgc ' -g '!?.[!c]' t
  chooses 'a.c ' -g '!*' t/a.c
  files=('!a.c' '+a.c' a.c)
  chooses '!a.c +a.c ' -g '\!a.c' -g '\+a.c' t
  chooses '+a.c a.c ' -g '!\!*' t
  files=(old/a.c lib/old/a.c lib/new/a.c lib/a.c old.c/a.c)
  chooses 'lib/new/a.c lib/a.c old.c/a.c ' -g '!old' t
  chooses 'lib/new/a.c lib/a.c old.c/a.c ' -g '!old' -g '+old' -g '+*' t
  chooses "$all" -g 'a.c' -g '+none' t
  chooses 'lib/old/a.c lib/new/a.c lib/a.c ' -g 'lib/*.c' t
  chooses 'old/a.c lib/new/a.c lib/a.c old.c/a.c ' -g '!lib/old' t
  chooses 'old/a.c lib/old/a.c lib/new/a.c lib/a.c ' -g '!lib/old' t/lib t/old
  chooses "$all" -g '!t/lib' t
  # A slash at the end: directories alone.
  chooses 'lib/new/a.c lib/a.c old.c/a.c ' -g '!old/' t
  chooses 'old/a.c lib/new/a.c lib/a.c old.c/a.c ' -g '!lib/old/' t
  chooses 'old/a.c lib/old/a.c lib/new/a.c lib/a.c ' -g '!*.c/' t
  chooses "$all" -g '!a.c/' t
  chooses "$all" -g '!old//' t
  chooses 'lib/old/a.c ' -g 'old/a.c' -- t/old t/lib t/old.c
  chooses 'lib/new/a.c lib/a.c ' -g '!old/*' -- t/lib/
  find t -name a.c -print0 > "$work/paths"
  input=$work/paths chooses "$all" -g '!*' -0
}
