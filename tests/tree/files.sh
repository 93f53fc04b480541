# Modes, links, owners and left-over files, and files that can't be read, written or replaced.

test_keeps() {
  local before one
  fresh src/mode.c src/one.c outside.c elsewhere.c
  chmod 754 src/mode.c
  put src/same.c 'int a;\n'
  touch -d '2001-01-01' src/same.c
  ln src/one.c src/two.c
  ln outside.c src/three.c
  ln -s one.c src/symbolic.c
  ln -s ../elsewhere.c src/outside.c
  ln -s nowhere src/dangling.c
  ln -s ../directory src/linked
  mkdir directory
  put directory/f.c "$text"
  before=$(stat -c '%i %y' src/same.c)
  one=$(number src/one.c)
  after '1 -n -w -DA -- src src/one.c ./src/mode.c' says '3 would change, 1 unchanged, 0 faulty'
  after '2 -DA -- src/one.c src/three.c' says 'src/one.c: Has several links; -w writes into it'
  is src/one.c "$text"
  after '1 -DA -w -- src src/one.c ./src/mode.c' says '3 changed, 1 unchanged, 0 faulty'
  holds_that same "$(stat -c %a src/mode.c)" 754
  holds_that same "$(stat -c '%i %y' src/same.c)" "$before"
  holds_that same "$(number src/one.c) $(number src/two.c)" "$one $one"
  is src/mode.c src/two.c outside.c 'yes\n'
  holds_that same "$(readlink src/{symbolic,outside,dangling}.c)" $'one.c\n../elsewhere.c\nnowhere'
  is elsewhere.c directory/f.c "$text"
  none_left
  after '1 -DA -- src/linked' is directory/f.c 'yes\n'
  after '2 -DA -- src/outside.c' says_first 'src/outside.c: Is a symbolic link'
  put src/one.c "$text"
  after '1 -c -DA -w -- src/one.c src ./src' is src/two.c '#ifdef A\n#else\nno\n#endif\n'
}

# -n reports the links that a run reports.
test_links() {
  fresh src/a.c
  put src/same.c 'int a;\n'
  ln src/a.c src/b.c
  ln src/same.c src/same2.c
  after '2 -n -DA src' says 'src/a.c: Has several links; -w writes into it'
  prints ''
  cp "$work/err" "$work/shown"
  run 2 -DA src
  holds_that same "$(sed 's/would change/changed/' "$work/shown")" "$(cat "$work/err")"
  after '1 -n -w -DA src' prints 1 grep -c '^-#ifdef'
}

# Files that can't be read or written, and those of another owner.
test_refusals() {
  local as=as_nobody
  is_root || as=run
  fresh src/unreadable.c src/locked.c
  mkdir src/sealed src/closed
  put src/{sealed,closed}/a.c "$text"
  ! is_root || chown -R 65534:65534 .
  chmod 0 src/unreadable.c src/closed
  chmod 444 src/locked.c
  chmod 555 src/sealed
  $as 2 -DA src
  says '0 changed, 0 unchanged, 4 faulty' 'src/locked.c: Cannot be written: Permission denied' \
    "src/sealed/a.c: Its directory can't be written; -w writes into the file" \
    'src/closed/: Cannot be read: Permission denied' \
    'src/unreadable.c: Cannot be read: Permission denied'
  is src/locked.c src/sealed/a.c "$text"
  $as 2 -DA src/closed
  says_only 'src/closed/: Cannot be read: Permission denied'
  $as 1 -w -DA src/sealed
  is src/sealed/a.c 'yes\n'
  chmod 755 src/sealed src/closed
  chmod 644 src/unreadable.c
  for_root 'owners that stay' || return 0
  fresh src/a.c
  chmod 640 src/a.c
  chown 65534:65533 src/a.c
  run 1 -DA src
  holds_that same "$(stat -c '%u:%g %a' src/a.c)" '65534:65533 640'
  is src/a.c 'yes\n'
}

# Rights to run as the owner go if the owner is another one.
test_setuid() {
  for_root 'rights to run as the owner' || return 0
  fresh src/a.c
  chmod 6777 src/a.c
  chown 65534 src
  as_nobody 1 -DA src
  holds_that same "$(stat -c '%u %a' src/a.c)" '65534 777'
}

# The name that locks a second run out. A file that a killed run left is removed.
test_locks() {
  local kind long taken='src/a.c: Another run is at it; if none is, remove src/.unifdef-tree.a.c'
  fresh src/a.c
  put src/.unifdef-tree.a.c 'left\n'
  under 2 flock src/.unifdef-tree.a.c -- -DA src
  says "$taken"
  is src/a.c "$text" and src/.unifdef-tree.a.c 'left\n'
  after '1 -n -DA src' is src/.unifdef-tree.a.c 'left\n'
  ln src/.unifdef-tree.a.c linked
  after '1 -DA src' says_only '1 changed, 0 unchanged, 0 faulty' '4 lines removed'
  is src/a.c 'yes\n' and linked 'left\n'
  none_left
  for kind in 'ln -s ../mine' mkfifo mkdir; do
    fresh src/a.c
    put mine 'mine\n'
    $kind src/.unifdef-tree.a.c
    after '2 -DA src' says "$taken"
    holds_that same "$(find src -mindepth 1 | wc -l)" 2
    is mine 'mine\n'
    rm -r src/.unifdef-tree.a.c
  done
  long=src/$(repeat 0 253).c
  put "$long" "$text"
  after '1 -DA src' is src/a.c "$long" 'yes\n'
  none_left
  fresh src/a.c src/.unifdef-tree.other.c
  run 1 -g '*' -DA src
  is src/.unifdef-tree.other.c "$text" and src/a.c 'yes\n'
}

# Files over which none is renamed: a mounted one, and others' in a directory with the sticky bit.
test_unrenamed() {
  for_root 'files that cannot be renamed' || return 0
  fresh src/a.c
  put "$work/over" "$text"
  if mount --bind "$work/over" src/a.c 2> /dev/null; then
    run 2 -DA src
    says 'src/a.c: Cannot be replaced; -w writes into it: Device or resource busy'
    none_left
    after '1 -w -DA src' is "$work/over" 'yes\n'
    umount src/a.c
  else
    skip 'a mounted file' 'no file can be mounted here'
  fi
  fresh src/a.c
  chmod 666 src/a.c
  chmod 1777 src
  as_nobody 2 -DA src
  says 'src/a.c: Cannot be replaced; -w writes into it: Operation not permitted'
  is src/a.c "$text"
  as_nobody 1 -w -DA src
  is src/a.c 'yes\n'
}

# The files of a lower layer, which are copied when they are opened for writing.
test_overlay() {
  local layers=$work/layers
  for_root 'overlays' || return 0
  mkdir -p "$layers"
  mount -t tmpfs none "$layers" 2> /dev/null ||
    { skip overlays 'nothing can be mounted here'; return; }
  mkdir "$layers/lower" "$layers/upper" "$layers/work"
  put "$layers"/lower/{a,b,c}.c "$text"
  fresh
  if mount -t overlay overlay -o \
    "lowerdir=$layers/lower,upperdir=$layers/upper,workdir=$layers/work" src 2> /dev/null; then
    after '1 -DA src' says '3 changed, 0 unchanged, 0 faulty'
    is "$layers/lower/a.c" "$text"
    umount src
  else
    skip overlays 'none can be mounted here'
  fi
  umount "$layers"
}

# Files of one number and one birth are two files if they are on two devices: an image and its copy.
test_devices() {
  local image=$work/image what='a file system and its copy'
  for_root "$what" || return 0
  has mkfs.ext3 || { lacks mkfs.ext3 "$what"; return 0; }
  fresh
  mkdir -p "$work/small" "$work/layers"
  truncate -s 4M "$image"
  mkfs.ext3 -q "$image" 2> /dev/null
  mount -o loop "$image" "$work/small" 2> /dev/null ||
    { skip "$what" 'none can be mounted here'; return; }
  put "$work/small/a.c" "$text"
  umount "$work/small"
  cp "$image" "$image.copy"
  mount -o loop "$image" "$work/small"
  mount -o loop "$image.copy" "$work/layers"
  holds_that same "$(stat -c '%i %W' "$work/small/a.c")" "$(stat -c '%i %W' "$work/layers/a.c")"
  after '1 -DA ../small ../layers' says_only '2 changed, 0 unchanged, 0 faulty' '8 lines removed'
  is "$work"/{small,layers}/a.c 'yes\n'
  umount "$work/small" "$work/layers"
  rm "$image" "$image.copy"
}

# A run in place over real headers is like unifdef on each file.
test_real_headers() {
  local name changed=0 wanted=1
  [ -d /usr/include/linux ] || { lacks linux-libc-dev 'real headers'; return 0; }
  fresh
  cp -rL /usr/include/linux src
  cp -r src wanted
  while IFS= read -r name; do
    "$UNIFDEF" -D__KERNEL__ -U__cplusplus "$name" > "$work/output" 2> /dev/null
    case $? in
      1)
        changed=$((changed + 1))
        cp "$work/output" "$name"
        ;;
      2) wanted=2 ;;
    esac
  done < <(find wanted -type f)
  run "$wanted" -q -g '*' -D__KERNEL__ -U__cplusplus -- src
  holds_that diff -r wanted src
  holds_that test "$changed" -gt 0
}
