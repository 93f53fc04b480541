# Which calls a run makes, and what it leaves if one of them fails or if it is killed there.

# What strace ends with if its process is killed: 128 and the number of the signal KILL.
killed=137

# named PATTERN: prints the names of the calls in $work/calls that a pattern of sed finds.
named() { sed -n "s/^[0-9]* *\\($1\\).*/\\1/p" "$work/calls" | tr '\n' ' '; }

# Each file is old or new after a kill at a call about the tree, and a second run does the rest.
test_kills() {
  local calls it
  anew traced 2 all -DA src
  mapfile -t calls < <(sed -n 's/^[0-9]* *\([a-z_0-9]*\)(\(.*\)/\1 \2/p' "$work/calls" | awk '
    { count[$1]++ }
    /AT_FDCWD, "src"/ { begun = 1 }
    begun && !/^exit/ { print $1, count[$1] }')
  for it in "${calls[@]}"; do
    anew injected "$killed" "${it% *}:signal=KILL:when=${it#* }" -DA src
    each_old_or_new
    is src/bad.c '#endif\n'
    after '2 -DA src' none_left
    is src/a.c src/directory/b.c 'yes\n'
    holds_that grep -q ', 1 faulty$' "$work/err"
  done
  holds_that test "${#calls[@]}" -gt 40
}

test_signals() {
  local signal number
  while read -r signal number; do
    anew injected $((128 + number)) "rename:signal=$signal:when=1" -DA src
    is src/a.c 'yes\n' and src/directory/b.c "$text"
  done <<< $'HUP 1\nINT 2\nTERM 15'
}

# Each file is old or new if such a call fails, in a tree without another error. The status is 1
# only if both are new.
test_failing_calls() {
  local call errors error i first count
  while read -r call errors; do
    anew rm src/bad.c
    traced 1 all -DA src
    first=$(awk -v call="$call(" '{ count += index($0, call) > 0 }
      /AT_FDCWD, "src"/ { print count + (index($0, call) == 0); exit }' "$work/calls")
    count=$(grep -c " $call(" "$work/calls")
    for error in $errors; do
      for i in $(seq "$first" "$count"); do
        anew rm src/bad.c
        injected "$whole_or_failed" "$call:error=$error:when=$i" -DA src
        each_old_or_new
        [ "$status" -eq 2 ] || is src/a.c src/directory/b.c 'yes\n'
      done
    done
  done << 'EOT'
openat EACCES EMFILE EIO
read EIO ENOMEM
write EIO ENOSPC
close EIO EDQUOT
getdents64 EIO
fchmod EPERM EIO
fsync EIO ENOSPC EDQUOT
rename EPERM EBUSY EXDEV EIO
EOT
}

# The bytes of the new file are on the disk before it takes the place of the old one.
test_syncs() {
  anew traced 2 fsync,rename -DA src
  holds_that same "$(named 'fsync\|rename')" 'fsync rename fsync rename '
  anew injected 2 fsync:error=EIO:when=1 -DA src
  says 'src/a.c: Cannot be written: Input/output error'
  is src/a.c "$text" and src/directory/b.c 'yes\n'
  none_left
  anew injected 2 fsync:error=EDQUOT -DA src
  says 'src/a.c: Cannot be written: Disk quota exceeded' \
    'src/directory/b.c: Cannot be written: Disk quota exceeded'
  is src/a.c src/directory/b.c "$text"
  none_left
  anew ln src/a.c linked.c
  injected 2 fsync:error=EIO:when=1 -w -DA src
  is src/a.c "$text"
}

# A write into a file that fails has a message, also if the file was to be empty. Then the old text is
# written into it, or that fails too.
test_half_written() {
  local left='#ifdef A\nno\n#endif\n'
  alone src/a.c "$left"
  ln src/a.c linked.txt
  injected 2 ftruncate:error=EIO:when=1 -w -UA src
  says_first 'src/a.c: Cannot be written: Input/output error'
  is src/a.c "$left"
  injected 2 fsync:error=EIO -w -DA src
  says_first 'src/a.c: Half written: Input/output error'
}

# A diff of -d is on the disk before the next file is changed, if it goes to a file.
test_synced_diffs() {
  anew traced 2 write,fdatasync,rename -q -d -DA src
  holds_that same "$(named 'write(1\|fdatasync\|rename')" \
    'rename write(1 fdatasync rename write(1 fdatasync '
  small_tree
  exits 2 strace -f -o "$work/calls" -e trace=fdatasync "$TREE" -q -d -DA src \
    > >(cat > /dev/null) 2> "$work/err"
  holds_that same "$(grep -c fdatasync "$work/calls")" 0
  anew injected 2 fdatasync:error=EIO:when=1 -q -d -DA src
  says 'stdout: Cannot be written'
  is src/a.c 'yes\n' and src/directory/b.c "$text"
}

# No file is read for -n once its diffs can't be written.
test_stops_showing() {
  [ -w /dev/full ] || { skip 'a full output' '/dev/full is not there'; return 0; }
  small_tree
  exits 2 strace -f -o "$work/calls" -e trace=openat "$TREE" -n -DA src \
    > /dev/full 2> "$work/err"
  says_only 'stdout: Cannot be written' '1 would change, 0 unchanged, 1 faulty' '4 lines removed'
  holds_that same "$(grep -c '/a.c"' "$work/calls")" 1
  holds_that same "$(grep -c '/b.c"' "$work/calls")" 0
}

# Nor is one of another name then read for -r. Else its first bytes tell whether more is read.
test_searches() {
  small_tree
  put src/b.x "$text"
  truncate -s 1M src/image.x
  traced 2 openat,read -n -r -UA src
  holds_that same "$(grep -c '/b.x"' "$work/calls")" 1
  holds_that same "$(grep -A 2 '/image.x"' "$work/calls" | grep -c 'read(.* = 8192$')" 1
  holds_that same "$(grep -c ' = 1048576$' "$work/calls")" 0
  [ -w /dev/full ] || return 0
  exits 2 strace -f -o "$work/calls" -e trace=openat "$TREE" -n -r -UA src \
    > /dev/full 2> "$work/err"
  says_only 'stdout: Cannot be written' '1 would change, 0 unchanged, 1 faulty' '4 lines removed' \
    '0 conditions still name a symbol'
  holds_that same "$(grep -c '[.]x"' "$work/calls")" 0
}

# A new file is its user's alone until it gets its mode. No mode or owner is set by a name.
test_modes() {
  anew chmod 644 src/a.c
  injected "$killed" fchmod:signal=KILL:when=1 -DA src
  holds_that same "$(stat -c %a src/.unifdef-tree.a.c)" 600
  anew chmod 600 src/a.c
  traced 1 fchmod -DA src/a.c
  holds_that same "$(grep -c 'fchmod(' "$work/calls")" 0
  anew chmod 754 src/a.c
  traced 2 chown,lchown,fchownat,chmod,fchmodat,fchmod -DA src
  holds_that same "$(grep -cE 'chown\(|chmod\(|at\(' "$work/calls")" \
    "$(grep -c 'fchmod(' "$work/calls")"
  holds_that same "$(stat -c %a src/a.c)" 754
}

# Only the user's rights excuse an owner or a group that isn't set.
test_owners() {
  local error
  for_root 'owners that cannot be set' || return 0
  for error in EDQUOT EIO EROFS; do
    anew chown 65534:65534 src/a.c
    injected 2 "fchown:error=$error" -DA src/a.c
    holds_that grep -q '^unifdef-tree: src/a.c: Cannot be written: ' "$work/err"
    is src/a.c "$text"
    holds_that same "$(stat -c %u src/a.c)" 65534
    none_left
  done
  for error in EPERM EINVAL EOPNOTSUPP ENOSYS; do
    anew chown 65534:65534 src/a.c
    chmod 4755 src/a.c
    injected 1 "fchown:error=$error" -DA src/a.c
    holds_that same "$(stat -c '%a %u' src/a.c)" '755 0'
  done
}
