# Files and directories that another program changes while a run is at them.

# paused STATUS OPTIONS CALL N COMMAND..: runs a command while a run waits after its Nth CALL. If no
# N was found, that fails: strace would refuse it, and nothing would write the trace.
paused() {
  local pid line tracer
  holds_that test -n "$4"
  [ -n "$4" ] || return 0
  read -ra ran <<< "$TREE $2 src"
  rm -f "$work/trace"
  mkfifo "$work/trace"
  strace -f -o "$work/trace" -e trace="$3" -e inject="$3:signal=STOP:when=$4" \
    "$TREE" $2 src > "$work/out" 2> "$work/err" &
  tracer=$!
  exec 6< "$work/trace"
  while read -r pid line <&6; do
    [[ $line != *'stopped by SIGSTOP'* ]] || break
  done
  "${@:5}"
  kill -s CONT "$pid"
  cat <&6 > /dev/null
  exec 6<&-
  status=0
  wait "$tracer" || status=$?
  ends "$1"
}

# number_of CALL PATTERN: the number of the first call with it in $work/calls. last_of: the last's.
number_of() { grep "$1(" "$work/calls" | grep -n -m 1 -e "$2" | cut -d : -f 1; }
last_of() { grep "$1(" "$work/calls" | grep -n -e "$2" | tail -n 1 | cut -d : -f 1; }

# meanwhile STATUS ..: the same, of which the message says that src/a.c changed.
meanwhile() {
  small_tree
  paused "$@"
  says 'src/a.c: Changed meanwhile'
}

# with_outside: makes a small tree, and a directory outside with a file of the same name.
with_outside() {
  small_tree
  mkdir outside
  put outside/b.c "$text"
}

# What another program does.
put_link() {
  mv "$1" "$work/moved"
  ln -s "$work/victim" "$1"
}
move_directory() {
  mv src/directory was
  ln -s ../outside src/directory
}
put_pipe() {
  rm src/directory/b.c
  mkfifo src/directory/b.c
}
edit() { printf '#ifdef B' | dd of=src/a.c conv=notrunc status=none; }
edit_in_secret() {
  touch -r src/a.c "$work/time"
  edit
  touch -r "$work/time" src/a.c
}
other_run() {
  "$TREE" -q -UA src 2> "$work/other"
  holds_that same "$?" 2
}
other_writer() {
  "$TREE" -q -w -DB src 2> "$work/other"
  holds_that same "$?" 2
}
edited='#ifdef B\nyes\n#else\nno\n#endif\n'

# A file that changes between read and rename, and two runs at once.
test_meanwhile() {
  meanwhile 2 -DA fchmod 1 put src/a.c 'mine\n'
  is src/a.c 'mine\n' and src/directory/b.c 'yes\n'
  none_left
  anew paused 2 -DA fchmod 1 rm src/a.c
  holds_that same "$(ls src)" $'bad.c\ndirectory\nsame.c'
  anew paused 2 -DA fchmod 1 other_run
  holds_that grep -qxF "unifdef-tree: src/a.c: Another run is at it; if none is, remove\
 src/.unifdef-tree.a.c" "$work/other"
  is src/a.c 'yes\n'
  none_left
}

# A changed file is left alone even if its size and times are the old ones. New times are no change.
test_compares_bytes() {
  meanwhile 2 -DA fsync 1 edit_in_secret
  is src/a.c "$edited"
  anew paused 2 -DA fsync 1 touch src/a.c
  is src/a.c 'yes\n'
  meanwhile 2 -DA fsync 1 chmod 600 src/a.c
  holds_that same "$(stat -c %a src/a.c)" 600
}

# A change after the second reading is found by the file's times, though the size stays: also by the
# time of its last change of any kind, if the time of its bytes is the old one again.
test_looks_at_times() {
  local by
  for by in edit edit_in_secret; do
    anew touch -d '2001-01-01' src/a.c
    under 2 strace -f -y -o "$work/calls" -e trace=read -- -DA src
    anew touch -d '2001-01-01' src/a.c
    paused 2 -DA read "$(last_of read '/src/a.c>')" "$by"
    says 'src/a.c: Changed meanwhile'
    is src/a.c "$edited"
    none_left
  done
}

# A link in the place of the new file is not followed.
test_links_for_new_files() {
  put "$work/victim" 'mine\n'
  chmod 600 "$work/victim"
  meanwhile 2 -DA fchmod 1 put_link src/.unifdef-tree.a.c
  is src/a.c "$text"
  holds_that same "$(stat -c %a "$work/victim") $(cat "$work/victim")" '600 mine'
  holds_that same "$(readlink src/.unifdef-tree.a.c)" "$work/victim"
  meanwhile 2 -DA fchmod 1 rm src/.unifdef-tree.a.c
  is src/a.c "$text"
}

# The file that is read is the one that was found.
test_finds_same_file() {
  local number options
  anew traced 2 openat -DA src
  number=$(number_of openat '/a.c"')
  for options in -DA '-n -DA'; do
    with_outside
    paused 2 "$options" openat "$number" move_directory
    says 'src/directory/b.c: Cannot be read: changed meanwhile'
    is outside/b.c "$text"
  done
  anew paused 2 -DA openat "$number" put_pipe
  holds_that grep -q '^unifdef-tree: src/directory/b.c: Cannot be read' "$work/err"
}

# No call leaves a directory that becomes a link before its listing, or before a replacement in it.
test_stays_in_tree() {
  local number options
  anew traced 2 statx -DA src
  number=$(number_of statx '/directory"')
  with_outside
  put outside/c.c "$text"
  paused 2 -DA statx "$number" move_directory
  says 'src/directory/: Cannot be read: changed meanwhile'
  holds_that same "$(find outside -type f | wc -l)" 2
  is outside/b.c outside/c.c "$text"
  anew traced 2 openat -DA src
  number=$(number_of openat '/b.c", O_RDWR')
  for options in -DA '-w -DA'; do
    with_outside
    [ "$options" = -DA ] || ln src/directory/b.c linked.txt
    paused 2 "$options" openat "$number" move_directory
    is was/b.c 'yes\n'
    none_left
    holds_that same "$(ls -A outside)" b.c
    is outside/b.c "$text"
  done
}

# -w writes into the file whose bytes were compared, and into no other one.
test_writes_into_open_file() {
  anew ln src/a.c linked.txt
  traced 2 statx -w -DA src
  anew ln src/a.c linked.txt
  put "$work/victim" "$text"
  paused 2 '-w -DA' statx "$(last_of statx '/a.c"')" put_link src/a.c
  is linked.txt 'yes\n' and "$work/victim" "$text"
}

# Two runs don't write into one file at once: not after the last look at it, and not before it is cut,
# when it has more lines than either text.
test_one_writer() {
  local call tail='#ifdef B\nb\n#endif\n1 2 3 4\n5 6 7 8\n'
  for call in 'lseek 2' 'write 1'; do
    small_tree
    put src/a.c "#ifdef A\na\n#endif\n$tail"
    ln src/a.c linked.txt
    # shellcheck disable=SC2086 # Words are split.
    paused 2 '-w -DA' $call other_writer
    holds_that grep -qxF 'unifdef-tree: src/a.c: Cannot be read: another run is at it' "$work/other"
    is linked.txt "a\n$tail"
  done
}

# save_both FIRST SECOND: saves both as editors do, by a new file that is renamed.
save_both() {
  local name
  for name in "$1" "$2"; do
    put src/.saved "$text"
    mv src/.saved "src/$name"
  done
  new=$(number "src/$2")
}

# Two files aren't taken for one if the second one gets the number of the first one, which is gone.
test_numbers_used_again() {
  local first second old new
  fresh src/a.c src/b.c
  [ "$(stat -c %W src/a.c)" -gt 0 ] 2> /dev/null || return 0
  traced 1 statx -n -DA src
  first=$(grep -m 1 -o '[ab]\.c"' "$work/calls" | tr -d '"')
  second=$([ "$first" = a.c ] && echo b.c || echo a.c)
  old=$(number "src/$first")
  paused 2 -DA statx "$(number_of statx '/[ab]\.c"')" save_both "$first" "$second"
  [ "$old" = "$new" ] || return 0
  says "src/$first: Changed meanwhile"
  is "src/$second" 'yes\n'
}

# failing_look STATUS ERROR WORD..: runs it with a first look at a.c that fails.
failing_look() {
  under "$1" strace -f -o /dev/null -P /proc/self/fd/3/a.c \
    -e inject='?lstat,?newfstatat,statx':error="$2":when=1 -- "${@:3}"
}

# A name vanishes between the listing of its directory, or its naming, and the look at it.
test_vanishing() {
  anew rm src/bad.c
  failing_look 1 ENOENT -DA src
  says '1 changed, 1 unchanged, 0 faulty'
  anew failing_look 2 EIO -DA src
  says 'src/a.c: Cannot be found: Input/output error'
  is src/directory/b.c 'yes\n'
  anew failing_look 2 ENOENT -DA src/directory src/a.c
  says 'src/a.c: No such file or directory'
  is src/directory/b.c "$text"
  printf 'src/a.c\0src/directory/b.c\0' > "$work/paths"
  input=$work/paths failing_look 2 ENOENT -0 -DA
  says 'src/a.c: No such file or directory'
  is src/directory/b.c 'yes\n'
}
