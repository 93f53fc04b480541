#!/usr/bin/env bash
# Runs unifdef-tree over trees with every trap that its manual names, and kills it at each system
# call on the tree: in $TMPDIR and, if they are there, in /dev/shm and in file systems of other
# kinds.
#
#   tests/tree.sh                     all tests
#   tests/tree.sh SUBJECT|TEST ..     those of tests/tree/SUBJECT.sh, or one function there
#
# With arguments, it names each test that it runs. A failed check is printed with its file and line,
# and with what the last run wrote.
#
# A test makes files, runs unifdef-tree over them, and checks what it wrote and what they are now:
#
#   test_example() {
#     fresh src/a.c                             a new tree of src/a.c, whose $text -DA changes
#     put src/bad.c '#endif\n'                  writes another file
#     run 2 -DA src                             runs it with these words; the status must be 2
#     is src/a.c 'yes\n' and src/bad.c '#endif\n'    the files must have these texts
#     says 'a message'                          standard error must have this line; says_only
#                                               checks all of it, says_first and says_last an end
#     prints ''                                 standard output must be empty
#     after '0 -n -DA src/a.c' prints ''        a run with its status, and one check of it
#     under 2 flock src/lock -- -DA src         a run by another command, here flock
#     holds_that cmp src/a.c src/b.c            any other check: a command that must succeed
#   }
#
# A status follows from EXIT STATUS of the manual, and not from the program: 2 after any error, else
# 1 if a file changed and 0 if none did, also with -n. -s has 0 there, and -x another meaning.
# shellcheck disable=SC2034 # Some names are for those files.
source "$(dirname "$0")/checks.sh"
needs ./unifdef ./unifdef-tree patch setpriv
export TERM=xterm
name=tree-test TREE=$here/unifdef-tree UNIFDEF=$here/unifdef first=$work mounted='' status=0 ran=()
main=${TMPDIR:-/tmp}
subjects=(names files patterns arguments lists symbols prune squeeze diffs limits streams)
subjects+=(scale calls races)
text='#ifdef A\nyes\n#else\nno\n#endif\n'
# How a run that changes files ends if a call fails or memory is refused: 1 if it lost nothing by
# that, as when a directory can't be closed, and 2 with a message.
whole_or_failed='1 2'

# holds_that COMMAND..: a check: the command must succeed. Else the line of the test is printed, the
# command, and the last run. A test may be called with other streams, so they go to the stream 7.
exec 7>&1
holds_that() {
  local at=1 before=$failed
  while [[ ${FUNCNAME[at]} != test_* ]]; do at=$((at + 1)); done
  check "$work: ${BASH_SOURCE[at]##*/}:${BASH_LINENO[at - 1]}: ${FUNCNAME[at]}: ${*@Q}" "$@" \
    > "$work/failure"
  if [ "$failed" -gt "$before" ]; then
    { beginning "$work/failure"; show_last_run; } >&7
  fi
}

# show_last_run: prints the command of the last run, its status, and the beginning of its streams.
show_last_run() {
  local stream
  [ "${#ran[@]}" -gt 0 ] || return 0
  printf '  the last run: %.500s\n' "${ran[*]@Q}"
  echo "  its status: $status"
  for stream in out err; do
    echo "  its $stream:"
    beginning "$work/$stream" | sed 's/^/    /'
  done
}

# beginning FILE: prints its first lines, and the first bytes of each, with `..` if there are more.
beginning() {
  head -n 20 "$1" | cut -b -300 | cat -v
  [ "$(head -n 21 "$1" | wc -l)" -le 20 ] || echo '..'
}

# has_text FILE TEXT: returns whether the file has this text, with escapes. Else prints what it has.
has_text() { [ "$(cat "$1"; echo .)" = "$(printf '%b' "$2"; echo .)" ] || { cat "$1"; false; }; }
is_root() { [ "$(id -u)" -eq 0 ]; }

# for_root WHAT: succeeds for root. Else what follows is skipped.
for_root() { is_root || { skip "$1" 'only root may do this'; false; }; }
number() { stat -c %i "$1"; }
repeat() { printf "%0$2d" 0 | sed "s/0/$1/g"; }

# ends STATUS: the last run must have ended so. If that depends on the moment, STATUS is a list of
# all that are right.
ends() { holds_that is_among "$status" "$1"; }
is_among() { [[ " $2 " == *" $1 "* ]] || same "$1" "$2"; }

# exits STATUS COMMAND..: a command must end so, also if its streams are closed. What it writes is
# shown only if the streams are $work/{out,err}.
exits() {
  ran=("${@:2}")
  : > "$work/out"
  : > "$work/err"
  "${@:2}"
  status=$?
  ends "$1"
}

# under STATUS COMMAND.. -- WORD..: runs it by a command, from $input or nothing to $work/{out,err}.
# run STATUS WORD..: runs it alone.
under() {
  local by=() wanted=$1
  while shift && [ "$1" != -- ]; do
    by+=("$1")
  done
  status=0 ran=("${by[@]}" "$TREE" "${@:2}")
  (cd "$work/run" && "${ran[@]}"; exit "$?") \
    > "$work/out" 2> "$work/err" < "${input:-/dev/null}" || status=$?
  ends "$wanted"
}
run() { under "$1" -- "${@:2}"; }

# refused MESSAGE WORD..: runs it, with this message and nothing else.
refused() {
  run 2 "${@:2}"
  says_only "$1"
  prints ''
}

# as_nobody STATUS WORD..: runs it as a user who owns nothing.
as_nobody() {
  cp "$TREE" "$work/program"
  TREE=$work/program under "$1" setpriv --reuid 65534 --regid 65534 --clear-groups -- "${@:2}"
}

# says LINE..: messages of the last run. says_only LINE..: all of them. says_first, says_last LINE.
says() {
  local line
  for line; do
    holds_that grep -qxF -e "unifdef-tree: $line" "$work/err"
  done
}
says_only() { holds_that same "$(cat "$work/err")" "${*:+$(printf 'unifdef-tree: %s\n' "$@")}"; }
says_first() { holds_that same "$(head -n 1 "$work/err")" "unifdef-tree: $1"; }
says_last() { holds_that same "$(tail -n $# "$work/err")" "$(printf 'unifdef-tree: %s\n' "$@")"; }

# prints TEXT [FILTER..]: what the last run wrote, as a filter leaves it.
prints() {
  local filter=("${@:2}")
  [ $# -gt 1 ] || filter=(cat)
  holds_that same "$("${filter[@]}" < "$work/out")" "$1"
}

# after WORDS CHECK ARGUMENT..: a check of a run with a status and words.
after() {
  # shellcheck disable=SC2086 # Words are split.
  run $1
  "${@:2}"
}

# put FILE.. TEXT: writes a text with escapes. is FILE.. TEXT [and FILE.. TEXT ..]: they have it.
put() {
  local file
  for file in "${@:1:$#-1}"; do
    printf '%b' "${*: -1}" > "$file"
  done
}
is() {
  local it file words=()
  for it in "$@" and; do
    if [ "$it" != and ]; then
      words+=("$it")
      continue
    fi
    for file in "${words[@]::${#words[@]}-1}"; do
      holds_that has_text "$file" "${words[-1]}"
    done
    words=()
  done
}
# before_and_after: its standard input has a text, a line `->`, and what a run must make of that.
# They go to src/a.c and $work/wanted.
before_and_after() {
  cat > "$work/both"
  sed '/^->$/,$d' "$work/both" > src/a.c
  sed '1,/^->$/d' "$work/both" > "$work/wanted"
}
none_left() { holds_that same "$(find -L "$work/run" -name '.unifdef-tree*')" ''; }

# fresh FILE..: makes a new tree of files that -DA changes. alone FILE.. TEXT: one of files with a
# text. small_tree: one of files of each kind, over which -DA has the status 2 for src/bad.c.
# anew COMMAND..: runs a command over a small tree.
fresh() {
  rm -rf "$work/run"
  mkdir -p "$work/run/src"
  cd "$work/run" || exit 1
  put "$@" "$text"
}
alone() {
  fresh
  put "$@"
}
small_tree() {
  fresh src/a.c
  mkdir src/directory
  put src/directory/b.c "$text"
  put src/bad.c '#endif\n'
  put src/same.c 'int a;\n'
}

anew() {
  small_tree
  "$@"
}

# each_old_or_new: checks that each file of the small tree without an error is old or new.
each_old_or_new() {
  local name
  for name in src/a.c src/directory/b.c; do
    has_text "$name" "$text" > /dev/null || is "$name" 'yes\n'
  done
  is src/same.c 'int a;\n'
}

# can_trace WHAT: returns whether strace works. Else what follows is skipped.
# traced STATUS CALLS WORD..: runs it, with its calls of these names in $work/calls.
# injected STATUS CALL:HOW WORD..: runs it, while strace changes a call.
can_trace() {
  has strace || { lacks strace "$1"; return 1; }
  strace -o /dev/null true 2> /dev/null || { skip "$1" 'no process can be traced here'; false; }
}
traced() { under "$1" strace -f -o "$work/calls" -e trace="$2" -- "${@:3}"; }
injected() {
  local how=(-e trace="${2%%:*}" -e inject="$2")
  # What a shell in the background starts ignores some signals.
  under "$1" env --default-signal strace -f -o /dev/null "${how[@]}" -- "${@:3}"
}

# in_directory DIRECTORY [WHAT]: runs the tests in a directory of its own below a directory, which
# is shown as WHAT. Those of scale run in the first one alone.
in_directory() {
  local test before
  work=$(mktemp -d "$1/tree-test.XXXXXX")
  chmod 755 "$work"
  for test in "${tests[@]}"; do
    if [[ $test == test_scale_* && $1 != "$main" ]]; then continue; fi
    before=$((passed + failed)) ran=()
    "$test"
    [ "$named" -eq 0 ] || echo "$name: $test in ${2:-$1}: $((passed + failed - before)) checks"
  done
  cd /
  rm -rf "$work"
}

# in_image KIND SIZE: the same on a file system of this kind, whose times may be ticks of a second.
in_image() {
  for_root "a file system of $1" || return 0
  has "mkfs.$1" || { lacks "mkfs.$1" "a file system of $1"; return 0; }
  mounted=$(mktemp -d "${TMPDIR:-/tmp}/tree-test.XXXXXX")
  truncate -s "$2" "$mounted/image"
  mkdir "$mounted/top"
  if "mkfs.$1" -q "$mounted/image" 2> /dev/null &&
    mount -o loop "$mounted/image" "$mounted/top" 2> /dev/null; then
    in_directory "$mounted/top" "a file system of $1"
    umount "$mounted/top"
  else
    skip "a file system of $1" 'it cannot be mounted here'
  fi
  rm -rf "$mounted"
}

leave() {
  cd /
  umount "$work/small" "$work/layers" "$mounted/top" 2> /dev/null
  rm -rf "$work" "$mounted" "$first"
}

tests=() named=$#
for subject in "${subjects[@]}"; do
  # shellcheck source=/dev/null
  source "$here/tests/tree/$subject.sh"
done
for it in "${@:-${subjects[@]}}"; do
  file=tests/tree/$it.sh wanted='test_\w*'
  if [[ $it == test_* ]]; then
    file=$(grep -l "^$it() " tests/tree/*.sh) wanted=$it
  fi
  if [ ! -e "$file" ]; then
    echo "tree-test: no subject and no test is called $it" >&2
    exit 1
  fi
  if [[ $file =~ /(calls|races).sh$ ]] && ! can_trace "$it"; then continue; fi
  mapfile -t -O "${#tests[@]}" tests < <(sed -n "s/^\\($wanted\\)() .*/\\1/p" "$file")
done
trap leave EXIT
in_directory "$main"
if [ -w /dev/shm ]; then
  in_directory /dev/shm
else
  skip 'a file system in memory' '/dev/shm is not there'
fi
in_image ext3 32M
in_image xfs 400M
finish
